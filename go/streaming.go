package tinkey

import (
	"io"
	"sync"
)

// How many bytes of a stream are handed on at once, and the room for what they give to begin with.
const (
	pieceSize = 65536
	pieceRoom = pieceSize + 4096
)

// How many reads in a row may give neither bytes nor an error.
const emptyReads = 100

// settle hands a stream the next bytes of its input, or its end, and returns what they settle. It lies in out, which is
// made longer if it has to be.
func settle(stream *handle, ends bool, piece []byte, out *[]byte) ([]byte, error) {
	size, err := stream.step(ends, piece, *out)
	if err == ErrNoRoom {
		*out = make([]byte, size)
		size, err = stream.step(ends, nil, *out)
	}
	if err != nil {
		return nil, err
	}
	return (*out)[:size], nil
}

// An encryptingWriter seals a stream.
type encryptingWriter struct {
	mutex  sync.Mutex
	stream *handle
	to     io.Writer
	out    []byte
	failed error // of the first call that failed
	closed bool
}

// Write seals more of the plaintext. It returns how much of it was sealed, in whole pieces.
func (w *encryptingWriter) Write(plaintext []byte) (int, error) {
	w.mutex.Lock()
	defer w.mutex.Unlock()
	if w.closed {
		return 0, ErrClosed
	}
	taken := 0
	for w.failed == nil && taken < len(plaintext) {
		end := len(plaintext)
		if end > taken+pieceSize {
			end = taken + pieceSize
		}
		if w.failed = w.put(false, plaintext[taken:end]); w.failed == nil {
			taken = end
		}
	}
	return taken, w.failed
}

// Close seals the end of the stream, unless a call has failed, and returns nil if the stream is whole. A writer that is
// closed may be closed again: it returns the same, and does nothing else.
func (w *encryptingWriter) Close() error {
	w.mutex.Lock()
	defer w.mutex.Unlock()
	if !w.closed && w.failed == nil {
		w.failed = w.put(true, nil)
	}
	w.closed = true
	w.stream.Close()
	return w.failed
}

// put writes what a piece of the plaintext settles, or its end.
func (w *encryptingWriter) put(ends bool, piece []byte) error {
	sealed, err := settle(w.stream, ends, piece, &w.out)
	if err != nil || len(sealed) == 0 {
		return err
	}
	count, err := w.to.Write(sealed)
	if err == nil && count != len(sealed) {
		err = io.ErrShortWrite
	}
	return err
}

// A decryptingReader opens a stream.
type decryptingReader struct {
	mutex      sync.Mutex
	stream     *handle
	from       io.Reader
	piece, out []byte
	said       error  // what from said, and what comes after the bytes that it gave with it
	plain      []byte // what has authenticated, and wasn't read yet
	end        error  // what comes after plain: io.EOF, or why there is no more
}

// Read returns more of the plaintext.
func (r *decryptingReader) Read(plaintext []byte) (int, error) {
	r.mutex.Lock()
	defer r.mutex.Unlock()
	if len(plaintext) == 0 {
		return 0, nil
	}
	for len(r.plain) == 0 && r.end == nil {
		if err := r.fill(); err != nil {
			return 0, err
		}
	}
	count := copy(plaintext, r.plain)
	r.plain = r.plain[count:]
	if count == 0 {
		return 0, r.end
	}
	return count, nil
}

// Close frees the stream. A reader that is closed reads no more.
func (r *decryptingReader) Close() error {
	r.mutex.Lock()
	defer r.mutex.Unlock()
	r.plain, r.end = nil, ErrClosed
	return r.stream.Close()
}

// fill takes more of the stream, or its end. It returns an error of its source, after which another call goes on.
func (r *decryptingReader) fill() error {
	count := 0
	for tries := 0; count == 0 && r.said == nil; tries++ {
		if tries == emptyReads {
			return io.ErrNoProgress
		}
		count, r.said = r.from.Read(r.piece)
	}
	if count != 0 {
		r.take(false, r.piece[:count])
		return nil
	}
	said := r.said
	r.said = nil
	if said != io.EOF {
		return said
	}
	r.take(true, nil)
	return nil
}

// take opens what a piece of the stream settles, or its end.
func (r *decryptingReader) take(ends bool, piece []byte) {
	r.plain, r.end = settle(r.stream, ends, piece, &r.out)
	if ends && r.end == nil {
		r.end = io.EOF
	}
	if r.end != nil {
		r.stream.Close()
	}
}
