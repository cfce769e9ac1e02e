package tinkey

import (
	"bytes"
	"errors"
	"io"
	"os"
	"strings"
	"sync"
	"testing"
	"testing/iotest"
)

// The methods of Tink's interface for Go.
var _ interface {
	NewEncryptingWriter(w io.Writer, associatedData []byte) (io.WriteCloser, error)
	NewDecryptingReader(r io.Reader, associatedData []byte) (io.Reader, error)
} = (*Streaming)(nil)

// How many bytes a segment of the streams of ../examples/streams.json has.
const segment = 4096

// streams returns the handle of the keyset of examples/.
func streams(t *testing.T) *Streaming {
	t.Helper()
	text, err := os.ReadFile("../examples/streams.json")
	if err != nil {
		t.Fatal(err)
	}
	return must[*Streaming](t)(NewStreaming(text))
}

// long returns the handle of a keyset whose segments have a mebibyte: a key of AES-GCM-HKDF of zeros.
func long(t *testing.T) *Streaming {
	t.Helper()
	return must[*Streaming](t)(NewStreaming([]byte(`{"primaryKeyId": 1, "key": [{"keyData": {
		"typeUrl": "type.googleapis.com/google.crypto.tink.AesGcmHkdfStreamingKey",
		"value": "EggIgIBAEBAYAxoQAAAAAAAAAAAAAAAAAAAAAA==", "keyMaterialType": "SYMMETRIC"},
		"status": "ENABLED", "keyId": 1, "outputPrefixType": "RAW"}]}`)))
}

// sealed returns the stream of a text that is written in pieces of that many bytes.
func sealed(t *testing.T, keys *Streaming, text, ad []byte, piece int) []byte {
	t.Helper()
	var stream bytes.Buffer
	writer, err := keys.NewEncryptingWriter(&stream, ad)
	if err != nil {
		t.Fatal(err)
	}
	for rest := text; len(rest) > 0; {
		count := len(rest)
		if count > piece {
			count = piece
		}
		if taken, err := writer.Write(rest[:count]); err != nil || taken != count {
			t.Fatalf("%d of %d bytes are taken: %v", taken, count, err)
		}
		rest = rest[count:]
	}
	if err := writer.Close(); err != nil {
		t.Fatal(err)
	}
	return stream.Bytes()
}

// opened returns what a reader gives of a stream, and the error at its end.
func opened(t *testing.T, keys *Streaming, stream io.Reader, ad []byte) ([]byte, error) {
	t.Helper()
	reader, err := keys.NewDecryptingReader(stream, ad)
	if err != nil {
		t.Fatal(err)
	}
	return io.ReadAll(reader)
}

// refuses fails the test unless a stream is refused, with nothing before but the front of a text.
func refuses(t *testing.T, what string, keys *Streaming, stream, ad, text []byte) {
	t.Helper()
	if given, err := opened(t, keys, bytes.NewReader(stream), ad); err != ErrRefused || !bytes.HasPrefix(text, given) {
		t.Errorf("%s: %d bytes, %v", what, len(given), err)
	}
}

// counted returns bytes that tell where they stand.
func counted(size int) []byte {
	text := make([]byte, size)
	for i := range text {
		text[i] = byte(i ^ i>>8 ^ i>>16)
	}
	return text
}

func TestStreamsOfTinkOpen(t *testing.T) {
	for _, it := range rows(t, "sopen") {
		var keys *Streaming
		if it.words[1] == "wrapped" {
			form, masterForm, _ := strings.Cut(it.words[2], "+")
			keys = must[*Streaming](t)(NewStreamingWrapped(it.bytes("encrypted"), formOf(form), unhex(it.keyset),
				formOf(masterForm)))
		} else {
			keys = must[*Streaming](t)(NewStreamingBinary(unhex(it.keyset)))
		}
		stream, ad, text := it.bytes("input"), it.bytes("ad"), it.bytes("released")
		var want error
		if it.words[len(it.words)-1] == "fails" {
			want = ErrRefused
		}
		for name, reader := range map[string]io.Reader{
			"whole":       bytes.NewReader(stream),
			"by halves":   iotest.HalfReader(bytes.NewReader(stream)),
			"by bytes":    iotest.OneByteReader(bytes.NewReader(stream)),
			"with an end": iotest.DataErrReader(bytes.NewReader(stream)),
		} {
			given, err := opened(t, keys, reader, ad)
			isAll := want == nil || name == "by bytes"
			if err != want || !bytes.HasPrefix(text, given) || isAll && len(given) != len(text) {
				t.Errorf("%v, %s, gives %x and %v", it.words, name, given, err)
			}
		}
		if want != nil {
			continue
		}
		for at := range stream {
			changed := append([]byte(nil), stream...)
			changed[at] ^= 1
			refuses(t, "changed", keys, changed, ad, text)
			refuses(t, "cut off", keys, stream[:at], ad, text)
		}
		refuses(t, "longer", keys, append(stream[:len(stream):len(stream)], 0), ad, text)
		refuses(t, "other data", keys, stream, append(ad[:len(ad):len(ad)], 0), nil)
	}
}

func TestWhatIsSealedInPiecesOpens(t *testing.T) {
	keys, ad := streams(t), []byte("ad")
	for _, size := range []int{0, 1, 4055, 4056, 4057, 8135, 8136, 8137, 200000} {
		text := counted(size)
		for _, piece := range []int{999, segment, 1 << 20} {
			stream := sealed(t, keys, text, ad, piece)
			given, err := opened(t, keys, bytes.NewReader(stream), ad)
			if err != nil || !bytes.Equal(given, text) {
				t.Errorf("%d bytes by %d: %v", size, piece, err)
			}
			if bytes.Equal(stream, sealed(t, keys, text, ad, piece)) {
				t.Errorf("%d bytes by %d: two streams are one", size, piece)
			}
			refuses(t, "cut off", keys, stream[:len(stream)-1], ad, text)
			refuses(t, "without its data", keys, stream, nil, nil)
		}
	}
}

// A segment gives more at once than the room that there is at first.
func TestLongSegmentsGrowTheRoom(t *testing.T) {
	keys, text := long(t), counted(5<<19)
	stream := sealed(t, keys, text, nil, 1<<16)
	if given, err := opened(t, keys, bytes.NewReader(stream), nil); err != nil || !bytes.Equal(given, text) {
		t.Errorf("%d bytes, %v", len(given), err)
	}
	refuses(t, "cut off at a segment", keys, stream[:2<<20], nil, text)
}

func TestAReaderKeepsTheRulesOfReaders(t *testing.T) {
	keys, text := streams(t), counted(9000)
	reader, err := keys.NewDecryptingReader(bytes.NewReader(sealed(t, keys, text, nil, 100)), nil)
	if err != nil {
		t.Fatal(err)
	}
	if err := iotest.TestReader(reader, text); err != nil {
		t.Error(err)
	}
}

func TestSegmentsStandInTheirOrder(t *testing.T) {
	keys, text := streams(t), counted(20000)
	stream := sealed(t, keys, text, nil, 5000)
	part := func(from, to int) []byte { return stream[from*segment : to*segment] }
	rest := stream[4*segment:]
	for what, parts := range map[string][][]byte{
		"two changed places":      {part(0, 1), part(2, 3), part(1, 2), part(3, 4), rest},
		"one is missing":          {part(0, 1), part(2, 4), rest},
		"one comes twice":         {part(0, 2), part(1, 2), part(2, 4), rest},
		"the first is missing":    {part(1, 4), rest},
		"the last is missing":     {part(0, 4)},
		"the last comes twice":    {part(0, 4), rest, rest},
		"the last comes early":    {part(0, 3), rest},
		"one of another stream":   {part(0, 1), sealed(t, keys, text, nil, 5000)[segment : 2*segment], part(2, 4), rest},
		"another stream after it": {stream, sealed(t, keys, text, nil, 5000)},
	} {
		refuses(t, what, keys, bytes.Join(parts, nil), nil, text)
	}
}

// A stream that wasn't closed isn't whole.
func TestAStreamIsWholeOnlyOnceItIsClosed(t *testing.T) {
	keys, text := streams(t), counted(20000)
	var stream bytes.Buffer
	writer, err := keys.NewEncryptingWriter(&stream, nil)
	if err != nil {
		t.Fatal(err)
	}
	if _, err := writer.Write(text); err != nil {
		t.Fatal(err)
	}
	refuses(t, "not closed", keys, stream.Bytes(), nil, text)
	for i := 0; i < 2; i++ {
		if err := writer.Close(); err != nil {
			t.Error(err)
		}
		if count, err := writer.Write(text); count != 0 || err != ErrClosed {
			t.Error(count, err)
		}
		if given, err := opened(t, keys, bytes.NewReader(stream.Bytes()), nil); err != nil || !bytes.Equal(given, text) {
			t.Errorf("%d bytes, %v", len(given), err)
		}
	}
}

var errOfTest = errors.New("the test's own")

// A failing writer takes so many bytes.
type failing struct {
	left  int
	calls int
	short bool // whether it takes fewer bytes and returns no error
}

func (f *failing) Write(data []byte) (int, error) {
	f.calls++
	if f.left -= len(data); f.left >= 0 {
		return len(data), nil
	}
	if f.short {
		return len(data) + f.left, nil
	}
	return 0, errOfTest
}

func TestAWriterThatFailedWritesNoMore(t *testing.T) {
	keys, text := streams(t), counted(20000)
	for _, short := range []bool{false, true} {
		want := map[bool]error{false: errOfTest, true: io.ErrShortWrite}[short]
		for _, left := range []int{0, 1, segment, 3 * segment} {
			to := &failing{left: left, short: short}
			writer, err := keys.NewEncryptingWriter(to, nil)
			if err != nil {
				t.Fatal(err)
			}
			taken := 0
			for i := 0; i < len(text) && err == nil; i += 1000 {
				var count int
				count, err = writer.Write(text[i : i+1000])
				taken += count
			}
			calls := to.calls
			if err != want || taken >= len(text) || taken%1000 != 0 {
				t.Errorf("%d bytes may be written: %d are taken, %v", left, taken, err)
			}
			if count, err := writer.Write(text); count != 0 || err != want {
				t.Error(count, err)
			}
			for i := 0; i < 2; i++ {
				if err := writer.Close(); err != want {
					t.Error(err)
				}
			}
			if count, err := writer.Write(text); count != 0 || err != ErrClosed {
				t.Error(count, err)
			}
			if to.calls != calls {
				t.Errorf("%d bytes may be written: it was written to after that", left)
			}
		}
	}
	// the header of 24 bytes is written, and the end of a short stream is what fails
	writer, err := keys.NewEncryptingWriter(&failing{left: 24}, nil)
	if err != nil {
		t.Fatal(err)
	}
	if count, err := writer.Write([]byte("text")); count != 4 || err != nil {
		t.Error(count, err)
	}
	if err := writer.Close(); err != errOfTest {
		t.Error(err)
	}
}

func TestAnErrorOfTheSourceIsNoEnd(t *testing.T) {
	keys, text := streams(t), counted(20000)
	stream := sealed(t, keys, text, nil, 5000)
	for cut := 0; cut <= len(stream); cut += 1000 {
		for _, want := range []error{errOfTest, io.ErrUnexpectedEOF} {
			source := io.MultiReader(bytes.NewReader(stream[:cut]), iotest.ErrReader(want))
			for _, from := range []io.Reader{source, iotest.DataErrReader(source)} {
				given, err := opened(t, keys, from, nil)
				if err != want || !bytes.HasPrefix(text, given) {
					t.Errorf("%d bytes, and an error: %d bytes, %v", cut, len(given), err)
				}
			}
		}
	}
	// after an error that passes, the reader goes on
	reader, err := keys.NewDecryptingReader(iotest.TimeoutReader(iotest.OneByteReader(bytes.NewReader(stream))), nil)
	if err != nil {
		t.Fatal(err)
	}
	if given, err := io.ReadAll(reader); err != iotest.ErrTimeout || len(given) != 0 {
		t.Errorf("%d bytes, %v", len(given), err)
	}
	if given, err := io.ReadAll(reader); err != nil || !bytes.Equal(given, text) {
		t.Errorf("%d bytes, %v", len(given), err)
	}
}

// An idle reader gives nothing.
type idle struct{}

func (idle) Read([]byte) (int, error) { return 0, nil }

func TestARefusalAndAnEndStay(t *testing.T) {
	keys, text := streams(t), counted(20000)
	stream := sealed(t, keys, text, nil, 5000)
	for want, bytesThere := range map[error][]byte{io.EOF: stream, ErrRefused: stream[:len(stream)-1]} {
		source := bytes.NewReader(bytesThere)
		reader, err := keys.NewDecryptingReader(source, nil)
		if err != nil {
			t.Fatal(err)
		}
		if _, err := io.Copy(io.Discard, reader); err != nil && err != want {
			t.Error(err)
		}
		source.Reset(stream)
		for i := 0; i < 2; i++ {
			if count, err := reader.Read(make([]byte, 10)); count != 0 || err != want {
				t.Error(count, err)
			}
		}
		if source.Len() != len(stream) {
			t.Errorf("after %v it goes on to read", want)
		}
	}
	if _, err := opened(t, keys, idle{}, nil); err != io.ErrNoProgress {
		t.Error(err)
	}
}

func TestAClosedReaderReadsNoMore(t *testing.T) {
	keys := streams(t)
	source := bytes.NewReader(sealed(t, keys, counted(200000), nil, 5000))
	reader, err := keys.NewDecryptingReader(source, nil)
	if err != nil {
		t.Fatal(err)
	}
	if count, err := reader.Read(make([]byte, 10)); count != 10 || err != nil {
		t.Error(count, err)
	}
	left := source.Len()
	for i := 0; i < 2; i++ {
		if err := reader.(io.Closer).Close(); err != nil {
			t.Error(err)
		}
		if count, err := reader.Read(make([]byte, 10)); count != 0 || err != ErrClosed || source.Len() != left {
			t.Error(count, err)
		}
	}
}

func TestStreamsOutliveTheirKeys(t *testing.T) {
	keys, text := streams(t), counted(20000)
	var stream, again bytes.Buffer
	writer, err := keys.NewEncryptingWriter(&stream, nil)
	if err != nil {
		t.Fatal(err)
	}
	reader, err := keys.NewDecryptingReader(&stream, nil)
	if err != nil {
		t.Fatal(err)
	}
	keys.Close()
	if _, err := writer.Write(text); err != nil {
		t.Error(err)
	}
	if err := writer.Close(); err != nil {
		t.Error(err)
	}
	if _, err := again.ReadFrom(reader); err != nil || !bytes.Equal(again.Bytes(), text) {
		t.Error(err)
	}
	if _, err := keys.NewEncryptingWriter(&stream, nil); err != ErrClosed {
		t.Error(err)
	}
	if _, err := keys.NewDecryptingReader(&stream, nil); err != ErrClosed {
		t.Error(err)
	}
}

func TestAHandleOfAnotherPrimitiveIsRefused(t *testing.T) {
	keys, aead := streams(t), example(t)
	text, err := os.ReadFile("../examples/streams.json")
	if err != nil {
		t.Fatal(err)
	}
	for what, err := range map[string]error{
		"an AEAD of streams' keys":   second(NewAead(text)),
		"a MAC of streams' keys":     second(NewMac(text)),
		"streams of an AEAD's keys":  second(NewStreamingBinary(unhex(rows(t, "open")[0].keyset))),
		"streams of an AEAD, binary": second(NewStreamingBinary(unhex(rows(t, "dseal")[0].keyset))),
	} {
		if err != ErrUnfitKey {
			t.Errorf("%s: %v", what, err)
		}
	}
	// the types exclude these, and so does the library
	if _, err := (&Aead{keys.handle}).Encrypt([]byte("text"), nil); err != ErrOtherPrimitive {
		t.Error(err)
	}
	if _, err := (&Streaming{aead.handle}).NewEncryptingWriter(io.Discard, nil); err != ErrOtherPrimitive {
		t.Error(err)
	}
	if _, err := (&Streaming{aead.handle}).NewDecryptingReader(&bytes.Buffer{}, nil); err != ErrOtherPrimitive {
		t.Error(err)
	}
}

func TestGoroutinesShareTheKeysOfStreams(t *testing.T) {
	keys, text := streams(t), counted(20000)
	var all sync.WaitGroup
	for i := 0; i < 8; i++ {
		all.Add(1)
		go func() {
			defer all.Done()
			for j := 0; j < 10; j++ {
				var stream, again bytes.Buffer
				writer, err := keys.NewEncryptingWriter(&stream, nil)
				if err == nil {
					_, err = writer.Write(text)
				}
				if err == nil {
					err = writer.Close()
				}
				reader, other := keys.NewDecryptingReader(&stream, nil)
				if err == nil && other == nil {
					_, err = again.ReadFrom(reader)
				}
				if err != nil || other != nil || !bytes.Equal(again.Bytes(), text) {
					t.Error(err, other)
				}
			}
		}()
	}
	all.Wait()
}
