// Package tinkey has Tink's primitives over the keysets of Tink and of tinkey, by calls of the C library libtinkey.
//
// A handle has the keys of one keyset for one primitive. Its methods are those of Tink's interfaces for Go: an [Aead] is
// a tink.AEAD, a [Daead] a tink.DeterministicAEAD, a [Mac] a tink.MAC, a [Prf] a prf.PRF and a [Streaming] a
// tink.StreamingAEAD. What is proved of the library, and what isn't, is told at the head of its header, tinkey.h. This
// package is tested alone.
//
// Any goroutine may call a handle, and close it. Calls on one handle run one at a time, so give each busy goroutine a
// handle of its own. An input isn't read after its call, and mustn't be written while it runs. An error of a handle is an
// [Error] or [ErrClosed], and no result comes beside it.
//
// The package finds the library by pkg-config. PKG_CONFIG_PATH names the folder of a tinkey.pc that isn't installed.
package tinkey

/*
#cgo pkg-config: tinkey
#include <tinkey.h>

// Bytes have a type of their own here: of a void * Go would look through all memory behind it for pointers.
typedef const unsigned char *bytes;

enum { AEAD, DAEAD, MAC, PRF, STREAMING, SEALING, OPENING };

typedef struct {
	tinkey_status status;
	void *keys;
} made;

#define NEW(t) { \
	tinkey_##t *keys = NULL; \
	tinkey_status status = form == TINKEY_JSON ? tinkey_##t##_new(text, size, &keys) \
		: tinkey_##t##_new_binary(text, size, &keys); \
	return (made){status, keys}; \
}

#define NEW_WRAPPED(t) { \
	tinkey_##t *keys = NULL; \
	tinkey_status status = tinkey_##t##_new_wrapped(text, size, form, master, master_size, master_form, &keys); \
	return (made){status, keys}; \
}

static made new_keys(int primitive, bytes text, size_t size, tinkey_form form) {
	switch (primitive) {
	case AEAD: NEW(aead)
	case DAEAD: NEW(daead)
	case MAC: NEW(mac)
	case PRF: NEW(prf)
	default: NEW(streaming)
	}
}

static made new_wrapped_keys(int primitive, bytes text, size_t size, tinkey_form form, bytes master, size_t master_size,
		tinkey_form master_form) {
	switch (primitive) {
	case AEAD: NEW_WRAPPED(aead)
	case DAEAD: NEW_WRAPPED(daead)
	case MAC: NEW_WRAPPED(mac)
	case PRF: NEW_WRAPPED(prf)
	default: NEW_WRAPPED(streaming)
	}
}

static void free_keys(int primitive, void *keys) {
	switch (primitive) {
	case AEAD: tinkey_aead_free(keys); break;
	case DAEAD: tinkey_daead_free(keys); break;
	case MAC: tinkey_mac_free(keys); break;
	case PRF: tinkey_prf_free(keys); break;
	case STREAMING: tinkey_streaming_free(keys); break;
	case SEALING: tinkey_sealing_free(keys); break;
	default: tinkey_opening_free(keys);
	}
}

static made begin(int stream, void *keys, bytes ad, size_t size) {
	tinkey_sealing *sealing = NULL;
	tinkey_opening *opening = NULL;
	tinkey_status status = stream == SEALING ? tinkey_sealing_new(keys, ad, size, &sealing)
		: tinkey_opening_new(keys, ad, size, &opening);
	return (made){status, stream == SEALING ? (void *)sealing : (void *)opening};
}

enum { SEAL, OPEN, DSEAL, DOPEN, TAG, VERIFY, DERIVE };

typedef struct {
	tinkey_status status;
	size_t size;
} answer;

static answer run(int call, void *keys, bytes a, size_t a_size, bytes b, size_t b_size, unsigned char *out, size_t room) {
	size_t size = room;
	tinkey_status status;
	switch (call) {
	case SEAL: status = tinkey_aead_seal(keys, a, a_size, b, b_size, out, room, &size); break;
	case OPEN: status = tinkey_aead_open(keys, a, a_size, b, b_size, out, room, &size); break;
	case DSEAL: status = tinkey_daead_seal(keys, a, a_size, b, b_size, out, room, &size); break;
	case DOPEN: status = tinkey_daead_open(keys, a, a_size, b, b_size, out, room, &size); break;
	case TAG: status = tinkey_mac_tag(keys, a, a_size, out, room, &size); break;
	case VERIFY: status = tinkey_mac_verify(keys, a, a_size, b, b_size); break;
	default: status = tinkey_prf_derive(keys, a, a_size, out, room);
	}
	return (answer){status, size};
}

#define STEP(t) { \
	tinkey_status status = ends ? tinkey_##t##_finish(at, out, room, &size) \
		: tinkey_##t##_update(at, piece, piece_size, out, room, &size); \
	return (answer){status, status == TINKEY_NO_ROOM ? tinkey_##t##_waiting(at) : size}; \
}

// With too little room, the size is how many bytes wait.
static answer step(int stream, void *at, _Bool ends, bytes piece, size_t piece_size, unsigned char *out, size_t room) {
	size_t size = 0;
	switch (stream) {
	case SEALING: STEP(sealing)
	default: STEP(opening)
	}
}
*/
import "C"

import (
	"errors"
	"io"
	"runtime"
	"sync"
	"unsafe"
)

// An Error is a status of the library other than TINKEY_OK, by its number. Compare it with [errors.Is].
type Error int

// The statuses. [ErrOtherPrimitive], [ErrNoRoom], [ErrBadCall], [ErrEnded] and [ErrCallback] can't come from the calls of
// this package, except for a [Form] that isn't one: a stream that has failed goes on to return its first error.
const (
	// No key opens the bytes with this associated data, the tag isn't the body's, or the stream isn't whole.
	ErrRefused Error = C.TINKEY_REFUSED
	// The text isn't a keyset in this form, or what was encrypted isn't a keyset.
	ErrNoKeyset Error = C.TINKEY_NO_KEYSET
	// An ENABLED key of the keyset can't serve for the primitive.
	ErrUnfitKey Error = C.TINKEY_UNFIT_KEY
	// The handle is for another primitive.
	ErrOtherPrimitive Error = C.TINKEY_OTHER_PRIMITIVE
	// The output is shorter than the answer; a stream keeps the answer.
	ErrNoRoom Error = C.TINKEY_NO_ROOM
	// An input of a call has more than 2^30 bytes, an encrypted keyset more than 4,194,304 or its master more than
	// 1,048,576, the key derives fewer bytes, or a stream has more than 2^32 segments.
	ErrTooLong Error = C.TINKEY_TOO_LONG
	// The system gives no random bytes.
	ErrNoRandom Error = C.TINKEY_NO_RANDOM
	// Memory was refused.
	ErrNoMemory Error = C.TINKEY_NO_MEMORY
	// A null pointer, a length over PTRDIFF_MAX, an unknown form, or an output that overlaps something else.
	ErrBadCall Error = C.TINKEY_BAD_CALL
	// The processor lacks what the library is built for.
	ErrOldProcessor Error = C.TINKEY_OLD_PROCESSOR
	// The text of the master isn't a keyset in this form.
	ErrNoMaster Error = C.TINKEY_NO_MASTER
	// An ENABLED key of the master can't serve as an AEAD.
	ErrUnfitMaster Error = C.TINKEY_UNFIT_MASTER
	// The text isn't an encrypted keyset in this form.
	ErrNoWrapped Error = C.TINKEY_NO_WRAPPED
	// The stream has ended, or a call of it has failed.
	ErrEnded Error = C.TINKEY_ENDED
	// A function of the program for reading or writing failed.
	ErrCallback Error = C.TINKEY_CALLBACK
)

// ErrClosed is the error of a call on a handle, a writer or a reader that is closed.
var ErrClosed = errors.New("tinkey: the handle is closed")

// Error returns the library's line of English for the status.
func (e Error) Error() string {
	return "tinkey: " + C.GoString(C.tinkey_status_text(C.tinkey_status(e)))
}

// A Form is that of a keyset's text.
type Form int

// Tink's JSON, and the binary form.
const (
	JSON   Form = C.TINKEY_JSON
	Binary Form = C.TINKEY_BINARY
)

// A handle has keys or a stream, and lets them go once it is closed or nothing refers to it any longer.
type handle struct {
	mutex     sync.Mutex // so that a goroutine waits for another one's call, and no thread does
	primitive C.int
	keys      unsafe.Pointer // nil once it is closed
}

// at returns where bytes are, or nil if there are none.
func at(bytes []byte) *C.uchar {
	if len(bytes) == 0 {
		return nil
	}
	return (*C.uchar)(unsafe.Pointer(&bytes[0]))
}

// held returns the handle of keys that were made, or the error of their status.
func held(primitive C.int, made C.made) (*handle, error) {
	if made.status != C.TINKEY_OK {
		return nil, Error(made.status)
	}
	h := &handle{primitive: primitive, keys: made.keys}
	runtime.SetFinalizer(h, (*handle).Close)
	return h, nil
}

// ofText returns the handle of a keyset in clear.
func ofText(primitive C.int, text []byte, form Form) (*handle, error) {
	return held(primitive, C.new_keys(primitive, at(text), C.size_t(len(text)), C.tinkey_form(form)))
}

// ofWrapped returns the handle of an encrypted keyset.
func ofWrapped(primitive C.int, encrypted []byte, form Form, master []byte, masterForm Form) (*handle, error) {
	return held(primitive, C.new_wrapped_keys(primitive, at(encrypted), C.size_t(len(encrypted)), C.tinkey_form(form),
		at(master), C.size_t(len(master)), C.tinkey_form(masterForm)))
}

// Close lets the keys go, after the call that runs, and returns nil. A handle that is closed may be closed again, and
// does nothing else.
func (h *handle) Close() error {
	h.mutex.Lock()
	defer h.mutex.Unlock()
	if h.keys != nil {
		C.free_keys(h.primitive, h.keys)
		h.keys = nil
		runtime.SetFinalizer(h, nil)
	}
	return nil
}

// run returns what a call writes from two inputs into an output with that room.
func (h *handle) run(call C.int, first, second []byte, room C.size_t) ([]byte, error) {
	out := make([]byte, room)
	h.mutex.Lock()
	defer h.mutex.Unlock()
	if h.keys == nil {
		return nil, ErrClosed
	}
	answer := C.run(call, h.keys, at(first), C.size_t(len(first)), at(second), C.size_t(len(second)), at(out), room)
	if answer.status != C.TINKEY_OK {
		return nil, Error(answer.status)
	}
	return out[:answer.size], nil
}

// begin returns the handle of a stream that begins under the keys.
func (h *handle) begin(stream C.int, associatedData []byte) (*handle, error) {
	h.mutex.Lock()
	defer h.mutex.Unlock()
	if h.keys == nil {
		return nil, ErrClosed
	}
	return held(stream, C.begin(stream, h.keys, at(associatedData), C.size_t(len(associatedData))))
}

// step hands a stream the next bytes of its input, or says that it ends, and returns how much it writes into the output,
// or with [ErrNoRoom] how much more it would write if it were asked again, without the bytes.
func (h *handle) step(ends bool, piece, out []byte) (int, error) {
	h.mutex.Lock()
	defer h.mutex.Unlock()
	if h.keys == nil {
		return 0, ErrClosed
	}
	answer := C.step(h.primitive, h.keys, C._Bool(ends), at(piece), C.size_t(len(piece)), at(out), C.size_t(len(out)))
	if answer.status != C.TINKEY_OK {
		return int(answer.size), Error(answer.status)
	}
	return int(answer.size), nil
}

// An Aead seals and opens: authenticated encryption with associated data.
type Aead struct{ *handle }

// NewAead returns the handle of a keyset in Tink's JSON.
func NewAead(json []byte) (*Aead, error) { return aead(ofText(C.AEAD, json, JSON)) }

// NewAeadBinary returns the handle of a keyset in the binary form.
func NewAeadBinary(data []byte) (*Aead, error) { return aead(ofText(C.AEAD, data, Binary)) }

// NewAeadWrapped returns the handle of a keyset that is encrypted under a master keyset. It returns
// [ErrRefused] if no key of the master opens it, and also of a keyset in clear.
func NewAeadWrapped(encrypted []byte, form Form, master []byte, masterForm Form) (*Aead, error) {
	return aead(ofWrapped(C.AEAD, encrypted, form, master, masterForm))
}

func aead(h *handle, err error) (*Aead, error) {
	if err != nil {
		return nil, err
	}
	return &Aead{h}, nil
}

// Encrypt seals under the primary key, with a fresh IV of the system's random bytes.
func (a *Aead) Encrypt(plaintext, associatedData []byte) ([]byte, error) {
	return a.run(C.SEAL, plaintext, associatedData, C.tinkey_aead_seal_room(C.size_t(len(plaintext))))
}

// Decrypt opens what an ENABLED key of the keyset sealed. It returns [ErrRefused] if none opens it.
func (a *Aead) Decrypt(ciphertext, associatedData []byte) ([]byte, error) {
	return a.run(C.OPEN, ciphertext, associatedData, C.size_t(len(ciphertext)))
}

// A Daead does the same without an IV: equal plaintexts with equal associated data have equal ciphertexts.
type Daead struct{ *handle }

// NewDaead returns the handle of a keyset in Tink's JSON.
func NewDaead(json []byte) (*Daead, error) { return daead(ofText(C.DAEAD, json, JSON)) }

// NewDaeadBinary returns the handle of a keyset in the binary form.
func NewDaeadBinary(data []byte) (*Daead, error) { return daead(ofText(C.DAEAD, data, Binary)) }

// NewDaeadWrapped returns the handle of a keyset that is encrypted under a master keyset. It returns
// [ErrRefused] if no key of the master opens it, and also of a keyset in clear.
func NewDaeadWrapped(encrypted []byte, form Form, master []byte, masterForm Form) (*Daead, error) {
	return daead(ofWrapped(C.DAEAD, encrypted, form, master, masterForm))
}

func daead(h *handle, err error) (*Daead, error) {
	if err != nil {
		return nil, err
	}
	return &Daead{h}, nil
}

// EncryptDeterministically seals under the primary key.
func (d *Daead) EncryptDeterministically(plaintext, associatedData []byte) ([]byte, error) {
	return d.run(C.DSEAL, plaintext, associatedData, C.tinkey_daead_seal_room(C.size_t(len(plaintext))))
}

// DecryptDeterministically opens what an ENABLED key of the keyset sealed. It returns [ErrRefused] if none opens it.
func (d *Daead) DecryptDeterministically(ciphertext, associatedData []byte) ([]byte, error) {
	return d.run(C.DOPEN, ciphertext, associatedData, C.size_t(len(ciphertext)))
}

// A Mac makes tags and verifies them.
type Mac struct{ *handle }

// NewMac returns the handle of a keyset in Tink's JSON.
func NewMac(json []byte) (*Mac, error) { return mac(ofText(C.MAC, json, JSON)) }

// NewMacBinary returns the handle of a keyset in the binary form.
func NewMacBinary(data []byte) (*Mac, error) { return mac(ofText(C.MAC, data, Binary)) }

// NewMacWrapped returns the handle of a keyset that is encrypted under a master keyset. It returns
// [ErrRefused] if no key of the master opens it, and also of a keyset in clear.
func NewMacWrapped(encrypted []byte, form Form, master []byte, masterForm Form) (*Mac, error) {
	return mac(ofWrapped(C.MAC, encrypted, form, master, masterForm))
}

func mac(h *handle, err error) (*Mac, error) {
	if err != nil {
		return nil, err
	}
	return &Mac{h}, nil
}

// ComputeMAC returns the tag under the primary key, behind its output prefix.
func (m *Mac) ComputeMAC(data []byte) ([]byte, error) {
	return m.run(C.TAG, data, nil, C.tinkey_mac_tag_room())
}

// VerifyMAC returns nil if the whole tag is the data's under an ENABLED key, and [ErrRefused] if it isn't.
func (m *Mac) VerifyMAC(mac, data []byte) error {
	_, err := m.run(C.VERIFY, mac, data, 0)
	return err
}

// A Prf derives bytes: pseudo-random functions.
type Prf struct{ *handle }

// NewPrf returns the handle of a keyset in Tink's JSON.
func NewPrf(json []byte) (*Prf, error) { return prf(ofText(C.PRF, json, JSON)) }

// NewPrfBinary returns the handle of a keyset in the binary form.
func NewPrfBinary(data []byte) (*Prf, error) { return prf(ofText(C.PRF, data, Binary)) }

// NewPrfWrapped returns the handle of a keyset that is encrypted under a master keyset. It returns
// [ErrRefused] if no key of the master opens it, and also of a keyset in clear.
func NewPrfWrapped(encrypted []byte, form Form, master []byte, masterForm Form) (*Prf, error) {
	return prf(ofWrapped(C.PRF, encrypted, form, master, masterForm))
}

func prf(h *handle, err error) (*Prf, error) {
	if err != nil {
		return nil, err
	}
	return &Prf{h}, nil
}

// ComputePRF derives so many bytes from the input under the primary key. It returns [ErrTooLong] if the key gives fewer.
func (p *Prf) ComputePRF(input []byte, outputLength uint32) ([]byte, error) {
	return p.run(C.DERIVE, input, nil, C.size_t(outputLength))
}

// A Streaming seals and opens streams of any length: streaming authenticated encryption with associated data.
type Streaming struct{ *handle }

// NewStreaming returns the handle of a keyset in Tink's JSON.
func NewStreaming(json []byte) (*Streaming, error) { return streaming(ofText(C.STREAMING, json, JSON)) }

// NewStreamingBinary returns the handle of a keyset in the binary form.
func NewStreamingBinary(data []byte) (*Streaming, error) {
	return streaming(ofText(C.STREAMING, data, Binary))
}

// NewStreamingWrapped returns the handle of a keyset that is encrypted under a master keyset. It returns
// [ErrRefused] if no key of the master opens it, and also of a keyset in clear.
func NewStreamingWrapped(encrypted []byte, form Form, master []byte, masterForm Form) (*Streaming, error) {
	return streaming(ofWrapped(C.STREAMING, encrypted, form, master, masterForm))
}

func streaming(h *handle, err error) (*Streaming, error) {
	if err != nil {
		return nil, err
	}
	return &Streaming{h}, nil
}

// NewEncryptingWriter begins to seal a stream under the primary key, with fresh random bytes. It seals what is written to
// the writer that it returns, and writes the stream to w. Close writes the end of the stream, and leaves w open; the
// stream is whole only if Close has returned nil. So don't close a writer whose plaintext isn't all there, as when reading
// it has failed: leave it, and nobody opens that stream to its end.
//
// An error of w is returned as it is. After an error, each further call returns it again and writes nothing. The keys may
// be closed before the writer.
func (s *Streaming) NewEncryptingWriter(w io.Writer, associatedData []byte) (io.WriteCloser, error) {
	stream, err := s.begin(C.SEALING, associatedData)
	if err != nil {
		return nil, err
	}
	return &encryptingWriter{stream: stream, to: w, out: make([]byte, pieceRoom)}, nil
}

// NewDecryptingReader begins to open the stream that r reads, under the first ENABLED key that opens its first segment.
// Each byte that the reader returns has authenticated in its place, and [io.EOF] says that the stream was whole; one that
// was cut off, changed or reordered ends in [ErrRefused] instead.
//
// An error of r, other than [io.EOF], is returned as it is, and another Read goes on. The keys may be closed before the
// reader, which is an [io.Closer] as well: Close frees the stream before its end.
func (s *Streaming) NewDecryptingReader(r io.Reader, associatedData []byte) (io.Reader, error) {
	stream, err := s.begin(C.OPENING, associatedData)
	if err != nil {
		return nil, err
	}
	return &decryptingReader{stream: stream, from: r, piece: make([]byte, pieceSize), out: make([]byte, pieceRoom)}, nil
}
