package tinkey

import (
	"bufio"
	"bytes"
	"encoding/hex"
	"errors"
	"os"
	"strconv"
	"strings"
	"sync"
	"testing"
)

// The methods of Tink's interfaces for Go.
var (
	_ interface {
		Encrypt(plaintext, associatedData []byte) ([]byte, error)
		Decrypt(ciphertext, associatedData []byte) ([]byte, error)
	} = (*Aead)(nil)
	_ interface {
		EncryptDeterministically(plaintext, associatedData []byte) ([]byte, error)
		DecryptDeterministically(ciphertext, associatedData []byte) ([]byte, error)
	} = (*Daead)(nil)
	_ interface {
		ComputeMAC(data []byte) ([]byte, error)
		VerifyMAC(mac, data []byte) error
	} = (*Mac)(nil)
	_ interface {
		ComputePRF(input []byte, outputLength uint32) ([]byte, error)
	} = (*Prf)(nil)
)

// A row of the file of outside values, which says at its head where they come from.
type row struct {
	words  []string // the call, and what is said of it
	keyset string
	fields map[string]string
}

// bytes returns those of a field.
func (r row) bytes(name string) []byte { return unhex(r.fields[name]) }

func unhex(text string) []byte {
	data, err := hex.DecodeString(strings.Trim(text, "-"))
	if err != nil {
		panic(err)
	}
	return data
}

// rows returns those of these calls, and fails the test if there are none.
func rows(t *testing.T, calls string) (found []row) {
	file, err := os.Open("../tools/library_rows.txt")
	if err != nil {
		t.Fatal(err)
	}
	defer file.Close()
	lines := bufio.NewScanner(file)
	lines.Buffer(nil, 1<<20)
	for lines.Scan() {
		parts := strings.Split(lines.Text(), "|")
		words := strings.Fields(parts[0])
		if len(parts) < 2 || !strings.Contains(" "+calls+" ", " "+words[0]+" ") {
			continue
		}
		it := row{words, strings.TrimSpace(parts[1]), map[string]string{}}
		for _, part := range parts[2:] {
			name, value, _ := strings.Cut(strings.TrimSpace(part), " ")
			it.fields[name] = value
		}
		found = append(found, it)
	}
	if lines.Err() != nil || len(found) == 0 {
		t.Fatal("no rows of ", calls, lines.Err())
	}
	return found
}

// must returns a handle that was made, and closes it when the test ends.
func must[T interface{ Close() error }](t *testing.T) func(T, error) T {
	return func(it T, err error) T {
		t.Helper()
		if err != nil {
			t.Fatal(err)
		}
		t.Cleanup(func() { it.Close() })
		return it
	}
}

// called makes the row's call.
func called(t *testing.T, it row) ([]byte, error) {
	keyset, input, ad := unhex(it.keyset), it.bytes("input"), it.bytes("ad")
	switch it.words[0] {
	case "open":
		return must[*Aead](t)(NewAeadBinary(keyset)).Decrypt(input, ad)
	case "dopen":
		return must[*Daead](t)(NewDaeadBinary(keyset)).DecryptDeterministically(input, ad)
	case "dseal":
		return must[*Daead](t)(NewDaeadBinary(keyset)).EncryptDeterministically(input, ad)
	case "tag":
		return must[*Mac](t)(NewMacBinary(keyset)).ComputeMAC(input)
	default:
		length, err := strconv.ParseUint(it.fields["length"], 10, 32)
		if err != nil {
			t.Fatal(err)
		}
		return must[*Prf](t)(NewPrfBinary(keyset)).ComputePRF(input, uint32(length))
	}
}

func TestAnswersAreThoseOfTink(t *testing.T) {
	for _, it := range rows(t, "open dopen dseal tag derive") {
		if it.words[1] == "wrapped" {
			continue
		}
		got, err := called(t, it)
		if it.words[len(it.words)-1] == "fails" {
			want := ErrRefused
			if it.words[0] == "derive" {
				want = ErrTooLong
			}
			if !errors.Is(err, want) || got != nil {
				t.Errorf("%v gives %x and %v, not %v", it.words, got, err, want)
			}
			continue
		}
		if err != nil || !bytes.Equal(got, it.bytes("output")) {
			t.Errorf("%v gives %x and %v", it.words, got, err)
		}
	}
}

func TestTagsOfTinkVerifyWholeAndAlone(t *testing.T) {
	for _, it := range rows(t, "tag") {
		if it.words[1] == "wrapped" {
			continue
		}
		keys, tag, body := must[*Mac](t)(NewMacBinary(unhex(it.keyset))), it.bytes("output"), it.bytes("input")
		if err := keys.VerifyMAC(tag, body); err != nil {
			t.Error(it.words, err)
		}
		for _, wrong := range [][]byte{nil, tag[1:], tag[:len(tag)-1], append(tag[:len(tag):len(tag)], 0)} {
			if err := keys.VerifyMAC(wrong, body); err != ErrRefused {
				t.Errorf("%v: the tag %x gives %v", it.words, wrong, err)
			}
		}
	}
}

func formOf(word string) Form {
	if word == "json" {
		return JSON
	}
	return Binary
}

func TestEncryptedKeysetsOfTinkHaveTheKeysOfThoseInClear(t *testing.T) {
	for _, it := range rows(t, "unwrap") {
		master, encrypted, keyset := unhex(it.keyset), it.bytes("input"), it.bytes("output")
		form := formOf(it.words[1])
		switch {
		case it.words[len(it.words)-1] == "fails":
			if _, err := NewMacWrapped(encrypted, form, master, Binary); err != ErrRefused {
				t.Errorf("%v gives %v", it.words, err)
			}
		case bytes.Contains(keyset, []byte("tink.HmacKey")):
			keys := must[*Mac](t)(NewMacWrapped(encrypted, form, master, Binary))
			tag, err := must[*Mac](t)(NewMacBinary(keyset)).ComputeMAC([]byte("body"))
			if err != nil || keys.VerifyMAC(tag, []byte("body")) != nil {
				t.Errorf("%v: the tag %x, %v", it.words, tag, err)
			}
		case bytes.Contains(keyset, []byte("AesCtrHmacAeadKey")):
			keys := must[*Aead](t)(NewAeadWrapped(encrypted, form, master, Binary))
			sealed, err := must[*Aead](t)(NewAeadBinary(keyset)).Encrypt([]byte("text"), []byte("ad"))
			if err != nil {
				t.Fatal(err)
			}
			if text, err := keys.Decrypt(sealed, []byte("ad")); err != nil || string(text) != "text" {
				t.Errorf("%v: %q, %v", it.words, text, err)
			}
		default:
			for name, err := range map[string]error{
				"AEAD":  second(NewAeadWrapped(encrypted, form, master, Binary)),
				"DAEAD": second(NewDaeadWrapped(encrypted, form, master, Binary)),
				"MAC":   second(NewMacWrapped(encrypted, form, master, Binary)),
				"PRF":   second(NewPrfWrapped(encrypted, form, master, Binary)),
			} {
				if err != ErrUnfitKey {
					t.Errorf("%v as %s gives %v", it.words, name, err)
				}
			}
		}
	}
}

func second[T any](_ T, err error) error { return err }

func TestEncryptedKeysetsGiveTheStatusOfTheirRow(t *testing.T) {
	for _, it := range rows(t, "tag seal derive") {
		if it.words[1] != "wrapped" {
			continue
		}
		form, masterForm, _ := strings.Cut(it.words[2], "+")
		encrypted, master := it.bytes("encrypted"), unhex(it.keyset)
		var got []byte
		var err error
		switch it.words[0] {
		case "tag":
			var keys *Mac
			if keys, err = NewMacWrapped(encrypted, formOf(form), master, formOf(masterForm)); err == nil {
				got, err = keys.ComputeMAC(it.bytes("input"))
				keys.Close()
			}
		case "seal":
			_, err = NewAeadWrapped(encrypted, formOf(form), master, formOf(masterForm))
		case "derive":
			_, err = NewPrfWrapped(encrypted, formOf(form), master, formOf(masterForm))
		}
		status, _ := strconv.Atoi(it.words[3])
		if status == 0 && (err != nil || !bytes.Equal(got, it.bytes("output"))) {
			t.Errorf("%s gives %x and %v", it.fields["shows"], got, err)
		} else if status != 0 && !errors.Is(err, Error(status)) {
			t.Errorf("%s gives %v, not %v", it.fields["shows"], err, Error(status))
		}
	}
}

// example returns the handle of the keyset of examples/.
func example(t *testing.T) *Aead {
	text, err := os.ReadFile("../examples/aes128-gcm.json")
	if err != nil {
		t.Fatal(err)
	}
	return must[*Aead](t)(NewAead(text))
}

func TestWhatIsSealedOpensWithItsDataAlone(t *testing.T) {
	keys := example(t)
	for _, size := range []int{0, 1, 15, 16, 17, 4096, 1 << 20} {
		text, ad := bytes.Repeat([]byte{7}, size), []byte("ad")
		sealed, err := keys.Encrypt(text, ad)
		if err != nil {
			t.Fatal(err)
		}
		again, err := keys.Encrypt(text, ad)
		if err != nil || bytes.Equal(sealed, again) {
			t.Errorf("%d bytes: two sealings are one, or %v", size, err)
		}
		if opened, err := keys.Decrypt(sealed, ad); err != nil || !bytes.Equal(opened, text) {
			t.Errorf("%d bytes: %v", size, err)
		}
		for _, wrong := range [][]byte{nil, sealed[:len(sealed)-1], sealed[1:]} {
			if _, err := keys.Decrypt(wrong, ad); err != ErrRefused {
				t.Errorf("%d bytes, of which %d are left: %v", size, len(wrong), err)
			}
		}
		if _, err := keys.Decrypt(sealed, nil); err != ErrRefused {
			t.Errorf("%d bytes without their data: %v", size, err)
		}
	}
}

// Bytes that lie beside a pointer of Go's are an input as any others.
func TestBytesInsideOfAStructAreTaken(t *testing.T) {
	inside := &struct {
		pointer *int
		text    [16]byte
	}{pointer: new(int)}
	if _, err := example(t).Encrypt(inside.text[:], inside.text[:]); err != nil {
		t.Error(err)
	}
}

func TestGoroutinesShareAHandle(t *testing.T) {
	keys := example(t)
	var all sync.WaitGroup
	for i := 0; i < 8; i++ {
		all.Add(1)
		go func() {
			defer all.Done()
			for j := 0; j < 50; j++ {
				sealed, err := keys.Encrypt([]byte("text"), nil)
				if err != nil {
					t.Error(err)
				}
				if text, err := keys.Decrypt(sealed, nil); err != nil || string(text) != "text" {
					t.Error(err)
				}
			}
		}()
	}
	all.Wait()
}

func TestAClosedHandleDoesNothing(t *testing.T) {
	keys := example(t)
	for i := 0; i < 2; i++ {
		if err := keys.Close(); err != nil {
			t.Error(err)
		}
		if _, err := keys.Encrypt(nil, nil); !errors.Is(err, ErrClosed) {
			t.Error(err)
		}
	}
}

func TestEachErrorHasATextOfItsOwn(t *testing.T) {
	seen := map[string]bool{}
	for _, err := range []error{ErrRefused, ErrNoKeyset, ErrUnfitKey, ErrOtherPrimitive, ErrNoRoom, ErrTooLong,
		ErrNoRandom, ErrNoMemory, ErrBadCall, ErrOldProcessor, ErrNoMaster, ErrUnfitMaster, ErrNoWrapped, ErrEnded,
		ErrCallback, ErrClosed} {
		if seen[err.Error()] || !strings.HasPrefix(err.Error(), "tinkey: ") {
			t.Error(err)
		}
		seen[err.Error()] = true
	}
	for want, err := range map[Error]error{
		ErrNoKeyset: second(NewAead([]byte("{}"))),
		ErrUnfitKey: second(NewMacBinary(unhex(rows(t, "open")[0].keyset))),
		ErrBadCall:  second(NewAeadWrapped(nil, Form(7), nil, JSON)),
		ErrNoMaster: second(NewAeadWrapped(nil, Binary, nil, Binary)),
	} {
		if !errors.Is(err, want) {
			t.Errorf("%v, not %v", err, want)
		}
	}
}
