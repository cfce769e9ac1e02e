package tinkey_test

import (
	"bytes"
	"errors"
	"fmt"
	"io"
	"log"
	"os"
	"strings"
	"sync/atomic"

	"tinkey"
)

func Example() {
	text, err := os.ReadFile("../examples/aes128-gcm.json")
	if err != nil {
		log.Fatal(err)
	}
	keys, err := tinkey.NewAead(text)
	if err != nil {
		log.Fatal(err)
	}
	defer keys.Close()

	sealed, err := keys.Encrypt([]byte("attack at dawn"), []byte("associated data"))
	if err != nil {
		log.Fatal(err)
	}
	opened, err := keys.Decrypt(sealed, []byte("associated data"))
	fmt.Printf("%d bytes, which open to %q\n", len(sealed), opened)

	_, err = keys.Decrypt(sealed, []byte("other data"))
	fmt.Println(errors.Is(err, tinkey.ErrRefused), err)
	// Output:
	// 47 bytes, which open to "attack at dawn"
	// true tinkey: no key opens the bytes with this associated data, the tag isn't the body's, or the stream isn't whole
}

// A stream is sealed as it is written, and opened as it is read.
func ExampleStreaming() {
	text, err := os.ReadFile("../examples/streams.json")
	if err != nil {
		log.Fatal(err)
	}
	keys, err := tinkey.NewStreaming(text)
	if err != nil {
		log.Fatal(err)
	}
	defer keys.Close()

	plain, sealed := strings.NewReader("attack at dawn"), &bytes.Buffer{}
	writer, err := keys.NewEncryptingWriter(sealed, []byte("associated data"))
	if err != nil {
		log.Fatal(err)
	}
	if _, err := io.Copy(writer, plain); err != nil {
		log.Fatal(err) // and no Close, so that this part of a stream doesn't open as a whole one
	}
	if err := writer.Close(); err != nil {
		log.Fatal(err)
	}
	fmt.Println(sealed.Len(), "bytes")

	cut := bytes.NewReader(sealed.Bytes()[:sealed.Len()-1])
	reader, err := keys.NewDecryptingReader(sealed, []byte("associated data"))
	if err != nil {
		log.Fatal(err)
	}
	opened, err := io.ReadAll(reader)
	fmt.Printf("%q, %v\n", opened, err)

	reader, err = keys.NewDecryptingReader(cut, []byte("associated data"))
	if err != nil {
		log.Fatal(err)
	}
	_, err = io.ReadAll(reader)
	fmt.Println(err)
	// Output:
	// 54 bytes
	// "attack at dawn", <nil>
	// tinkey: no key opens the bytes with this associated data, the tag isn't the body's, or the stream isn't whole
}

// A service takes up a new keyset while others call: the old handle is freed after the last call on it.
func Example_newKeyset() {
	var current atomic.Pointer[tinkey.Aead]
	load := func(name string) error {
		text, err := os.ReadFile(name)
		if err != nil {
			return err
		}
		keys, err := tinkey.NewAead(text)
		if err != nil {
			return err // the old keyset stays in use
		}
		current.Store(keys)
		return nil
	}
	if err := load("../examples/aes128-gcm.json"); err != nil {
		log.Fatal(err)
	}
	sealed, err := current.Load().Encrypt([]byte("attack at dawn"), nil)
	fmt.Println(len(sealed), err, load("no such file") != nil)
	// Output: 47 <nil> true
}
