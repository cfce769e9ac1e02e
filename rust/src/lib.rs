//! Tink's primitives over the keysets of Tink and of tinkey, by calls of the C library libtinkey.
//!
//! ```
//! # std::env::set_current_dir("../examples")?;
//! let keys = tinkey::Aead::from_json(&std::fs::read("aes128-gcm.json")?)?;
//! let sealed = keys.encrypt(b"attack at dawn", b"associated data")?;
//! assert_eq!(keys.decrypt(&sealed, b"associated data")?, b"attack at dawn");
//! assert_eq!(keys.decrypt(&sealed, b"other data"), Err(tinkey::Error::Refused));
//! # Ok::<(), Box<dyn std::error::Error>>(())
//! ```
//!
//! A handle has the keys of one keyset for one primitive, and lets them go when it is dropped. Its methods have the
//! names of Tink's for Rust. What is proved of the library, and what isn't, is told at the head of tinkey.h. This crate
//! is tested alone.
//!
//! Handles are `Send` and `Sync`. Calls on one handle run one at a time, so give each busy thread a handle of its own.
//! The forked child of a process with threads makes its own handles.
//!
//! A stream of any length is sealed as it is written, and opened as it is read; it is whole only if `close` gave `Ok`:
//!
//! ```
//! # use std::io::{Read, Write};
//! # std::env::set_current_dir("../examples")?;
//! let keys = tinkey::Streaming::from_json(&std::fs::read("streams.json")?)?;
//! let mut writer = keys.new_encrypting_writer(Vec::new(), b"associated data")?;
//! writer.write_all(b"attack at dawn")?;
//! let stream = writer.close()?;
//! let mut text = String::new();
//! keys.new_decrypting_reader(&stream[..], b"associated data")?.read_to_string(&mut text)?;
//! # assert_eq!(text, "attack at dawn");
//! # Ok::<(), Box<dyn std::error::Error>>(())
//! ```
//!
//! A service takes up a new keyset while other threads use the old one, which is freed after the last call on it:
//!
//! ```
//! # use {std::sync::{Arc, RwLock}, tinkey::Aead};
//! # let newer = std::fs::read("../examples/aes128-gcm.json")?;
//! # let current = RwLock::new(Arc::new(Aead::from_json(&newer)?));
//! let sealed = current.read().unwrap().clone().encrypt(b"attack at dawn", b"")?;
//! let keys = Arc::new(Aead::from_json(&newer)?); // the old keyset stays in use if this fails
//! *current.write().unwrap() = keys;
//! # current.read().unwrap().decrypt(&sealed, b"")?;
//! # Ok::<(), Box<dyn std::error::Error>>(())
//! ```
//!
//! The library is linked from the folder that the environment variable `TINKEY_LIB_DIR` names, or else by pkg-config.
#![warn(missing_docs)]

mod streaming;

pub use streaming::{DecryptingReader, EncryptingWriter};

use std::ffi::CStr;
use std::fmt;
use std::os::raw::{c_char, c_int, c_void};
use std::ptr::{self, NonNull};

/// Tells what the library's statuses other than TINKEY_OK are.
macro_rules! errors {
    ($($(#[$text:meta])* $name:ident = $number:literal,)*) => {
        /// A status of the library other than TINKEY_OK. Nothing was made or written then. Its text is the library's.
        #[derive(Clone, Copy, Debug, PartialEq, Eq, Hash)]
        #[non_exhaustive]
        #[repr(i32)]
        pub enum Error {
            $($(#[$text])* $name = $number,)*
            /// A status that this crate doesn't know.
            Unknown = -1,
        }

        /// What a call comes to.
        fn check(status: c_int) -> Result<(), Error> {
            match status {
                0 => Ok(()),
                $($number => Err(Error::$name),)*
                _ => Err(Error::Unknown),
            }
        }
    };
}

errors! {
    /// No key opens the bytes with this associated data, the tag isn't the body's, or the stream isn't whole.
    Refused = 1,
    /// The text isn't a keyset in this form, or what was encrypted isn't a keyset.
    NoKeyset = 2,
    /// An ENABLED key of the keyset can't serve for the primitive.
    UnfitKey = 3,
    /// The handle is for another primitive. No call of this crate can report it.
    OtherPrimitive = 4,
    /// The output is shorter than the answer; a stream keeps the answer. No call of this crate can report it.
    NoRoom = 5,
    /// An input of a call has more than 2^30 bytes, an encrypted keyset more than 4,194,304 or its master more than
    /// 1,048,576, the key derives fewer bytes, or a stream has more than 2^32 segments.
    TooLong = 6,
    /// The system gives no random bytes.
    NoRandom = 7,
    /// Memory was refused.
    NoMemory = 8,
    /// A null pointer, a length over PTRDIFF_MAX, an unknown form, or an output that overlaps something else. No call
    /// of this crate can report it.
    BadCall = 9,
    /// The processor lacks what the library is built for.
    OldProcessor = 10,
    /// The text of the master isn't a keyset in this form.
    NoMaster = 11,
    /// An ENABLED key of the master can't serve as an AEAD.
    UnfitMaster = 12,
    /// The text isn't an encrypted keyset in this form.
    NoWrapped = 13,
    /// The stream has ended, or a call of it has failed. No call of this crate can report it: the first error of a
    /// stream comes again.
    Ended = 14,
    /// A function of the program for reading or writing failed. No call of this crate can report it.
    Callback = 15,
}

impl fmt::Display for Error {
    fn fmt(&self, out: &mut fmt::Formatter<'_>) -> fmt::Result {
        // SAFETY: the text of each number is a constant of the library, which a NUL ends.
        let text = unsafe { CStr::from_ptr(tinkey_status_text(*self as c_int)) };
        out.write_str(&text.to_string_lossy())
    }
}

impl std::error::Error for Error {}

/// The form of a keyset's text.
#[derive(Clone, Copy, Debug, PartialEq, Eq, Hash)]
#[repr(i32)]
pub enum Form {
    /// Tink's JSON.
    Json = 0,
    /// The binary form.
    Binary = 1,
}

type Text = *const u8;
type Keys = *mut c_void;
type New = unsafe extern "C" fn(Text, usize, *mut Keys) -> c_int;
type NewWrapped = unsafe extern "C" fn(Text, usize, c_int, Text, usize, c_int, *mut Keys) -> c_int;
type Call = unsafe extern "C" fn(Keys, Text, usize, Text, usize, *mut u8, usize, *mut usize) -> c_int;

/// Keys that a `new` call of the library gave, and that its `free` wasn't called with.
struct Handle {
    keys: NonNull<c_void>,
    free: unsafe extern "C" fn(Keys),
}

// SAFETY: the header lets calls of one handle come from any thread, and has them run one at a time; `free` may come
// from any thread as well, while no other call runs, and `drop` has the handle for itself.
unsafe impl Send for Handle {}
// SAFETY: as above.
unsafe impl Sync for Handle {}

impl Drop for Handle {
    fn drop(&mut self) {
        // SAFETY: the keys are this handle's own, and are let go here alone.
        unsafe { (self.free)(self.keys.as_ptr()) }
    }
}

impl Handle {
    fn new(free: unsafe extern "C" fn(Keys), new: impl FnOnce(*mut Keys) -> c_int) -> Result<Handle, Error> {
        let mut keys = ptr::null_mut();
        check(new(&mut keys))?;
        Ok(Handle { keys: NonNull::new(keys).ok_or(Error::Unknown)?, free })
    }

    /// What a call of two inputs writes into an output with that room.
    fn call(&self, call: Call, first: &[u8], second: &[u8], room: usize) -> Result<Vec<u8>, Error> {
        self.made(room, |keys, out, size| {
            // SAFETY: each pointer and length name memory of a slice, or of the output that `made` hands in.
            unsafe { call(keys, first.as_ptr(), first.len(), second.as_ptr(), second.len(), out, room, size) }
        })
    }

    /// What a call writes into an output with that room, for which memory is asked with care.
    fn made(&self, room: usize, call: impl FnOnce(Keys, *mut u8, &mut usize) -> c_int) -> Result<Vec<u8>, Error> {
        let mut out = Vec::new();
        out.try_reserve_exact(room).map_err(|_| Error::NoMemory)?;
        let mut size = 0;
        check(call(self.keys.as_ptr(), out.as_mut_ptr(), &mut size))?;
        // SAFETY: the call wrote so many bytes, into no more than its room.
        unsafe { out.set_len(size) };
        Ok(out)
    }
}

/// A type of handles, with the functions that make and free them.
macro_rules! handles {
    ($(#[$text:meta])* $name:ident: $new:ident, $new_binary:ident, $new_wrapped:ident, $free:ident) => {
        extern "C" {
            fn $new(json: Text, _: usize, keys: *mut Keys) -> c_int;
            fn $new_binary(bytes: Text, _: usize, keys: *mut Keys) -> c_int;
            fn $new_wrapped(_: Text, _: usize, _: c_int, master: Text, _: usize, _: c_int, keys: *mut Keys) -> c_int;
            fn $free(keys: Keys);
        }

        $(#[$text])*
        pub struct $name(Handle);

        impl $name {
            /// The handle of a keyset in Tink's JSON. The text isn't read afterwards.
            pub fn from_json(text: &[u8]) -> Result<Self, Error> {
                Self::of_text($new, text)
            }

            /// The handle of a keyset in the binary form.
            pub fn from_binary(bytes: &[u8]) -> Result<Self, Error> {
                Self::of_text($new_binary, bytes)
            }

            /// The handle of a keyset that is encrypted under a master keyset, or [`Error::Refused`] if no key of the
            /// master opens it, and also of a keyset in clear.
            pub fn from_encrypted(
                encrypted: &[u8],
                form: Form,
                master: &[u8],
                master_form: Form,
            ) -> Result<Self, Error> {
                let new: NewWrapped = $new_wrapped;
                let (text, size, form) = (encrypted.as_ptr(), encrypted.len(), form as c_int);
                let (key, key_size, key_form) = (master.as_ptr(), master.len(), master_form as c_int);
                // SAFETY: the pointers and lengths are those of slices, and the last one is `Handle::new`'s.
                Handle::new($free, |keys| unsafe { new(text, size, form, key, key_size, key_form, keys) }).map(Self)
            }

            fn of_text(new: New, text: &[u8]) -> Result<Self, Error> {
                // SAFETY: the pointer and the length are those of a slice, and the last one is `Handle::new`'s.
                Handle::new($free, |keys| unsafe { new(text.as_ptr(), text.len(), keys) }).map(Self)
            }
        }

        impl fmt::Debug for $name {
            fn fmt(&self, out: &mut fmt::Formatter<'_>) -> fmt::Result {
                out.write_str(concat!(stringify!($name), " { .. }"))
            }
        }
    };
}

handles! {
    /// Authenticated encryption with associated data.
    Aead: tinkey_aead_new, tinkey_aead_new_binary, tinkey_aead_new_wrapped, tinkey_aead_free
}
handles! {
    /// The same without an IV: equal plaintexts with equal associated data have equal ciphertexts.
    Daead: tinkey_daead_new, tinkey_daead_new_binary, tinkey_daead_new_wrapped, tinkey_daead_free
}
handles! {
    /// Message authentication.
    Mac: tinkey_mac_new, tinkey_mac_new_binary, tinkey_mac_new_wrapped, tinkey_mac_free
}
handles! {
    /// Pseudo-random functions.
    Prf: tinkey_prf_new, tinkey_prf_new_binary, tinkey_prf_new_wrapped, tinkey_prf_free
}

handles! {
    /// Streaming authenticated encryption with associated data: streams of any length.
    Streaming: tinkey_streaming_new, tinkey_streaming_new_binary, tinkey_streaming_new_wrapped, tinkey_streaming_free
}

extern "C" {
    fn tinkey_status_text(status: c_int) -> *const c_char;
    fn tinkey_aead_seal_room(plain: usize) -> usize;
    fn tinkey_daead_seal_room(plain: usize) -> usize;
    fn tinkey_mac_tag_room() -> usize;
    fn tinkey_aead_seal(_: Keys, _: Text, _: usize, _: Text, _: usize, _: *mut u8, _: usize, _: *mut usize) -> c_int;
    fn tinkey_aead_open(_: Keys, _: Text, _: usize, _: Text, _: usize, _: *mut u8, _: usize, _: *mut usize) -> c_int;
    fn tinkey_daead_seal(_: Keys, _: Text, _: usize, _: Text, _: usize, _: *mut u8, _: usize, _: *mut usize) -> c_int;
    fn tinkey_daead_open(_: Keys, _: Text, _: usize, _: Text, _: usize, _: *mut u8, _: usize, _: *mut usize) -> c_int;
    fn tinkey_mac_tag(_: Keys, body: Text, _: usize, out: *mut u8, room: usize, size: *mut usize) -> c_int;
    fn tinkey_mac_verify(_: Keys, tag: Text, _: usize, body: Text, _: usize) -> c_int;
    fn tinkey_prf_derive(_: Keys, input: Text, _: usize, out: *mut u8, count: usize) -> c_int;
}

impl Aead {
    /// Seals under the primary key, with a fresh IV of the system's random bytes.
    pub fn encrypt(&self, plaintext: &[u8], associated_data: &[u8]) -> Result<Vec<u8>, Error> {
        // SAFETY: it is a function of a number.
        let room = unsafe { tinkey_aead_seal_room(plaintext.len()) };
        self.0.call(tinkey_aead_seal, plaintext, associated_data, room)
    }

    /// Opens what an ENABLED key of the keyset sealed, or gives [`Error::Refused`].
    pub fn decrypt(&self, ciphertext: &[u8], associated_data: &[u8]) -> Result<Vec<u8>, Error> {
        self.0.call(tinkey_aead_open, ciphertext, associated_data, ciphertext.len())
    }
}

impl Daead {
    /// Seals under the primary key.
    pub fn encrypt_deterministically(&self, plaintext: &[u8], associated_data: &[u8]) -> Result<Vec<u8>, Error> {
        // SAFETY: it is a function of a number.
        let room = unsafe { tinkey_daead_seal_room(plaintext.len()) };
        self.0.call(tinkey_daead_seal, plaintext, associated_data, room)
    }

    /// Opens what an ENABLED key of the keyset sealed, or gives [`Error::Refused`].
    pub fn decrypt_deterministically(&self, ciphertext: &[u8], associated_data: &[u8]) -> Result<Vec<u8>, Error> {
        self.0.call(tinkey_daead_open, ciphertext, associated_data, ciphertext.len())
    }
}

impl Mac {
    /// The tag under the primary key, behind its output prefix.
    pub fn compute_mac(&self, data: &[u8]) -> Result<Vec<u8>, Error> {
        // SAFETY: it is a constant.
        let room = unsafe { tinkey_mac_tag_room() };
        self.0.made(room, |keys, out, size| {
            // SAFETY: the pointers and lengths are those of a slice and of the output.
            unsafe { tinkey_mac_tag(keys, data.as_ptr(), data.len(), out, room, size) }
        })
    }

    /// Nothing where the whole tag is the data's under an ENABLED key, and [`Error::Refused`] where it isn't.
    pub fn verify_mac(&self, mac: &[u8], data: &[u8]) -> Result<(), Error> {
        let keys = self.0.keys.as_ptr();
        // SAFETY: the pointers and lengths are those of slices.
        check(unsafe { tinkey_mac_verify(keys, mac.as_ptr(), mac.len(), data.as_ptr(), data.len()) })
    }
}

impl Prf {
    /// So many bytes from the input under the primary key, or [`Error::TooLong`] if the key gives fewer.
    pub fn compute_prf(&self, input: &[u8], output_length: usize) -> Result<Vec<u8>, Error> {
        self.0.made(output_length, |keys, out, size| {
            *size = output_length;
            // SAFETY: the pointers and lengths are those of a slice and of the output.
            unsafe { tinkey_prf_derive(keys, input.as_ptr(), input.len(), out, output_length) }
        })
    }
}
