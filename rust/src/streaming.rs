//! Streams: a writer that seals what is written to it, and a reader that opens what it reads.
use super::{check, Error, Handle, Keys, Streaming, Text};
use std::fmt;
use std::io::{self, Read, Write};
use std::os::raw::c_int;

/// How many bytes of a stream are handed on at once.
const PIECE: usize = 65536;

/// The room for what they give, to begin with.
const ROOM: usize = PIECE + 4096;

extern "C" {
    fn tinkey_sealing_new(_: Keys, ad: Text, _: usize, stream: *mut Keys) -> c_int;
    fn tinkey_sealing_update(_: Keys, plain: Text, _: usize, out: *mut u8, room: usize, size: *mut usize) -> c_int;
    fn tinkey_sealing_finish(_: Keys, out: *mut u8, room: usize, size: *mut usize) -> c_int;
    fn tinkey_sealing_waiting(_: Keys) -> usize;
    fn tinkey_sealing_free(_: Keys);
    fn tinkey_opening_new(_: Keys, ad: Text, _: usize, stream: *mut Keys) -> c_int;
    fn tinkey_opening_update(_: Keys, sealed: Text, _: usize, out: *mut u8, room: usize, size: *mut usize) -> c_int;
    fn tinkey_opening_finish(_: Keys, out: *mut u8, room: usize, size: *mut usize) -> c_int;
    fn tinkey_opening_waiting(_: Keys) -> usize;
    fn tinkey_opening_free(_: Keys);
}

/// The calls of one kind of streams.
struct Calls {
    new: unsafe extern "C" fn(Keys, Text, usize, *mut Keys) -> c_int,
    update: unsafe extern "C" fn(Keys, Text, usize, *mut u8, usize, *mut usize) -> c_int,
    finish: unsafe extern "C" fn(Keys, *mut u8, usize, *mut usize) -> c_int,
    waiting: unsafe extern "C" fn(Keys) -> usize,
    free: unsafe extern "C" fn(Keys),
}

static SEALING: Calls = Calls {
    new: tinkey_sealing_new,
    update: tinkey_sealing_update,
    finish: tinkey_sealing_finish,
    waiting: tinkey_sealing_waiting,
    free: tinkey_sealing_free,
};

static OPENING: Calls = Calls {
    new: tinkey_opening_new,
    update: tinkey_opening_update,
    finish: tinkey_opening_finish,
    waiting: tinkey_opening_waiting,
    free: tinkey_opening_free,
};

/// A stream under way, and what it gave last.
struct Stream {
    handle: Handle,
    calls: &'static Calls,
    given: Vec<u8>,
    /// How many bytes of `given` were taken.
    taken: usize,
    /// Why the stream ended before its end.
    failed: Option<Error>,
}

impl Stream {
    fn begin(keys: &Streaming, calls: &'static Calls, associated_data: &[u8]) -> Result<Stream, Error> {
        let (data, size) = (associated_data.as_ptr(), associated_data.len());
        // SAFETY: the keys are a handle's own, the pointer and the length are those of a slice, and the last one is
        // `Handle::new`'s.
        let handle =
            Handle::new(calls.free, |stream| unsafe { (calls.new)(keys.0.keys.as_ptr(), data, size, stream) })?;
        Ok(Stream { handle, calls, given: Vec::new(), taken: 0, failed: None })
    }

    /// What was given, and wasn't taken yet.
    fn rest(&self) -> &[u8] {
        self.given.get(self.taken..).unwrap_or(&[])
    }

    /// Hands on the next bytes of the input, or its end, in place of what was given before.
    fn step(&mut self, piece: Option<&[u8]>) -> Result<(), Error> {
        if let Some(error) = self.failed {
            return Err(error);
        }
        let mut done = self.call(piece, ROOM);
        if done == Err(Error::NoRoom) {
            // SAFETY: the stream is of the kind of these calls.
            let room = unsafe { (self.calls.waiting)(self.handle.keys.as_ptr()) };
            // the bytes were taken
            done = self.call(piece.map(|_| &[][..]), room);
        }
        self.failed = done.err();
        done
    }

    /// A call with at least that room, for which memory is asked with care.
    fn call(&mut self, piece: Option<&[u8]>, room: usize) -> Result<(), Error> {
        self.given.clear();
        self.taken = 0;
        self.given.try_reserve(room).map_err(|_| Error::NoMemory)?;
        let (stream, out, room) = (self.handle.keys.as_ptr(), self.given.as_mut_ptr(), self.given.capacity());
        let mut size = 0;
        // SAFETY: the stream is of the kind of these calls, and each pointer and length name memory of a slice, or of
        // `given`, which has so much room.
        check(unsafe {
            match piece {
                Some(piece) => (self.calls.update)(stream, piece.as_ptr(), piece.len(), out, room, &mut size),
                None => (self.calls.finish)(stream, out, room, &mut size),
            }
        })?;
        // SAFETY: the call wrote so many bytes, into no more than its room.
        unsafe { self.given.set_len(size) };
        Ok(())
    }
}

/// Seals what is written to it, and writes the stream to its destination.
///
/// A stream is whole only once [`close`](EncryptingWriter::close) has given `Ok`. If the writer is dropped before, nobody
/// opens its stream to an end: so an error on the way, or a panic, never makes a part of a plaintext look like all of it.
///
/// A segment is written once a byte follows it, and `flush` can't hurry that. If the destination fails, its error is given
/// as it is, nothing is lost, and the next call goes on where it failed. An [`Error`] of the library comes in an
/// [`io::Error`], and comes again at each further call.
#[must_use = "a stream is whole only once `close` has given Ok"]
pub struct EncryptingWriter<W> {
    stream: Stream,
    destination: W,
}

impl<W: Write> EncryptingWriter<W> {
    /// Seals the end of the stream, writes what isn't written yet, flushes the destination, and gives it back.
    pub fn close(mut self) -> io::Result<W> {
        self.pass_on()?;
        self.stream.step(None)?;
        self.pass_on()?;
        self.destination.flush()?;
        Ok(self.destination)
    }

    /// Writes what was sealed, and isn't written yet.
    fn pass_on(&mut self) -> io::Result<()> {
        while !self.stream.rest().is_empty() {
            match self.destination.write(self.stream.rest()) {
                Ok(0) => return Err(io::ErrorKind::WriteZero.into()),
                Ok(count) => self.stream.taken += count,
                Err(error) if error.kind() == io::ErrorKind::Interrupted => {}
                Err(error) => return Err(error),
            }
        }
        Ok(())
    }
}

impl<W: Write> Write for EncryptingWriter<W> {
    fn write(&mut self, plaintext: &[u8]) -> io::Result<usize> {
        self.pass_on()?;
        let piece = &plaintext[..plaintext.len().min(PIECE)];
        self.stream.step(Some(piece))?;
        Ok(piece.len())
    }

    fn flush(&mut self) -> io::Result<()> {
        self.pass_on()?;
        self.destination.flush()
    }
}

/// Opens the stream that it reads from its source.
///
/// Each byte that it gives has authenticated in its place. The end, `Ok(0)`, says that the stream was whole: one that was
/// cut off, changed or reordered ends in an [`io::Error`] of the kind `InvalidData` with [`Error::Refused`] instead, and
/// each further call gives it again. An error of the source is given as it is, and the next call goes on.
pub struct DecryptingReader<R> {
    stream: Stream,
    source: R,
    piece: Vec<u8>,
    is_whole: bool,
}

impl<R: Read> Read for DecryptingReader<R> {
    fn read(&mut self, plaintext: &mut [u8]) -> io::Result<usize> {
        if plaintext.is_empty() {
            return Ok(0);
        }
        while self.stream.rest().is_empty() && !self.is_whole {
            if let Some(error) = self.stream.failed {
                return Err(error.into());
            }
            let count = self.source.read(&mut self.piece)?;
            self.stream.step(if count == 0 { None } else { Some(&self.piece[..count]) })?;
            self.is_whole = count == 0;
        }
        let rest = self.stream.rest();
        let count = rest.len().min(plaintext.len());
        plaintext[..count].copy_from_slice(&rest[..count]);
        self.stream.taken += count;
        Ok(count)
    }
}

impl Streaming {
    /// Begins to seal a stream under the primary key, with fresh random bytes. The keys may be dropped before the writer.
    pub fn new_encrypting_writer<W: Write>(
        &self,
        destination: W,
        associated_data: &[u8],
    ) -> Result<EncryptingWriter<W>, Error> {
        Ok(EncryptingWriter { stream: Stream::begin(self, &SEALING, associated_data)?, destination })
    }

    /// Begins to open a stream under the first ENABLED key that opens its first segment. The keys may be dropped before
    /// the reader.
    pub fn new_decrypting_reader<R: Read>(
        &self,
        source: R,
        associated_data: &[u8],
    ) -> Result<DecryptingReader<R>, Error> {
        let mut piece = Vec::new();
        piece.try_reserve_exact(PIECE).map_err(|_| Error::NoMemory)?;
        piece.resize(PIECE, 0);
        let stream = Stream::begin(self, &OPENING, associated_data)?;
        Ok(DecryptingReader { stream, source, piece, is_whole: false })
    }
}

impl<W> fmt::Debug for EncryptingWriter<W> {
    fn fmt(&self, out: &mut fmt::Formatter<'_>) -> fmt::Result {
        out.write_str("EncryptingWriter { .. }")
    }
}

impl<R> fmt::Debug for DecryptingReader<R> {
    fn fmt(&self, out: &mut fmt::Formatter<'_>) -> fmt::Result {
        out.write_str("DecryptingReader { .. }")
    }
}

/// A status of the library, where an error of reading or writing is asked for.
impl From<Error> for io::Error {
    fn from(error: Error) -> io::Error {
        let kind = match error {
            Error::Refused => io::ErrorKind::InvalidData,
            Error::NoMemory => io::ErrorKind::OutOfMemory,
            _ => io::ErrorKind::Other,
        };
        io::Error::new(kind, error)
    }
}

#[cfg(test)]
mod tests {
    use crate::{Aead, Error, Streaming};

    /// The types exclude a handle of another primitive, and so does the library.
    #[test]
    fn a_handle_of_another_primitive_is_refused() {
        let example = |name| std::fs::read(format!("{}/../examples/{name}", env!("CARGO_MANIFEST_DIR"))).unwrap();
        let (aead, streams) = (example("aes128-gcm.json"), example("streams.json"));
        let keys = Streaming(Aead::from_json(&aead).unwrap().0);
        assert_eq!(keys.new_encrypting_writer(Vec::new(), b"").err(), Some(Error::OtherPrimitive));
        assert_eq!(keys.new_decrypting_reader(&b""[..], b"").err(), Some(Error::OtherPrimitive));
        let keys = Aead(Streaming::from_json(&streams).unwrap().0);
        assert_eq!(keys.encrypt(b"text", b"").err(), Some(Error::OtherPrimitive));
        assert_eq!(Aead::from_json(&streams).err(), Some(Error::UnfitKey));
        assert_eq!(Streaming::from_json(&aead).err(), Some(Error::UnfitKey));
    }
}
