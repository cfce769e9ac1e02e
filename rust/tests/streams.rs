//! Streams: outside values, and what a source, a destination or an attacker can do.
mod table;

use std::cell::{Cell, RefCell};
use std::io::{self, BufWriter, ErrorKind, Read, Write};
use std::{fs, thread};
use table::{form, rows};
use tinkey::{Error, Streaming};

/// How many bytes a segment of the streams of ../examples/streams.json has.
const SEGMENT: usize = 4096;

fn example() -> Streaming {
    Streaming::from_json(&fs::read(concat!(env!("CARGO_MANIFEST_DIR"), "/../examples/streams.json")).unwrap()).unwrap()
}

/// Bytes that tell where they stand.
fn counted(size: usize) -> Vec<u8> {
    (0..size).map(|it| (it ^ it >> 8 ^ it >> 16) as u8).collect()
}

/// The stream of a text that is written in pieces of that many bytes.
fn sealed(keys: &Streaming, text: &[u8], ad: &[u8], piece: usize) -> Vec<u8> {
    let mut writer = keys.new_encrypting_writer(Vec::new(), ad).unwrap();
    for part in text.chunks(piece) {
        writer.write_all(part).unwrap();
    }
    writer.close().unwrap()
}

/// The status of the library in an error.
fn status(error: &io::Error) -> Option<Error> {
    error.get_ref()?.downcast_ref().copied()
}

/// What a reader gives of a stream, and the error at its end.
fn opened(keys: &Streaming, stream: impl Read, ad: &[u8]) -> (Vec<u8>, Option<io::Error>) {
    let mut given = Vec::new();
    let end = keys.new_decrypting_reader(stream, ad).unwrap().read_to_end(&mut given);
    (given, end.err())
}

fn opens(keys: &Streaming, stream: &[u8], ad: &[u8], text: &[u8]) {
    let (given, error) = opened(keys, stream, ad);
    assert!(given == text && error.is_none(), "{} bytes give {}, {error:?}", stream.len(), given.len());
}

/// A stream is refused, with nothing before but the front of a text.
fn is_refused(keys: &Streaming, stream: &[u8], ad: &[u8], text: &[u8], what: &str) {
    let (given, error) = opened(keys, stream, ad);
    let error = error.unwrap_or_else(|| panic!("{what}: {} bytes open", stream.len()));
    assert_eq!((status(&error), error.kind()), (Some(Error::Refused), ErrorKind::InvalidData), "{what}");
    assert!(text.starts_with(&given), "{what}: {given:?}");
}

/// A source that gives at most so many bytes at once, and is interrupted before each of them.
struct Slow<'a>(&'a [u8], usize, bool);

impl Read for Slow<'_> {
    fn read(&mut self, bytes: &mut [u8]) -> io::Result<usize> {
        self.2 = !self.2;
        if self.2 {
            return Err(ErrorKind::Interrupted.into());
        }
        let count = bytes.len().min(self.1);
        self.0.read(&mut bytes[..count])
    }
}

#[test]
fn streams_of_tink_open() {
    for row in rows(&["sopen"], false).iter().chain(&rows(&["sopen"], true)) {
        let keys = if row.words[1] == "wrapped" {
            let (one, other) = row.words[2].split_once('+').unwrap();
            Streaming::from_encrypted(&row.bytes("encrypted"), form(one), &row.keyset, form(other)).unwrap()
        } else {
            Streaming::from_binary(&row.keyset).unwrap()
        };
        let (stream, ad, text) = (row.bytes("input"), row.bytes("ad"), row.bytes("released"));
        for piece in [1, 7, stream.len() + 1] {
            let (given, error) = opened(&keys, Slow(&stream, piece, false), &ad);
            let want = if row.fails() { Some(Error::Refused) } else { None };
            assert_eq!(error.as_ref().and_then(status), want, "{:?}: {error:?}", row.words);
            assert_eq!(error.is_some(), row.fails(), "{:?}: {error:?}", row.words);
            // byte by byte, all that may be released is given before the refusal
            let is_all = !row.fails() || piece == 1;
            assert!(if is_all { given == text } else { text.starts_with(&given) }, "{:?}: {given:?}", row.words);
        }
        if row.fails() {
            continue;
        }
        for at in 0..stream.len() {
            let mut changed = stream.clone();
            changed[at] ^= 1;
            is_refused(&keys, &changed, &ad, &text, "changed");
            is_refused(&keys, &stream[..at], &ad, &text, "cut off");
        }
        is_refused(&keys, &[&stream[..], b"0"].concat(), &ad, &text, "longer");
        is_refused(&keys, &stream, &[&ad[..], b"0"].concat(), b"", "other data");
    }
}

#[test]
fn what_is_sealed_in_pieces_opens() {
    let keys = example();
    for size in [0, 1, 4055, 4056, 4057, 8135, 8136, 8137, 200_000] {
        let text = counted(size);
        for piece in [999, SEGMENT, 1 << 20] {
            let stream = sealed(&keys, &text, b"ad", piece);
            opens(&keys, &stream, b"ad", &text);
            assert_ne!(stream, sealed(&keys, &text, b"ad", piece));
            is_refused(&keys, &stream[..stream.len() - 1], b"ad", &text, "cut off");
            is_refused(&keys, &stream, b"", b"", "without its data");
        }
    }
}

/// A segment gives more at once than the room that there is at first.
#[test]
fn long_segments_grow_the_room() {
    let keyset = br#"{"primaryKeyId": 1, "key": [{"keyData": {
        "typeUrl": "type.googleapis.com/google.crypto.tink.AesGcmHkdfStreamingKey",
        "value": "EggIgIBAEBAYAxoQAAAAAAAAAAAAAAAAAAAAAA==", "keyMaterialType": "SYMMETRIC"},
        "status": "ENABLED", "keyId": 1, "outputPrefixType": "RAW"}]}"#;
    let (keys, text) = (Streaming::from_json(keyset).unwrap(), counted(5 << 19));
    let stream = sealed(&keys, &text, b"", 1 << 16);
    opens(&keys, &stream, b"", &text);
    is_refused(&keys, &stream[..2 << 20], b"", &text, "cut off at a segment");
}

#[test]
fn segments_stand_in_their_order() {
    let (keys, text) = (example(), counted(20000));
    let (stream, other) = (sealed(&keys, &text, b"", 5000), sealed(&keys, &text, b"", 5000));
    let part = |from: usize, to: usize| &stream[from * SEGMENT..to * SEGMENT];
    let rest = &stream[4 * SEGMENT..];
    for (what, parts) in [
        ("two changed places", vec![part(0, 1), part(2, 3), part(1, 2), part(3, 4), rest]),
        ("one is missing", vec![part(0, 1), part(2, 4), rest]),
        ("one comes twice", vec![part(0, 2), part(1, 2), part(2, 4), rest]),
        ("the first is missing", vec![part(1, 4), rest]),
        ("the last is missing", vec![part(0, 4)]),
        ("the last comes twice", vec![part(0, 4), rest, rest]),
        ("the last comes early", vec![part(0, 3), rest]),
        ("one of another stream", vec![part(0, 1), &other[SEGMENT..2 * SEGMENT], part(2, 4), rest]),
        ("another stream after it", vec![&stream, &other]),
    ] {
        is_refused(&keys, &parts.concat(), b"", &text, what);
    }
}

#[test]
fn a_stream_is_whole_only_once_it_is_closed() {
    let (keys, text, mut stream) = (example(), counted(20000), Vec::new());
    for size in [0, 10, text.len()] {
        stream.clear();
        let mut writer = keys.new_encrypting_writer(&mut stream, b"").unwrap();
        writer.write_all(&text[..size]).unwrap();
        writer.flush().unwrap();
        drop(writer);
        is_refused(&keys, &stream, b"", &text[..size], "dropped");
    }
    // what a closed writer has put into a buffer is written before `close` gives Ok
    let mut writer = keys.new_encrypting_writer(BufWriter::new(Vec::new()), b"").unwrap();
    writer.write_all(b"text").unwrap();
    opens(&keys, writer.close().unwrap().get_ref(), b"", b"text");
}

/// A destination that takes few bytes at once, is interrupted before each, and fails while it has no room.
struct Narrow<'a> {
    bytes: &'a RefCell<Vec<u8>>,
    room: &'a Cell<usize>,
    calls: usize,
}

impl Write for Narrow<'_> {
    fn write(&mut self, bytes: &[u8]) -> io::Result<usize> {
        self.calls += 1;
        if self.calls % 2 == 1 {
            return Err(ErrorKind::Interrupted.into());
        }
        let mut all = self.bytes.borrow_mut();
        let count = bytes.len().min(777).min(self.room.get() - all.len());
        if count == 0 {
            return Err(ErrorKind::WouldBlock.into());
        }
        all.extend(&bytes[..count]);
        Ok(count)
    }

    fn flush(&mut self) -> io::Result<()> {
        Ok(())
    }
}

#[test]
fn a_destination_that_fails_for_a_while_loses_nothing() {
    let (keys, text) = (example(), counted(20000));
    let (bytes, room, mut taken, mut faults) = (RefCell::new(Vec::new()), Cell::new(0), 0, 0);
    let to = Narrow { bytes: &bytes, room: &room, calls: 0 };
    let mut writer = keys.new_encrypting_writer(to, b"").unwrap();
    while taken < text.len() {
        match writer.write(&text[taken..text.len().min(taken + 3000)]) {
            Ok(count) => taken += count,
            Err(error) => {
                assert_eq!(error.kind(), ErrorKind::WouldBlock);
                assert_eq!(writer.flush().unwrap_err().kind(), ErrorKind::WouldBlock);
                assert_eq!(bytes.borrow().len(), room.get());
                room.set(room.get() + 1000);
                faults += 1;
            }
        }
    }
    assert!(faults > 10, "{faults}");
    room.set(usize::MAX);
    writer.close().unwrap();
    opens(&keys, &bytes.borrow(), b"", &text);
}

#[test]
fn a_destination_that_fails_at_the_end_is_told() {
    let (keys, bytes) = (example(), RefCell::new(Vec::new()));
    for room in [0, 10, 53] {
        bytes.borrow_mut().clear();
        let room = Cell::new(room);
        let mut writer = keys.new_encrypting_writer(Narrow { bytes: &bytes, room: &room, calls: 0 }, b"").unwrap();
        writer.write_all(b"attack at dawn").unwrap();
        assert_eq!(writer.close().err().unwrap().kind(), ErrorKind::WouldBlock);
        is_refused(&keys, &bytes.borrow(), b"", b"", "failed at the end");
    }
    // one that takes nothing, and one that can't be flushed
    let mut ten = [0; 10];
    let mut writer = keys.new_encrypting_writer(&mut ten[..], b"").unwrap();
    writer.write_all(b"attack at dawn").unwrap();
    assert_eq!(writer.close().unwrap_err().kind(), ErrorKind::WriteZero);
    bytes.borrow_mut().clear();
    let none = Cell::new(0);
    let buffered = BufWriter::new(Narrow { bytes: &bytes, room: &none, calls: 0 });
    assert_eq!(keys.new_encrypting_writer(buffered, b"").unwrap().close().err().unwrap().kind(), ErrorKind::WouldBlock);
}

/// A source that fails once it has given its bytes.
struct Failing<'a>(&'a [u8], ErrorKind);

impl Read for Failing<'_> {
    fn read(&mut self, bytes: &mut [u8]) -> io::Result<usize> {
        if self.0.is_empty() {
            return Err(self.1.into());
        }
        self.0.read(bytes)
    }
}

#[test]
fn an_error_of_the_source_is_no_end() {
    let (keys, text) = (example(), counted(20000));
    let stream = sealed(&keys, &text, b"", 5000);
    for cut in (0..stream.len()).step_by(1000).chain([stream.len()]) {
        for kind in [ErrorKind::TimedOut, ErrorKind::UnexpectedEof] {
            let (given, error) = opened(&keys, Failing(&stream[..cut], kind), b"");
            assert_eq!(error.unwrap().kind(), kind);
            assert!(text.starts_with(&given), "{cut} bytes, and an error");
        }
    }
}

/// A source that goes on after its end.
struct GoesOn<'a>(&'a [u8], usize);

impl Read for GoesOn<'_> {
    fn read(&mut self, bytes: &mut [u8]) -> io::Result<usize> {
        let count = self.0.len().min(bytes.len()).min(self.1);
        self.1 = if count == 0 { usize::MAX } else { self.1 - count };
        let (now, later) = self.0.split_at(count);
        bytes[..count].copy_from_slice(now);
        self.0 = later;
        Ok(count)
    }
}

#[test]
fn a_refusal_and_an_end_stay() {
    let (keys, text) = (example(), counted(20000));
    let stream = sealed(&keys, &text, b"", 5000);
    for size in [stream.len(), stream.len() - 1] {
        let is_whole = size == stream.len();
        let source = [&stream[..], b"more"].concat();
        let mut reader = keys.new_decrypting_reader(GoesOn(&source, size), b"").unwrap();
        let mut given = Vec::new();
        assert_eq!(reader.read_to_end(&mut given).is_ok(), is_whole);
        for _ in 0..2 {
            let again = reader.read(&mut [0; 10]);
            assert_eq!(reader.read(&mut []).unwrap(), 0);
            match again {
                Ok(count) => assert!(is_whole && count == 0),
                Err(error) => assert!(!is_whole && status(&error) == Some(Error::Refused)),
            }
        }
        assert_eq!(given == text, is_whole);
    }
}

#[test]
fn streams_outlive_their_keys_and_go_to_other_threads() {
    let (keys, text) = (example(), counted(20000));
    let mut writer = keys.new_encrypting_writer(Vec::new(), b"").unwrap();
    let stream = sealed(&keys, &text, b"", 5000);
    let mut reader = keys.new_decrypting_reader(&stream[..], b"").unwrap();
    assert_eq!(format!("{writer:?} {reader:?}"), "EncryptingWriter { .. } DecryptingReader { .. }");
    drop(keys);
    let mut given = Vec::new();
    reader.read_to_end(&mut given).unwrap();
    assert!(given == text);
    let stream = thread::scope(|scope| {
        scope
            .spawn(|| {
                writer.write_all(&text).unwrap();
                writer.close().unwrap()
            })
            .join()
            .unwrap()
    });
    opens(&example(), &stream, b"", &text);
}

#[test]
fn threads_share_the_keys_of_streams() {
    let (keys, text) = (example(), counted(20000));
    thread::scope(|scope| {
        for _ in 0..8 {
            scope.spawn(|| (0..10).for_each(|_| opens(&keys, &sealed(&keys, &text, b"", 999), b"", &text)));
        }
    });
}
