"""Tests of the module by itself: its handles, its forms of keysets, and its streams over files of every kind.

    TINKEY_LIBRARY=lib/libtinkey.so.0 PYTHONPATH=python python3 -m unittest test_tinkey

tools/library runs them, and compares the module with outside values besides."""
import base64
import concurrent.futures
import copy
import errno
import hmac
import io
import json
import os
import pickle
import re
import tempfile
import threading
import unittest
import warnings

import tinkey

TOP = os.path.dirname(os.path.dirname(os.path.abspath(__file__)))
# The URL of a type of keys without its last word.
GOOGLE = "type.googleapis.com/google.crypto.tink."
# Messages of keys of zeros: for HMAC with SHA-256 and tags of 16 bytes, for HKDF with SHA-256, and for streams by
# AES-GCM-HKDF with SHA-256 and segments of a mebibyte.
KEYS = {
    "AesGcmKey": b"\x1a\x10" + bytes(16),
    "AesSivKey": b"\x12\x40" + bytes(64),
    "HmacKey": b"\x12\x04\x08\x03\x10\x10\x1a\x20" + bytes(32),
    "HkdfPrfKey": b"\x12\x02\x08\x03\x1a\x20" + bytes(32),
    "AesGcmHkdfStreamingKey": b"\x12\x08\x08\x80\x80\x40\x10\x10\x18\x03\x1a\x10" + bytes(16),
}


def read(name):
    """The text of a file of the repository."""
    with open(f"{TOP}/{name}", encoding="utf-8") as file:
        return file.read()


def key(kind, number=7, status="ENABLED"):
    """A key of that kind, as JSON has it."""
    prefix = "TINK" if kind in ("AesGcmKey", "AesSivKey", "HmacKey") else "RAW"
    value = base64.b64encode(KEYS[kind]).decode()
    data = {"typeUrl": GOOGLE + kind, "value": value, "keyMaterialType": "SYMMETRIC"}
    return {"keyData": data, "status": status, "keyId": number, "outputPrefixType": prefix}


def keyset(*keys):
    """The JSON of a keyset whose primary is the first of these keys."""
    return json.dumps({"primaryKeyId": keys[0]["keyId"], "key": keys})


class Handles(unittest.TestCase):
    """What a handle is made of, and that there is one of it."""

    def each(self):
        """A handle of each type, and a stream of each."""
        streaming = tinkey.Streaming.from_json(keyset(key("AesGcmHkdfStreamingKey")))
        return [tinkey.Aead.from_json(keyset(key("AesGcmKey"))),
                tinkey.DeterministicAead.from_json(keyset(key("AesSivKey"))),
                tinkey.Mac.from_json(keyset(key("HmacKey"))), tinkey.Prf.from_json(keyset(key("HkdfPrfKey"))),
                streaming, streaming.sealing(), streaming.opening()]

    def test_nothing_is_copied_or_pickled(self):
        for one in self.each():
            ways = [lambda: copy.copy(one), lambda: copy.deepcopy(one), lambda: copy.deepcopy([one])]
            ways += [lambda it=it: pickle.dumps(one, it) for it in range(pickle.HIGHEST_PROTOCOL + 1)]
            for way in ways:
                with self.assertRaises(TypeError) as told:
                    way()
                self.assertEqual(str(told.exception), f"{type(one).__name__} objects can't be copied or pickled")
            one.close()
            one.close()

    def test_an_unknown_form_is_a_bad_call(self):
        for forms in (("xml",), ("json", "JSON"), ("binary", ""), (None,), (0, 1)):
            for text in (b"{}", "{}"):
                with self.assertRaises(tinkey.BadCall):
                    tinkey.Aead.from_encrypted(text, text, *forms)

    def test_json_may_be_a_str_and_nothing_else_may(self):
        text = keyset(key("AesGcmKey"))
        for one in (text, text.encode(), bytearray(text.encode()), memoryview(text.encode())):
            with tinkey.Aead.from_json(one) as keys:
                self.assertEqual(keys.decrypt(keys.encrypt(b"text")), b"text")
                for wrong in ("text", 5, None):
                    with self.assertRaises(TypeError):
                        keys.encrypt(wrong)
                    with self.assertRaises(TypeError):
                        keys.encrypt(b"text", wrong)
        for call in (lambda: tinkey.Aead.from_binary(text), lambda: tinkey.Aead.from_json(5),
                     lambda: tinkey.Aead.from_encrypted("", b"", "binary", "json"),
                     lambda: tinkey.Aead.from_encrypted(b"", "", "json", "binary")):
            self.assertRaises(TypeError, call)
        for none in ("", "{}", "\u03b1\u03b2", "\ud800", "\0"):
            self.assertRaises(tinkey.NoKeyset, tinkey.Aead.from_json, none)

    def test_each_status_has_the_text_of_the_library(self):
        kinds = tinkey.TinkeyError.__subclasses__()
        self.assertEqual(sorted(it.status for it in kinds), list(range(1, 16)))
        for kind in kinds:
            text = " ".join(kind.__doc__.split())
            self.assertEqual(text, f"{str(kind())[0].upper()}{str(kind())[1:]}.")

    def test_every_enabled_key_has_to_serve(self):
        for other in ("HmacKey", "AesSivKey", "HkdfPrfKey", "AesGcmHkdfStreamingKey"):
            mixed = keyset(key("AesGcmKey"), key(other, 8))
            for kind in (tinkey.Aead, tinkey.Mac, tinkey.DeterministicAead, tinkey.Prf, tinkey.Streaming):
                self.assertRaises(tinkey.UnfitKey, kind.from_json, mixed)
            for status in ("DISABLED", "DESTROYED"):
                mixed = keyset(key("AesGcmKey"), key(other, 8, status))
                with tinkey.Aead.from_json(mixed) as keys:
                    self.assertEqual(keys.decrypt(keys.encrypt(b"text")), b"text")
                self.assertRaises(tinkey.UnfitKey, tinkey.Mac.from_json, mixed)

    def test_a_keyset_in_clear_is_no_encrypted_one(self):
        text = keyset(key("AesGcmKey"))
        self.assertRaises(tinkey.Refused, tinkey.Aead.from_encrypted, text, text)
        self.assertRaises(tinkey.NoKeyset, tinkey.Aead.from_json, '{"encryptedKeyset": "AQID"}')


class Sizes(unittest.TestCase):
    """Calls at both sides of every size at which the module does something else."""

    sizes = (0, 1, 255, 256, 257, 2047, 2048, 2049, 4000, 4063, 4064, 4095, 4096, 4097, 70000)

    def test_every_size_comes_back(self):
        aead = tinkey.Aead.from_json(keyset(key("AesGcmKey")))
        daead = tinkey.DeterministicAead.from_json(keyset(key("AesSivKey")))
        for seal, unseal in ((aead.encrypt, aead.decrypt),
                             (daead.encrypt_deterministically, daead.decrypt_deterministically)):
            for size in self.sizes:
                for text, data in ((os.urandom(size), b"ad"), (b"text", os.urandom(size))):
                    sealed = seal(bytearray(text), memoryview(data))
                    self.assertEqual(unseal(sealed, data), text)
                    self.assertRaises(tinkey.Refused, unseal, sealed, data + b"x")
                    self.assertRaises(tinkey.Refused, unseal, sealed[:-1], data)
        # what was given before stays as it was, though the next answer is written to the same place
        first, second = aead.encrypt(b"first"), aead.encrypt(b"second")
        self.assertEqual((aead.decrypt(first), aead.decrypt(second)), (b"first", b"second"))

    def test_tags_of_every_size_are_those_of_hmac(self):
        with tinkey.Mac.from_json(keyset(key("HmacKey"))) as keys:
            for size in self.sizes:
                body = os.urandom(size)
                tag = b"\x01\x00\x00\x00\x07" + hmac.new(bytes(32), body, "sha256").digest()[:16]
                self.assertEqual(keys.compute_mac(body), tag)
                keys.verify_mac(bytearray(tag), memoryview(body))
                for wrong in (tag[:-1], tag + b"x", bytes(size)):
                    self.assertRaises(tinkey.Refused, keys.verify_mac, wrong, body)

    def test_bytes_of_every_length_are_those_of_hkdf(self):
        with tinkey.Prf.from_json(keyset(key("HkdfPrfKey"))) as keys:
            for data in (b"", b"data", bytes(300)):
                # RFC 5869, with no salt: the key is extracted, and the data is the info
                extracted, block, whole = hmac.new(bytes(32), bytes(32), "sha256").digest(), b"", b""
                for at in range(1, 256):
                    block = hmac.new(extracted, block + data + bytes([at]), "sha256").digest()
                    whole += block
                for length in (*(it for it in self.sizes if it <= 8160), 8160):
                    self.assertEqual(keys.compute(data, length), whole[:length])
                self.assertRaises(tinkey.TooLong, keys.compute, data, 8161)
            self.assertRaises(ValueError, keys.compute, b"data", -1)
            for wrong in ("16", b"16", None, 16.5):
                self.assertRaises(TypeError, keys.compute, b"data", wrong)

    def test_an_error_can_be_copied_and_pickled(self):
        for kind in tinkey.TinkeyError.__subclasses__():
            for other in (copy.copy(kind()), pickle.loads(pickle.dumps(kind()))):
                self.assertIs(type(other), kind)
                self.assertEqual((str(other), other.status), (str(kind()), kind.status))
        self.assertIsInstance(tinkey.NoMemory(), MemoryError)

    def test_derived_bytes_have_a_length(self):
        with tinkey.Prf.from_json(keyset(key("HkdfPrfKey"))) as keys:
            for error, length in ((ValueError, -1), (TypeError, 1.0), (TypeError, None), (tinkey.TooLong, 8161),
                                  (tinkey.TooLong, 16321), (tinkey.TooLong, 1 << 63)):
                with self.assertRaises(error):
                    keys.compute(b"data", length)

    def test_a_stream_whose_answer_was_lost_is_over(self):
        with tinkey.Streaming.from_json(keyset(key("AesGcmHkdfStreamingKey"))) as keys:
            for stream in (keys.sealing(), keys.opening()):
                given = stream._given  # pylint: disable=protected-access

                # an error of the module too, as a handler may raise one
                def lost(*words, given=given):
                    given(*words)
                    raise tinkey.Refused

                stream._given = lost  # pylint: disable=protected-access
                with self.assertRaises(tinkey.Refused):
                    stream.update(bytes(100))
                stream._given = given  # pylint: disable=protected-access
                for call in (lambda it=stream: it.update(b""), stream.finish):
                    with self.assertRaises(tinkey.Ended):
                        call()
                stream.close()

    def test_what_interrupts_a_call_may_close_its_stream(self):
        with tinkey.Streaming.from_json(keyset(key("AesGcmHkdfStreamingKey"))) as keys:
            stream = keys.sealing()
            given = stream._given  # pylint: disable=protected-access

            def closing(*words):
                stream.close()
                with self.assertRaises(tinkey.Ended):
                    stream.finish()
                return given(*words)

            stream._given = closing  # pylint: disable=protected-access
            self.assertEqual(len(stream.update(bytes(100))), 24)
            with self.assertRaises(ValueError):
                stream.update(b"")

    def test_a_sealing_that_is_left_unfinished_warns(self):
        with tinkey.Streaming.from_json(keyset(key("AesGcmHkdfStreamingKey"))) as keys:
            with self.assertWarns(RuntimeWarning):
                with keys.sealing() as stream:
                    stream.update(b"text")
            with warnings.catch_warnings():
                warnings.simplefilter("error")
                with self.assertRaises(KeyError), keys.sealing() as stream:
                    raise KeyError
                with keys.sealing() as stream:
                    stream.finish()

    def test_a_handle_is_closed_while_calls_are_under_way(self):
        for text in (bytes(16), bytes(1 << 20)):
            keys = tinkey.Aead.from_json(keyset(key("AesGcmKey")))
            begun = threading.Semaphore(0)

            def turns(keys=keys, begun=begun, text=text):
                """Seals until the handle is closed; whether each of its answers opens to the text."""
                sealed = []
                try:
                    while True:
                        sealed = [*sealed[-9:], keys.encrypt(text)]
                        begun.release()
                except ValueError:
                    with tinkey.Aead.from_json(keyset(key("AesGcmKey"))) as again:
                        return sealed and all(again.decrypt(it) == text for it in sealed)

            with concurrent.futures.ThreadPoolExecutor(4) as pool:
                ended = [pool.submit(turns) for _ in range(4)]
                for _ in range(40):
                    begun.acquire()
                keys.close()
                self.assertTrue(all(it.result() for it in ended))
            # no call is under way, so the keys were let go
            self.assertEqual((keys._ends, keys._spare), ([], []))  # pylint: disable=protected-access
            self.assertEqual(len(keys._gone), len(keys._all))  # pylint: disable=protected-access
            keys.close()

    def test_a_closed_handle_does_nothing(self):
        for kind, name, calls in ((tinkey.Aead, "AesGcmKey", ("encrypt", "decrypt")),
                                  (tinkey.DeterministicAead, "AesSivKey",
                                   ("encrypt_deterministically", "decrypt_deterministically")),
                                  (tinkey.Mac, "HmacKey", ("compute_mac",)), (tinkey.Prf, "HkdfPrfKey", ()),
                                  (tinkey.Streaming, "AesGcmHkdfStreamingKey", ("sealing", "opening"))):
            keys = kind.from_json(keyset(key(name)))
            keys.close()
            for call in calls:
                for data in (b"data", bytes(5000)):
                    with self.assertRaises(ValueError):
                        getattr(keys, call)(data)
            if kind is tinkey.Mac:
                self.assertRaises(ValueError, keys.verify_mac, b"tag", b"data")
            if kind is tinkey.Prf:
                for length in (16, 5000):
                    self.assertRaises(ValueError, keys.compute, b"data", length)


class Raw(io.RawIOBase):
    """A file without a buffer, which gives or takes at most so many bytes at once, and at some calls says otherwise."""

    def __init__(self, data=b"", most=7, says=None):
        super().__init__()
        self.data, self.most, self.says, self.calls = bytearray(data), most, says or {}, 0

    def readable(self):
        return True

    def writable(self):
        return True

    def read(self, size=-1):
        self.calls += 1
        if self.calls in self.says:
            return self.says[self.calls]
        count = min(self.most, size)
        data, self.data = bytes(self.data[:count]), self.data[count:]
        return data

    def write(self, data):
        self.calls += 1
        if self.calls in self.says:
            return self.says[self.calls]
        self.data += data[:self.most]
        return min(self.most, len(data))


class Files(unittest.TestCase):
    """Streams over files that have no buffer, that don't wait, and that fail."""

    def setUp(self):
        self.keys = tinkey.Streaming.from_json(read("examples/streams.json"))
        self.text = os.urandom(20000)
        sealed = io.BytesIO()
        self.keys.encrypt_file(io.BytesIO(self.text), sealed, b"ad")
        self.sealed = sealed.getvalue()

    def test_a_file_may_give_and_take_little_at_once(self):
        for most in (1, 7, 4096, 1 << 20):
            sealed, opened = Raw(most=most), Raw(most=most)
            self.keys.encrypt_file(Raw(self.text, most), sealed, b"ad")
            self.keys.decrypt_file(Raw(sealed.data, most), opened, b"ad")
            self.assertEqual(opened.data, self.text)

    def test_a_file_may_have_no_buffer(self):
        with tempfile.TemporaryDirectory() as folder:
            with open(f"{folder}/plain", "wb") as file:
                file.write(self.text)
            for call, source, destination in ((self.keys.encrypt_file, "plain", "sealed"),
                                              (self.keys.decrypt_file, "sealed", "opened")):
                with open(f"{folder}/{source}", "rb", buffering=0) as given, \
                        open(f"{folder}/{destination}", "wb", buffering=0) as taken:
                    call(given, taken, b"ad")
            with open(f"{folder}/opened", "rb") as file:
                self.assertEqual(file.read(), self.text)

    def blocks(self, call, *files):
        """A call raises that a file would have to wait, and nothing else."""
        with self.assertRaises(BlockingIOError) as told:
            call(*files, b"ad")
        self.assertEqual(told.exception.errno, errno.EAGAIN)

    def test_a_file_that_does_not_wait_is_no_end(self):
        for at in (1, 2, 100):
            self.blocks(self.keys.encrypt_file, Raw(self.text, says={at: None}), io.BytesIO())
            self.blocks(self.keys.encrypt_file, io.BytesIO(self.text), Raw(says={at: None}))
            opened = io.BytesIO()
            self.blocks(self.keys.decrypt_file, Raw(self.sealed, 100, {at: None}), opened)
            self.assertTrue(self.text.startswith(opened.getvalue()))
            self.blocks(self.keys.decrypt_file, io.BytesIO(self.sealed), Raw(says={at: None}))

    def test_a_pipe_that_does_not_wait_is_no_end(self):
        for call in (self.keys.encrypt_file, self.keys.decrypt_file):
            reads, writes = os.pipe()
            with open(reads, "rb", buffering=0) as source, open(writes, "wb", buffering=0) as destination:
                os.set_blocking(reads, False)
                os.set_blocking(writes, False)
                self.blocks(call, source, io.BytesIO())
        reads, writes = os.pipe()
        with open(reads, "rb", buffering=0), open(writes, "wb", buffering=0) as destination:
            os.set_blocking(writes, False)
            # more than a pipe holds
            self.blocks(self.keys.encrypt_file, io.BytesIO(bytes(1 << 21)), destination)

    def test_a_file_that_takes_no_bytes_or_too_many_fails(self):
        for count in (0, -1, 1 << 40):
            for at in (1, 2, 100):
                with self.assertRaises(OSError) as told:
                    self.keys.encrypt_file(io.BytesIO(self.text), Raw(says={at: count}), b"ad")
                self.assertNotIsInstance(told.exception, BlockingIOError)
        self.assertRaises(TypeError, self.keys.encrypt_file, io.StringIO("text"), io.BytesIO())

    def test_an_error_of_a_file_comes_as_it_is(self):
        class Fails(io.BytesIO):
            """A file that fails."""

            def read(self, size=-1):
                raise ZeroDivisionError

            write = read

        for call in (self.keys.encrypt_file, self.keys.decrypt_file):
            self.assertRaises(ZeroDivisionError, call, Fails(), io.BytesIO(), b"ad")
            self.assertRaises(ZeroDivisionError, call, io.BytesIO(self.sealed), Fails(), b"ad")


class Rooms(unittest.TestCase):
    """What calls of a stream give, beside what the guide says of the room that they take."""

    def most(self, stream, data, size):
        """The most bytes that an update with so many gives, all that was given, and what the end gives."""
        given = [stream.update(data[at:at + size]) for at in range(0, len(data), size)]
        last = stream.finish()
        stream.close()
        return max(map(len, given)), b"".join(given) + last, len(last)

    def test_calls_give_no_more_than_the_guide_says(self):
        rows = re.findall(r"\| `tinkey_(\w+)`[^|]*\|[^|]*\| ([\d,]+) \| ([\d,]+) \|", read("docs/LIBRARY.md"))
        guide = {name: [int(it.replace(",", "")) for it in numbers] for name, *numbers in rows}
        texts = read("examples/streams.json"), keyset(key("AesGcmHkdfStreamingKey"))
        for place, (segment, text) in enumerate(zip((4096, 1 << 20), texts)):
            part = segment - 16
            finish = {"sealing_finish": segment, "opening_finish": part}
            with tinkey.Streaming.from_json(text) as keys:
                for size in (1000, part, segment, 65536):
                    update = {"sealing_update": (size // part + 1) * segment,
                              "opening_update": (size // segment + 1) * part}
                    if size == 65536:
                        self.assertEqual({name: it[place] for name, it in guide.items()}, {**update, **finish})
                    # three segments or more, the last of which is full
                    plain = os.urandom((max(3, 4 * size // part) * part) - 24)
                    most, sealed, last = self.most(keys.sealing(), plain, size)
                    self.assertEqual(last, finish["sealing_finish"])
                    self.assertLessEqual(most, update["sealing_update"])
                    self.assertGreaterEqual(most, update["sealing_update"] - segment)
                    most, opened, last = self.most(keys.opening(), sealed, size)
                    self.assertEqual((opened, last), (plain, finish["opening_finish"]))
                    self.assertLessEqual(most, update["opening_update"])
                    self.assertGreaterEqual(most, update["opening_update"] - part)

    def test_every_page_says_how_much_room_is_enough(self):
        for page in ("include/tinkey.h", "docs/tinkey.3", "docs/LIBRARY.md"):
            text = read(page).replace("\\-", "-")
            for room in ("(N / (S - T) + 1) * S", "(N / S + 1) * (S - T)"):
                self.assertIn(room, text, page)


if __name__ == "__main__":
    unittest.main()
