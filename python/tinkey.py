"""Tink's primitives over the keysets of Tink and of tinkey, through libtinkey.so.0.

    import tinkey

    with tinkey.Aead.from_json(open("keyset.json", "rb").read()) as keys:
        sealed = keys.encrypt(b"attack at dawn", b"associated data")
        assert keys.decrypt(sealed, b"associated data") == b"attack at dawn"

What is proved of the library, and what isn't, is told at the head of its header, tinkey.h. This module is tested alone.

The library is looked for under the name in the environment variable TINKEY_LIBRARY, or else as libtinkey.so.0 where the
system finds libraries. A handle may be used and closed from any thread, and can't be copied or pickled. The forked
child of a process with threads makes its own handles.
"""
import ctypes
import errno
import operator
import os
import threading
import warnings
from typing import Any, BinaryIO, Callable, List, Optional, Sequence, Tuple, Type, TypeVar, Union

Buffer = Union[bytes, bytearray, memoryview]
Text = Union[str, Buffer]
Own = TypeVar("Own", bound="_Owned")
Self = TypeVar("Self", bound="_Handle")

try:
    _library = ctypes.CDLL(os.environ.get("TINKEY_LIBRARY") or "libtinkey.so.0")
except OSError as _fault:
    raise ImportError(f"{_fault}; the environment variable TINKEY_LIBRARY gives the path of the library") from _fault
_size, _pointer = ctypes.c_size_t, ctypes.c_void_p
_library.tinkey_status_text.restype = ctypes.c_char_p
_library.tinkey_status_text.argtypes = [ctypes.c_int]


class TinkeyError(Exception):
    """A call whose status isn't TINKEY_OK. Nothing was written then. `status` is its number."""

    status = 0

    def __init__(self) -> None:
        super().__init__(_library.tinkey_status_text(self.status).decode("ascii"))

    def __reduce__(self) -> Any:
        """So that it can be copied and pickled, as when it comes from another process."""
        return type(self), ()


class Refused(TinkeyError):
    """No key opens the bytes with this associated data, the tag isn't the body's, or the stream isn't whole."""

    status = 1


class NoKeyset(TinkeyError):
    """The text isn't a keyset in this form, or what was encrypted isn't a keyset."""

    status = 2


class UnfitKey(TinkeyError):
    """An ENABLED key of the keyset can't serve for the primitive."""

    status = 3


class OtherPrimitive(TinkeyError):
    """The handle is for another primitive."""

    status = 4


class NoRoom(TinkeyError):
    """The output is shorter than the answer; a stream keeps the answer."""

    status = 5


class TooLong(TinkeyError):
    """An input of a call has more than 2^30 bytes, an encrypted keyset more than 4,194,304 or its master more than
    1,048,576, the key derives fewer bytes, or a stream has more than 2^32 segments."""

    status = 6


class NoRandom(TinkeyError):
    """The system gives no random bytes."""

    status = 7


class NoMemory(TinkeyError, MemoryError):
    """Memory was refused."""

    status = 8


class BadCall(TinkeyError):
    """A null pointer, a length over PTRDIFF_MAX, an unknown form, or an output that overlaps something else."""

    status = 9


class OldProcessor(TinkeyError):
    """The processor lacks what the library is built for."""

    status = 10


class NoMaster(TinkeyError):
    """The text of the master isn't a keyset in this form."""

    status = 11


class UnfitMaster(TinkeyError):
    """An ENABLED key of the master can't serve as an AEAD."""

    status = 12


class NoWrapped(TinkeyError):
    """The text isn't an encrypted keyset in this form."""

    status = 13


class Ended(TinkeyError):
    """The stream has ended, or a call of it has failed."""

    status = 14


class Callback(TinkeyError):
    """A function of the program for reading or writing failed."""

    status = 15


_ERRORS = {it.status: it for it in TinkeyError.__subclasses__()}


def _check(status: int) -> None:
    if status:
        raise _ERRORS.get(status, TinkeyError)()


def _bytes(data: Buffer) -> bytes:
    """The bytes of a buffer: its own where it is `bytes`, and else a copy. What is no buffer is a TypeError."""
    return data if isinstance(data, bytes) else bytes(memoryview(data))


def _json(text: Text) -> bytes:
    """The bytes of a JSON text. A lone surrogate of a `str` stays one, so that the library refuses the text."""
    return text.encode("utf-8", "surrogatepass") if isinstance(text, str) else _bytes(text)


def _function(name: str, *arguments: Any, gives: Any = ctypes.c_int) -> Any:
    function = getattr(_library, name)
    function.restype, function.argtypes = gives, list(arguments)
    return function


def _fast(name: str) -> Any:
    """A function whose types ctypes isn't told, since it takes words as they are then, in about half of the time.

    This module passes it `bytes`, sizes as `_sized` gives them, and what `create_string_buffer`, `byref` and
    `from_param` give, and nothing else.
    """
    return _library[name]


# The number of each form of a text, and what gives the text's bytes.
_FORMS = {"json": (0, _json), "binary": (1, _bytes)}
_INPUT = (ctypes.c_char_p, _size)
_TEXT = (ctypes.c_char_p, _size, ctypes.c_int)
_OUTPUT = (ctypes.c_char_p, _size, ctypes.POINTER(_size))

# The sizes below `_FEW` as ctypes passes them to C, made once.
_FEW = 257
_SIZES = tuple(map(_size.from_param, range(_FEW)))


def _sized(size: int) -> Any:
    """A size as ctypes passes it to C."""
    return _SIZES[size] if size < _FEW else _size(size)


# An answer of at most so many bytes is written into memory that its handle keeps for its calls; and a call that adds to
# its input adds less than half of that.
_SHORT = 4096
_SHORT_ROOM = _size.from_param(_SHORT)
# The most bytes that any key derives: 255 digests of SHA-512, by HKDF (RFC 5869, 2.3).
_MOST_DERIVED = 255 * 64


class _Owned:
    """What the library holds for this module, and lets go once."""

    _name = ""

    def __init__(self, new: str, types: Sequence[Any], words: Sequence[Any]) -> None:
        self._at: Any = None
        # the handler of a signal may call what it interrupts
        self._lock = threading.RLock()
        made = _pointer()
        function = _function(f"tinkey_{self._name}_{new}", *types, ctypes.POINTER(_pointer))
        _check(function(*words, ctypes.byref(made)))
        self._at = _pointer.from_param(made.value)

    def close(self) -> None:
        """Lets it go. What is closed may be closed again, and does nothing else."""
        with self._lock:
            at, self._at = self._at, None
            if at:
                _function(f"tinkey_{self._name}_free", _pointer, gives=None)(at)

    def __reduce_ex__(self, protocol: Any) -> Any:
        """Refuses `copy`, `deepcopy` and `pickle`: a second object would free what the first one holds."""
        raise TypeError(f"{type(self).__name__} objects can't be copied or pickled")

    def __enter__(self: Own) -> Own:
        return self

    def __exit__(self, *_: Any) -> None:
        self.close()

    def __del__(self) -> None:
        if getattr(self, "_at", None):
            self.close()


class _Handle(_Owned):
    """The keys of a keyset for one primitive."""

    def __init__(self, new: str, types: Sequence[Any], words: Sequence[Any]) -> None:
        # What a call works with: where the keys are, memory for an answer, and its size. A call takes one of these and
        # puts it back, so that no two calls work with the same one. A list gives and takes an item as one step.
        self._spare: List[Any] = []
        # all that were made, those that no call takes any more, and where the keys of a closed handle are
        self._all: List[Any] = []
        self._gone: List[Any] = []
        self._ends: List[Any] = []
        super().__init__(new, types, words)
        self._spare.append(self._new())

    def _new(self) -> Any:
        """One more of what a call works with, for a call that finds none: another one is under way."""
        with self._lock:
            if not self._at:
                raise ValueError("the handle is closed")
            size = _size()
            mine = self._at, ctypes.create_string_buffer(_SHORT), size, ctypes.byref(size)
            self._all.append(mine)
            return mine

    def close(self) -> None:
        """Lets the keys go, as soon as no call is under way. What is closed may be closed again."""
        with self._lock:
            at, self._at = self._at, None
            if at:
                self._ends.append(at)
        self._let_go()

    def _let_go(self) -> None:
        """Lets the keys of a closed handle go, if no call is under way."""
        with self._lock:
            while self._spare:
                self._gone.append(self._spare.pop())
            if self._ends and len(self._gone) == len(self._all):
                _function(f"tinkey_{self._name}_free", _pointer, gives=None)(self._ends.pop())

    def _with(self, call: Callable[..., Any]) -> Any:
        """What a call gives that is handed what it works with."""
        try:
            mine = self._spare.pop()
        except IndexError:
            mine = self._new()
        try:
            return call(*mine)
        finally:
            self._spare.append(mine)
            if not self._at:
                self._let_go()

    @classmethod
    def from_json(cls: Type[Self], text: Text) -> Self:
        """The handle of a keyset in Tink's JSON."""
        data = _json(text)
        return cls("new", _INPUT, (data, len(data)))

    @classmethod
    def from_binary(cls: Type[Self], data: Buffer) -> Self:
        """The handle of a keyset in the binary form."""
        data = _bytes(data)
        return cls("new_binary", _INPUT, (data, len(data)))

    @classmethod
    def from_encrypted(cls: Type[Self], encrypted: Text, master: Text, form: str = "json",
                       master_form: str = "json") -> Self:
        """The handle of a keyset that is encrypted under a master keyset.

        A form is `json`, in which a text may be a `str`, or `binary`; another one raises `BadCall`. If no key of the
        master opens it, as where it is a keyset in clear, it raises `Refused`.
        """
        if form not in _FORMS or master_form not in _FORMS:
            raise BadCall()
        (number, bytes_of), (master_number, master_bytes_of) = _FORMS[form], _FORMS[master_form]
        text, key = bytes_of(encrypted), master_bytes_of(master)
        return cls("new_wrapped", _TEXT + _TEXT, (text, len(text), number, key, len(key), master_number))

    def _answer(self, function: Any, room_of: Any, first: Buffer, second: Buffer) -> bytes:
        """What a function writes from two inputs, into an output with at least the room that the first one asks for."""
        # here and below no function is called for what takes less time than a call
        data = first if isinstance(first, bytes) else _bytes(first)
        more = second if isinstance(second, bytes) else _bytes(second)
        size, more_size = len(data), len(more)
        try:
            mine = self._spare.pop()
        except IndexError:
            mine = self._new()
        try:
            at, out, made, made_at = mine
            room = _SHORT_ROOM
            if 2 * size > _SHORT:
                most = room_of(size)
                if most > _SHORT:
                    out, room = ctypes.create_string_buffer(most), _size(most)
            status = function(at, data, _SIZES[size] if size < _FEW else _size(size),
                              more, _SIZES[more_size] if more_size < _FEW else _size(more_size), out, room, made_at)
            if not status:
                return out[:made.value]
        finally:
            self._spare.append(mine)
            if not self._at:
                self._let_go()
        raise _ERRORS.get(status, TinkeyError)()


_aead_seal, _aead_open = _fast("tinkey_aead_seal"), _fast("tinkey_aead_open")
_aead_seal_room = _function("tinkey_aead_seal_room", _size, gives=_size)
_aead_open_room = _function("tinkey_aead_open_room", _size, gives=_size)
_daead_seal, _daead_open = _fast("tinkey_daead_seal"), _fast("tinkey_daead_open")
_daead_seal_room = _function("tinkey_daead_seal_room", _size, gives=_size)
_daead_open_room = _function("tinkey_daead_open_room", _size, gives=_size)
_mac_tag, _mac_verify, _prf_derive = _fast("tinkey_mac_tag"), _fast("tinkey_mac_verify"), _fast("tinkey_prf_derive")


class Aead(_Handle):
    """Authenticated encryption with associated data."""

    _name = "aead"

    def encrypt(self, plaintext: Buffer, associated_data: Buffer = b"") -> bytes:
        """Seals under the primary key, with a fresh IV of the system's random bytes."""
        return self._answer(_aead_seal, _aead_seal_room, plaintext, associated_data)

    def decrypt(self, ciphertext: Buffer, associated_data: Buffer = b"") -> bytes:
        """Opens what an ENABLED key of the keyset sealed, or raises `Refused`."""
        return self._answer(_aead_open, _aead_open_room, ciphertext, associated_data)


class DeterministicAead(_Handle):
    """The same without an IV: equal plaintexts with equal associated data have equal ciphertexts."""

    _name = "daead"

    def encrypt_deterministically(self, plaintext: Buffer, associated_data: Buffer = b"") -> bytes:
        """Seals under the primary key."""
        return self._answer(_daead_seal, _daead_seal_room, plaintext, associated_data)

    def decrypt_deterministically(self, ciphertext: Buffer, associated_data: Buffer = b"") -> bytes:
        """Opens what an ENABLED key of the keyset sealed, or raises `Refused`."""
        return self._answer(_daead_open, _daead_open_room, ciphertext, associated_data)


class Mac(_Handle):
    """Message authentication."""

    _name = "mac"

    def compute_mac(self, data: Buffer) -> bytes:
        """The tag under the primary key, behind its output prefix."""
        body = _bytes(data)

        def tag(at: Any, out: Any, made: Any, made_at: Any) -> bytes:
            _check(_mac_tag(at, body, _sized(len(body)), out, _SHORT_ROOM, made_at))
            return out[:made.value]

        return self._with(tag)

    def verify_mac(self, mac: Buffer, data: Buffer) -> None:
        """Raises `Refused` where the tag isn't the data's under any ENABLED key."""
        tag, body = _bytes(mac), _bytes(data)
        self._with(lambda at, *_: _check(_mac_verify(at, tag, _sized(len(tag)), body, _sized(len(body)))))


class Prf(_Handle):
    """Pseudo-random functions."""

    _name = "prf"

    def compute(self, data: Buffer, output_length: int) -> bytes:
        """So many bytes from the data under the primary key, or raises `TooLong`."""
        given, length = _bytes(data), operator.index(output_length)
        if length < 0:
            raise ValueError("a length is 0 or more")
        if length > _MOST_DERIVED:
            raise TooLong()

        def derive(at: Any, out: Any, *_: Any) -> bytes:
            if length > _SHORT:
                out = ctypes.create_string_buffer(length)
            _check(_prf_derive(at, given, _sized(len(given)), out, _sized(length)))
            return out[:length]

        return self._with(derive)


_sealing_update = _function("tinkey_sealing_update", _pointer, *_INPUT, *_OUTPUT)
_sealing_finish = _function("tinkey_sealing_finish", _pointer, *_OUTPUT)
_sealing_waiting = _function("tinkey_sealing_waiting", _pointer, gives=_size)
_opening_update = _function("tinkey_opening_update", _pointer, *_INPUT, *_OUTPUT)
_opening_finish = _function("tinkey_opening_finish", _pointer, *_OUTPUT)
_opening_waiting = _function("tinkey_opening_waiting", _pointer, gives=_size)
_PIECE, _MORE = 65536, 4096


class _Stream(_Owned):
    """A stream under way: `update` for each piece of its input, and `finish`. It doesn't need its keys any more."""

    _update: Any
    _finish: Any
    _waiting: Any

    def __init__(self, new: str, types: Sequence[Any], words: Sequence[Any]) -> None:
        # whether what a call gave was lost, whether a call runs, whether it is to close the stream when it ends, and
        # whether the input was ended
        self._lost = self._runs = self._closes = self._ended = False
        super().__init__(new, types, words)

    def close(self) -> None:
        """Lets it go; within a call of it, as the handler of a signal may be, when that has ended."""
        with self._lock:
            if self._runs:
                self._closes = True
            else:
                super().close()

    def _step(self, function: Any, data: bytes, none: Sequence[Any], *inputs: Any) -> bytes:
        """One call. If anything but an answer of the library leaves it, the stream is over: what it gave is lost."""
        lost = False
        try:
            with self._lock:
                if not self._at:
                    raise ValueError("the stream is closed")
                if self._lost or self._runs:
                    raise Ended()
                lost = self._runs = True
                try:
                    status, made = self._given(self._at, function, data, none, *inputs)
                finally:
                    self._runs = False
                    if self._closes:
                        super().close()
            lost = False
        finally:
            if lost:
                self._lost = True
        # from here on no function is called before an answer is given, so that no signal's handler comes between
        if status:
            raise _ERRORS.get(status, TinkeyError)()
        return made

    def _given(self, at: int, function: Any, data: bytes, none: Sequence[Any], *inputs: Any) -> Tuple[int, bytes]:
        """The status of a call, and what it gives, which is asked for again where there was too little room."""
        room, size = len(data) + _MORE, _size()
        out = ctypes.create_string_buffer(room)
        status = function(at, *inputs, out, room, ctypes.byref(size))
        if status == NoRoom.status:
            room = self._waiting(at)
            out = ctypes.create_string_buffer(room)
            status = function(at, *none, out, room, ctypes.byref(size))
        return status, out[:size.value]

    def update(self, data: Buffer) -> bytes:
        """Takes the next bytes, any number of them, and gives what they settle, which may be nothing.

        A segment is given once a byte follows it, and the last one by `finish` alone.
        """
        given = _bytes(data)
        return self._step(self._update, given, (b"", 0), given, len(given))

    def finish(self) -> bytes:
        """Ends the input, and gives the rest."""
        made = self._step(self._finish, b"", ())
        self._ended = True
        return made


class Sealing(_Stream):
    """A stream that is being sealed. What its calls give, one after another, is the stream."""

    def __exit__(self, kind: Any = None, *_: Any) -> None:
        if kind is None and not self._ended:
            text = "a sealing was closed before `finish`, so its stream isn't whole"
            warnings.warn(text, RuntimeWarning, stacklevel=2)
        self.close()

    _name = "sealing"
    _update = staticmethod(_sealing_update)
    _finish = staticmethod(_sealing_finish)
    _waiting = staticmethod(_sealing_waiting)


class Opening(_Stream):
    """A stream that is being opened. What its calls give, one after another, is the plaintext.

    Each byte that `update` gives has authenticated in its place. Only `finish` says that the stream is whole: it raises
    `Refused` for one that was cut off. `update` raises `Refused` as soon as a segment doesn't authenticate.
    """

    _name = "opening"
    _update = staticmethod(_opening_update)
    _finish = staticmethod(_opening_finish)
    _waiting = staticmethod(_opening_waiting)


def _read(source: BinaryIO) -> bytes:
    """The next bytes of a file, none at its end. A raw file that doesn't wait for them gives None."""
    piece = source.read(_PIECE)
    if piece is None:
        raise BlockingIOError(errno.EAGAIN, "the source has no bytes yet, and doesn't wait for them")
    return _bytes(piece)


def _write_all(destination: BinaryIO, data: bytes) -> None:
    """Writes bytes to a file. A raw one may take only some of them at once, or None if it doesn't wait for room."""
    left = memoryview(data)
    while left:
        count = destination.write(left)
        if count is None:
            raise BlockingIOError(errno.EAGAIN, "the destination has no room yet, and doesn't wait for it")
        if not 0 < count <= len(left):
            raise OSError(f"the destination took {count} of {len(left)} bytes")
        left = left[count:]


def _pass(stream: _Stream, source: BinaryIO, destination: BinaryIO) -> None:
    """Takes what a file has left through a stream, all of it, or raises what went wrong."""
    with stream:
        piece = _read(source)
        while piece:
            _write_all(destination, stream.update(piece))
            piece = _read(source)
        _write_all(destination, stream.finish())


class Streaming(_Handle):
    """Streaming authenticated encryption with associated data: streams of any length, in pieces."""

    _name = "streaming"

    def sealing(self, associated_data: Buffer = b"") -> Sealing:
        """Begins to seal a stream under the primary key, with fresh random bytes."""
        data = _bytes(associated_data)
        return self._with(lambda at, *_: Sealing("new", (_pointer, *_INPUT), (at, data, len(data))))

    def opening(self, associated_data: Buffer = b"") -> Opening:
        """Begins to open a stream under the first ENABLED key that opens its first segment."""
        data = _bytes(associated_data)
        return self._with(lambda at, *_: Opening("new", (_pointer, *_INPUT), (at, data, len(data))))

    def encrypt_file(self, source: BinaryIO, destination: BinaryIO, associated_data: Buffer = b"") -> None:
        """Seals what one binary file has left, and writes the stream to another.

        The files may be unbuffered. One that would have to wait, but doesn't, raises `BlockingIOError`. Whatever is
        raised, what was written by then is to be thrown away.
        """
        _pass(self.sealing(associated_data), source, destination)

    def decrypt_file(self, source: BinaryIO, destination: BinaryIO, associated_data: Buffer = b"") -> None:
        """Opens the stream that one binary file has left, and writes its plaintext to another.

        The files may be unbuffered. One that would have to wait, but doesn't, raises `BlockingIOError`. Whatever is
        raised, such as `Refused`, what was written by then is only a part, and to be thrown away.
        """
        _pass(self.opening(associated_data), source, destination)
