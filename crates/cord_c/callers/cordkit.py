"""Session images, sessions and ropes in Python, by the proved libraries of cordkit.

An image is checked and asked:

    import cordkit
    image = cordkit.Image("notes.cord", ["README.md"])   # checked; raises Refused
    image.revisions                                      # how many texts it has
    image.text(12)                                       # one of them, as bytes
    image.locate(12, 40)                                 # where byte 40 of it stands: pool, source and place, or function
    image.origin(12, 40)                                 # the revision whose command brought it
    image.blame(12, 40)                                  # that, its place there, what it is, and for how many bytes on
    image.origins(12)                                    # the same of all its bytes, run by run

A session keeps every revision of its texts; a command makes the next one, and answers its number:

    with cordkit.Session() as session:                   # or Session.resume("notes.cord", ["README.md"])
        k = session.insert(session.new(), 0, b"the fox")
        k = session.insert(k, 4, b"brown ")
        session[k][4:9]                                  # b"brown"; len(session[k]), session[k].find(b"fox"), session[-1]
        session.save("fox.cord")                         # an image, which `cordkit check` accepts

Ropes are texts without a history; they share what they have in common:

    with cordkit.Store() as store:
        fox = store.rope(b"the fox")
        bytes(fox[:4] + b"brown " + fox[4:])             # slices and sums are ropes of the same store

A source is a path, or bytes, or a number: a length, where no byte of it is held. An image that the editor wrote needs no more to be
checked and located in. What a call refuses is an Error, with the code that cord_session.h names.

What the libraries answer is proved there; this file is tested. They are libcord_c.so and, for sessions and ropes, libcord_session.so: each beside
this file, or where `make library` puts it, or where CORDKIT_LIBRARY and CORDKIT_SESSION_LIBRARY say.
"""

import ctypes
import enum
import os
import struct
import threading
from typing import Iterable, Iterator, List, NamedTuple, Optional, Tuple, Union

Source = Union[str, "os.PathLike[str]", bytes, int]

POOL, SOURCE, FUNCTION = 1, 2, 3
FILL, RAMP, CYCLE = 1, 2, 3
NAMES = ["", "New", "Open", "Insert", "Delete", "Replace", "Paste", "Join", "Cut", "Fill", "Back", "Balance", "Many"]


class Verdict(ctypes.Structure):
    """What a check answers: see cord.h. Printed as `cordkit check` does."""

    _fields_ = [(name, ctypes.c_uint32) for name in ("code", "kind", "number", "revisions", "nodes", "rows")]
    _fields_.append(("row", ctypes.c_uint64))

    def __str__(self) -> str:
        if self.code == 0:
            return f"accepted {self.revisions} revisions {self.nodes} nodes {self.rows} rows"
        of_kind = {1: f"C1(I{self.kind})", 2: "C2", 11: f"C11({self.number},{self.row})", 12: f"C12(S{self.kind})", 13: f"S{self.kind}"}
        return "refused " + of_kind.get(self.code, f"C{self.code}({self.number})")


class Run(ctypes.Structure):
    """Where a piece of a text stands: see cord.h."""

    _fields_ = [(name, ctypes.c_uint32) for name in ("kind", "source", "function", "pattern_len")]
    _fields_ += [("start", ctypes.c_uint64), ("len", ctypes.c_uint64), ("_pattern", ctypes.c_uint8 * 16)]

    @property
    def pattern(self) -> bytes:
        return bytes(self._pattern[: self.pattern_len])

    def answer(self, j: int) -> int:
        """Byte j of a run of a function."""
        if self.function == CYCLE:
            return self._pattern[(self.start + j) % self.pattern_len]
        return (self._pattern[0] + (self.start + j if self.function == RAMP else 0)) % 256

    def __repr__(self) -> str:
        where = {POOL: "pool", SOURCE: f"source {self.source}", FUNCTION: f"function {self.function} {self.pattern!r}"}[self.kind]
        return f"<{self.len} bytes of {where} from {self.start}>"


class Origin(ctypes.Structure):
    """Where a byte comes from: see cord.h."""

    _fields_ = [(name, ctypes.c_uint32) for name in ("revision", "kind", "source", "byte")]
    _fields_ += [(name, ctypes.c_uint64) for name in ("place", "start", "len")]

    def __repr__(self) -> str:
        return f"Origin({', '.join(f'{name}={getattr(self, name)}' for name, _ in self._fields_)})"


class _Source(ctypes.Structure):
    _fields_ = [("bytes", ctypes.c_char_p), ("held", ctypes.c_size_t), ("size", ctypes.c_uint64)]


class _Image(ctypes.Structure):
    _fields_ = [("bytes", ctypes.c_void_p), ("len", ctypes.c_size_t)]


class Code(enum.IntEnum):
    """Why a call is refused: the numbers of cord_session.h, by their names there without CORD_."""

    MEMORY = 1, "memory was refused"
    CLOSED = 2, "nothing was begun, or it was closed"
    NO_COMMAND = 3, "there is no such command or function"
    NO_REVISION = 11, "there is no such revision"
    NO_SOURCE = 12, "there is no such source"
    RANGE = 13, "a place or a span is not inside its text, or changes are out of order"
    EMPTY_TEXT = 14, "no bytes were handed in, or a change changes nothing"
    MANY_REVISIONS = 15, "there are 1,048,576 revisions"
    MANY_ROWS = 16, "the session's rows would be more than 16,777,216"
    MANY_PIECES = 18, "a rope has to be balanced, and goes through more than 1,048,576 pieces"
    SPLICE_COUNT = 19, "there is no change, or there are more than 4,096"
    MANY_SPLICES = 20, "the session's splices would be more than 16,777,216"
    TOO_LONG = 31, "a text of 2^40 bytes or more, or more than 65,536 bytes handed in at once"
    TABLE_FULL = 33, "there are as many nodes as there can be"
    POOL_FULL = 34, "the pool would have more than 2^32 - 1 bytes"
    BAD_SPAN = 35, "there is no such source, or the span is not inside it"
    MANY_SOURCES = 36, "there are 255 sources"
    NO_ROPE = 39, "the store has no such rope"
    LONG_PATTERN = 41, "the pattern is longer than may be sought"
    UNHELD = 52, "a byte is of a source that does not hold it"
    BAD_SOURCES = 53, "there are more than 255 sources, or one is too long"
    OVER_SOURCE = 61, "the image has a row of bytes over a source, and no session goes on from it"
    REFUSED = 62, "the image is refused"

    def __new__(cls, number: int, meaning: str) -> "Code":
        code = int.__new__(cls, number)
        code._value_ = number
        code.__doc__ = meaning
        return code


class Error(Exception):
    """A call is refused, and has changed no text: its code."""

    def __init__(self, code: int, line: Optional[str] = None) -> None:
        self.code = Code(code)
        self._line = line or f"CORD_{self.code.name} ({self.code.value}): {self.code.__doc__}"

    def __str__(self) -> str:
        return self._line


class Missing(Error, IndexError):
    """There is no such revision, place or rope: also an IndexError."""


class Refused(Error):
    """The image is not accepted: why, as `cordkit check` prints it, and the verdict, where it has one."""

    def __init__(self, line: str, verdict: Optional[Verdict] = None) -> None:
        super().__init__(Code.REFUSED, line)
        self.verdict = verdict


class NotHeld(Error):
    """The bytes are of a source that does not hold them."""

    def __init__(self) -> None:
        super().__init__(Code.UNHELD)


class Splice(NamedTuple):
    p: int
    m: int
    a: int
    n: int


class Command(NamedTuple):
    """The command of a revision: its name, its fields as docs/FORMAT.md names them, and the splices of Many."""

    name: str
    r: int
    q: int
    p: int
    m: int
    a: int
    n: int
    splices: Tuple[Splice, ...]


def library_path(crate: str = "cord_c", variable: str = "CORDKIT_LIBRARY") -> str:
    """The library of a crate that is loaded."""
    here = os.path.dirname(os.path.abspath(__file__))
    built = os.path.join(os.path.dirname(os.path.dirname(here)), crate, "out", f"lib{crate}.so")
    beside = os.path.join(here, f"lib{crate}.so")
    return os.environ.get(variable) or (built if os.path.exists(built) and not os.path.exists(beside) else beside)


def _loaded() -> ctypes.CDLL:
    library = ctypes.CDLL(library_path())
    size, u32, u64, pointer = ctypes.c_size_t, ctypes.c_uint32, ctypes.c_uint64, ctypes.c_void_p
    for name, result, words in [
        ("check", ctypes.c_bool, [ctypes.c_char_p, size, pointer, size, pointer]),
        ("looks_bound", ctypes.c_bool, [ctypes.c_char_p, size, pointer]),
        ("open", ctypes.c_bool, [ctypes.c_char_p, size, pointer, size, pointer, pointer]),
        ("counts", None, [pointer, pointer]),
        ("text_len", ctypes.c_bool, [pointer, u32, pointer]),
        ("fetch", u32, [pointer, pointer, size, u32, u64, pointer]),
        ("locate", ctypes.c_bool, [pointer, u32, u64, pointer]),
        ("origin", ctypes.c_bool, [pointer, u32, u64, pointer]),
        ("origins", ctypes.c_bool, [pointer, u32, u64, pointer, size, pointer]),
        ("read", u32, [pointer, pointer, size, u32, u64, pointer, size, pointer]),
    ]:
        call = getattr(library, "cord_" + name)
        call.restype, call.argtypes = result, words
    return library


_library = _loaded()
_no_revisions = struct.pack(">8sI28x", b"CORDSESS", 1)


def read(path: "str | os.PathLike[str]") -> bytes:
    with open(path, "rb") as file:
        return file.read()


def _given(sources: Iterable[Source]) -> "Tuple[ctypes.Array[_Source], int]":
    given = []
    for source in sources:
        if isinstance(source, int):
            given.append(_Source(b"", 0, _number(source, 64)))
        else:
            text = source if isinstance(source, bytes) else read(source)
            given.append(_Source(text, len(text), len(text)))
    return (_Source * max(1, len(given)))(*given), len(given)


def looks_bound(image: bytes) -> Optional[int]:
    """How many looks at nodes a check of the image takes at most; None where the bytes are no image."""
    bound = ctypes.c_uint64()
    return bound.value if _library.cord_looks_bound(image, len(image), ctypes.byref(bound)) else None


def check(image: bytes, sources: Iterable[Source] = (), at_most: Optional[int] = None) -> Verdict:
    """The verdict on an image; its code is 0 where it is accepted. Raises Refused where the check may take more looks than at_most."""
    looks = None if at_most is None else looks_bound(image)
    if looks is not None and looks > at_most:
        raise Refused(f"refused looks {looks}")
    given, count = _given(sources)
    verdict = Verdict()
    _library.cord_check(image, len(image), given, count, ctypes.byref(verdict))
    return verdict


class Image:
    """An image that was accepted, with the sources that it is asked with."""

    def __init__(self, path: "str | os.PathLike[str] | bytes", sources: Iterable[Source] = ()) -> None:
        self._data = path if isinstance(path, bytes) else read(path)
        self._sources, self._count = _given(sources)
        self._image = _Image(ctypes.cast(ctypes.c_char_p(_no_revisions), ctypes.c_void_p), len(_no_revisions))
        verdict = Verdict()
        opened = ctypes.byref(self._image)
        if not _library.cord_open(self._data, len(self._data), self._sources, self._count, opened, ctypes.byref(verdict)):
            raise Refused(str(verdict), verdict)
        self._commands: Optional[List[Command]] = None

    @property
    def counts(self) -> Verdict:
        """How many revisions, nodes and rows it has."""
        counts = Verdict()
        _library.cord_counts(ctypes.byref(self._image), ctypes.byref(counts))
        return counts

    @property
    def revisions(self) -> int:
        return self.counts.revisions

    def length(self, k: int) -> int:
        """The length of the text of revision k."""
        length = ctypes.c_uint64()
        if not 0 <= k < 1 << 32 or not _library.cord_text_len(ctypes.byref(self._image), k, ctypes.byref(length)):
            raise IndexError(f"no revision {k}")
        return length.value

    def byte(self, k: int, i: int) -> int:
        """Byte i of the text of revision k."""
        self._try_place(k, i)
        byte = ctypes.c_uint8()
        if _library.cord_fetch(ctypes.byref(self._image), self._sources, self._count, k, i, ctypes.byref(byte)) != 0:
            raise NotHeld()
        return byte.value

    def text(self, k: int, start: int = 0, count: Optional[int] = None) -> bytes:
        """The text of revision k, or at most count bytes of it from start on."""
        left = max(0, self.length(k) - start)
        text = bytearray(left if count is None else min(count, left))
        place, got = 0, ctypes.c_size_t()
        out = (ctypes.c_uint8 * len(text)).from_buffer(text)
        while place < len(text):
            to = ctypes.byref(out, place)
            image = ctypes.byref(self._image)
            if _library.cord_read(image, self._sources, self._count, k, start + place, to, len(text) - place, ctypes.byref(got)) != 0:
                raise NotHeld()
            place += got.value
        del out
        return bytes(text)

    def locate(self, k: int, i: int) -> Run:
        """Where byte i of the text of revision k stands, and how many follow it there."""
        self._try_place(k, i)
        run = Run()
        _library.cord_locate(ctypes.byref(self._image), k, i, ctypes.byref(run))
        return run

    @property
    def commands(self) -> List[Command]:
        """The command of each revision."""
        if self._commands is None:
            self._commands = _commands_of(self._data)
        return self._commands

    def origin(self, k: int, i: int) -> int:
        """The revision whose command brought byte i of the text of revision k: that put it in from the pool, filled it in, or opened its
        source."""
        return self.blame(k, i).revision

    def blame(self, k: int, i: int) -> Origin:
        """Where byte i of the text of revision k comes from, and how many bytes from it on came in together with it."""
        self._try_place(k, i)
        found = Origin()
        _library.cord_origin(ctypes.byref(self._image), k, i, ctypes.byref(found))
        return found

    def origins(self, k: int, start: int = 0, room: int = 4096) -> Iterator[Origin]:
        """Where the bytes of the text of revision k from start on come from: as blame of the first, and then of each one behind the last run. They
        are asked for so many at a time."""
        length, count = self.length(k), ctypes.c_size_t()
        while start < length:
            runs = (Origin * room)()
            _library.cord_origins(ctypes.byref(self._image), k, start, runs, room, ctypes.byref(count))
            yield from runs[: count.value]
            start += sum(run.len for run in runs[: count.value])

    def _try_place(self, k: int, i: int) -> None:
        if not 0 <= i < self.length(k):
            raise IndexError(f"no byte {i} in revision {k}")


def _commands_of(image: bytes) -> List[Command]:
    """The commands of an image that was accepted, by docs/FORMAT.md."""
    sources, nodes, revisions, _, splices = struct.unpack_from(">5I", image, 12)
    at = 40 + 8 * sources + 32 * nodes
    records = [struct.unpack_from(">BBHIIIQQQQII", image, at + 56 * k) for k in range(revisions)]
    all_splices = [Splice(*struct.unpack_from(">4Q", image, at + 56 * revisions + 32 * j)) for j in range(splices)]
    commands, first = [], 0
    for code, _, _, _, r, q, p, m, a, n, _, _ in records:
        count = q if NAMES[code] == "Many" else 0
        commands.append(Command(NAMES[code], r, q, p, m, a, n, tuple(all_splices[first : first + count])))
        first += count
    return commands


# ---- Ropes and sessions

_BYTES_AT_ONCE = 65536
_NOWHERE = (1 << 64) - 1


class Change(NamedTuple):
    """A change of Session.many: these bytes in place of m bytes from place p on."""

    p: int
    m: int
    text: bytes


class Sizes(ctypes.Structure):
    """How many revisions, nodes and sources a session has, and how many bytes its pool has: those that were handed in, some of them twice."""

    _fields_ = [(name, ctypes.c_uint32) for name in ("revisions", "nodes", "sources", "_unused")]
    _fields_.append(("pool", ctypes.c_uint64))


class _Handle(ctypes.Structure):
    _fields_ = [("at", ctypes.c_void_p), ("open", ctypes.c_bool)]


class _Change(ctypes.Structure):
    _fields_ = [(name, ctypes.c_uint64) for name in ("p", "m", "n")]


class _Command(ctypes.Structure):
    _fields_ = [
        ("code", ctypes.c_uint8), ("byte", ctypes.c_uint8), ("r", ctypes.c_uint32), ("q", ctypes.c_uint32),
        ("p", ctypes.c_uint64), ("i", ctypes.c_uint64), ("n", ctypes.c_uint64), ("bytes", ctypes.c_char_p), ("bytes_len", ctypes.c_size_t),
        ("changes", ctypes.c_void_p), ("change_count", ctypes.c_size_t),
    ]  # fmt: skip


def _with_sessions() -> ctypes.CDLL:
    """The second library, loaded when it is first asked for."""
    global _sessions
    if _sessions is None:
        _sessions = ctypes.CDLL(library_path("cord_session", "CORDKIT_SESSION_LIBRARY"))
        size, u32, u64, pointer, text = ctypes.c_size_t, ctypes.c_uint32, ctypes.c_uint64, ctypes.c_void_p, ctypes.c_char_p
        for kind, name in (("session", u32), ("store", u64)):
            held = [pointer, pointer, size, name]
            calls = {
                "begin": [pointer], "end": [pointer], "add_source": [pointer, u64, pointer], "len": [pointer, name, pointer],
                "read": [*held, u64, pointer, size, pointer], "locate": [pointer, name, u64, pointer], "find": [*held, u64, text, size, pointer],
                "chr": [*held, u64, ctypes.c_uint8, pointer], "rchr": [*held, u64, ctypes.c_uint8, pointer],
                "compare": [*held, u64, name, u64, u64, pointer],
            }  # fmt: skip
            calls.update(_SESSION_CALLS if kind == "session" else _STORE_CALLS)
            for call, words in calls.items():
                function = getattr(_sessions, f"cord_{kind}_{call}")
                function.restype, function.argtypes = None if call == "end" else u32, words
    return _sessions


_sessions: Optional[ctypes.CDLL] = None
_SESSION_CALLS = {
    "resume": [ctypes.c_void_p, ctypes.c_char_p, ctypes.c_size_t, ctypes.c_void_p, ctypes.c_size_t, ctypes.c_void_p],
    "apply": [ctypes.c_void_p] * 3, "sizes": [ctypes.c_void_p] * 2, "save": [ctypes.c_void_p] * 2, "forget": [ctypes.c_void_p],
    "saved": [ctypes.c_void_p, ctypes.c_uint64, ctypes.c_void_p, ctypes.c_size_t, ctypes.c_void_p],
}  # fmt: skip
_STORE_CALLS = {
    "bytes": [ctypes.c_void_p, ctypes.c_char_p, ctypes.c_size_t, ctypes.c_void_p],
    "source": [ctypes.c_void_p, ctypes.c_uint32, ctypes.c_uint64, ctypes.c_uint64, ctypes.c_void_p],
    "function": [ctypes.c_void_p, ctypes.c_uint32, ctypes.c_char_p, ctypes.c_size_t, ctypes.c_uint64, ctypes.c_void_p],
    "cat": [ctypes.c_void_p, ctypes.c_uint64, ctypes.c_uint64, ctypes.c_void_p],
    "append": [ctypes.c_void_p, ctypes.c_uint64, ctypes.c_char_p, ctypes.c_size_t, ctypes.c_void_p],
    "substr": [ctypes.c_void_p, ctypes.c_uint64, ctypes.c_uint64, ctypes.c_uint64, ctypes.c_void_p],
    "balance": [ctypes.c_void_p, ctypes.c_uint64, ctypes.c_void_p], "depth": [ctypes.c_void_p, ctypes.c_uint64, ctypes.c_void_p],
    "fetch": [ctypes.c_void_p, ctypes.c_void_p, ctypes.c_size_t, ctypes.c_uint64, ctypes.c_uint64, ctypes.c_void_p],
}  # fmt: skip


def _number(value: int, bits: int) -> int:
    """The value, or where it does not fit the largest number, which no revision, rope, place or source has."""
    return value if 0 <= value < 1 << bits else (1 << bits) - 1


def _bytes(text: "bytes | bytearray | memoryview") -> bytes:
    if not isinstance(text, (bytes, bytearray, memoryview)):
        raise TypeError(f"bytes are wanted, and not {type(text).__name__}")
    return bytes(text)


class _Owner:
    """What a session and a store have in common: a handle, which close ends, and sources. It stays on the thread that began it."""

    _kind = ""

    def __init__(self, sources: Iterable[Source]) -> None:
        self._library = _with_sessions()
        self._handle = _Handle()
        self._thread = threading.get_ident()
        self._sources, self._count = _given(())
        self._call("begin")
        for source in sources:
            self.add_source(source)

    def _call(self, name: str, *words: object) -> None:
        if threading.get_ident() != self._thread:
            raise RuntimeError(f"a {self._kind} stays on the thread that began it")
        code = getattr(self._library, f"cord_{self._kind}_{name}")(ctypes.byref(self._handle), *words)
        if code == Code.UNHELD:
            raise NotHeld()
        if code:
            raise (Missing if code in (Code.NO_REVISION, Code.RANGE, Code.NO_ROPE) else Error)(code)

    def _asked(self, name: str, *words: object) -> None:
        """A call that may read sources."""
        self._call(name, self._sources, self._count, *words)

    def add_source(self, source: Source) -> int:
        """Adds a source, and answers its number. Its length alone is kept by the library, its bytes here."""
        given, _ = _given([source])
        number = ctypes.c_uint32()
        self._call("add_source", given[0].size, ctypes.byref(number))
        self._sources = (_Source * (self._count + 1))(*self._sources[: self._count], given[0])
        self._count += 1
        return number.value

    def close(self) -> None:
        """Frees all that it holds. Each later call is refused by CLOSED; a second close does nothing."""
        if threading.get_ident() != self._thread:
            raise RuntimeError(f"a {self._kind} stays on the thread that began it")
        getattr(self._library, f"cord_{self._kind}_end")(ctypes.byref(self._handle))

    def __enter__(self):  # type: ignore[no-untyped-def]
        return self

    def __exit__(self, *_: object) -> None:
        self.close()

    def __del__(self) -> None:
        if getattr(self, "_thread", None) == threading.get_ident():
            self.close()


class _Readable:
    """A text in a session or a store: what can be asked of it."""

    def __init__(self, owner: _Owner, number: int) -> None:
        self._owner, self._name = owner, number

    def __len__(self) -> int:
        length = ctypes.c_uint64()
        self._owner._call("len", self._name, ctypes.byref(length))
        return length.value

    def __bytes__(self) -> bytes:
        return self._part(0, len(self))

    def __iter__(self) -> Iterator[int]:
        """Its bytes, as numbers."""
        for piece in self.pieces():
            yield from piece

    def _part(self, place: int, count: int) -> bytes:
        return b"".join(self.pieces(place, count))

    def _byte(self, i: int) -> int:
        length = len(self)
        if not -length <= i < length:
            raise Missing(Code.RANGE)
        return self._part(i % length, 1)[0]

    def pieces(self, place: int = 0, count: Optional[int] = None) -> Iterator[bytes]:
        """Its bytes from a place on, or at most so many, in pieces of at most 65,536."""
        left = max(0, len(self) - place) if count is None else count
        got, room = ctypes.c_size_t(), ctypes.create_string_buffer(max(1, min(left, _BYTES_AT_ONCE)))
        while left > 0:
            wanted = min(left, len(room))
            self._owner._asked("read", self._name, _number(place, 64), room, wanted, ctypes.byref(got))
            if got.value == 0:
                return
            yield room.raw[: got.value]
            place, left = place + got.value, left - got.value

    def locate(self, place: int) -> Run:
        """Where the byte at a place stands, and how many follow it there. It needs no source."""
        run = Run()
        self._owner._call("locate", self._name, _number(place, 64), ctypes.byref(run))
        return run

    def find(self, pattern: bytes, start: int = 0) -> int:
        """The first place from start on at which the pattern stands, or -1."""
        text = _bytes(pattern)
        return self._sought("find", start, text, len(text))

    def find_byte(self, byte: int, start: int = 0) -> int:
        """The first place from start on at which the byte stands, or -1."""
        return self._sought("chr", start, _a_byte(byte))

    def find_last_byte(self, byte: int, start: int = _NOWHERE) -> int:
        """The last place at start or earlier at which the byte stands, or -1."""
        return self._sought("rchr", start, _a_byte(byte))

    def _sought(self, name: str, start: int, *wanted: object) -> int:
        place = ctypes.c_uint64()
        self._owner._asked(name, self._name, _number(start, 64), *wanted, ctypes.byref(place))
        return -1 if place.value == _NOWHERE else place.value

    def _order(self, start: int, other: int, other_start: int, count: int) -> int:
        order = ctypes.c_uint32()
        words = [_number(start, 64), other, _number(other_start, 64), _number(count, 64)]
        self._owner._asked("compare", self._name, *words, ctypes.byref(order))
        return order.value - 1


def _a_byte(byte: int) -> int:
    if not 0 <= byte < 256:
        raise ValueError(f"{byte} is no byte")
    return byte


def _span(length: int, part: slice) -> Tuple[int, int]:
    """Where a slice begins, and how many bytes it has."""
    start, stop, step = part.indices(length)
    if step != 1:
        raise ValueError("a slice goes byte by byte")
    return start, max(0, stop - start)


class Text(_Readable):
    """The text of a revision, as `session[k]` gives it: `len`, `text[i]`, slices, iteration and `bytes` are those of bytes."""

    @property
    def revision(self) -> int:
        return self._name

    def __getitem__(self, i: "int | slice") -> "int | bytes":
        return self._part(*_span(len(self), i)) if isinstance(i, slice) else self._byte(i)

    def compare(self, other: "Text", start: int = 0, other_start: int = 0, count: int = _NOWHERE) -> int:
        """-1, 0 or 1, as so many bytes of this text from start on are less than those of another one of the session, equal, or greater."""
        if other._owner is not self._owner:
            raise Missing(Code.NO_REVISION)
        return self._order(start, other._name, other_start, count)

    def __repr__(self) -> str:
        return f"<text of revision {self._name}>"


class Rope(_Readable):
    """A text of a store: `len`, `rope[i]`, iteration and `bytes` are those of bytes; slices and sums are ropes. It never changes, and is there for as
    long as its store is open."""

    def __getitem__(self, i: "int | slice") -> "int | Rope":
        if not isinstance(i, slice):
            return self._byte(i)
        start, count = _span(len(self), i)
        return self._owner._rope("substr", self._name, start, count)

    def __add__(self, other: "Rope | bytes") -> "Rope":
        """This rope, and behind it another one of its store, or bytes."""
        if isinstance(other, Rope):
            return self._owner._rope("cat", self._name, self._owner._known(other))
        text, rope = _bytes(other), self
        for at in range(0, len(text), _BYTES_AT_ONCE):
            piece = text[at : at + _BYTES_AT_ONCE]
            rope = rope._owner._rope("append", rope._name, piece, len(piece))
        return rope

    def __radd__(self, other: bytes) -> "Rope":
        return self._owner.rope(other) + self

    @property
    def depth(self) -> int:
        """How deep its tree is: 0 where it is empty, and of one leaf."""
        depth = ctypes.c_uint32()
        self._owner._call("depth", self._name, ctypes.byref(depth))
        return depth.value

    def balanced(self) -> "Rope":
        """The same text, by a rope whose depth is small for its length."""
        return self._owner._rope("balance", self._name)

    def fetch(self, place: int) -> int:
        """The byte at a place."""
        byte = ctypes.c_uint8()
        self._owner._asked("fetch", self._name, _number(place, 64), ctypes.byref(byte))
        return byte.value

    def compare(self, other: "Rope", start: int = 0, other_start: int = 0, count: int = _NOWHERE) -> int:
        """-1, 0 or 1, as so many bytes of this rope from start on are less than those of another one of its store, equal, or greater."""
        return self._order(start, self._owner._known(other), other_start, count)

    def __repr__(self) -> str:
        return f"<rope {self._name}>"


class Store(_Owner):
    """Ropes without a history. A store only grows, until it is closed. Its sources may be given at once."""

    _kind = "store"

    def __init__(self, sources: Iterable[Source] = ()) -> None:
        super().__init__(sources)

    def _rope(self, call: str, *words: object) -> Rope:
        number = ctypes.c_uint64()
        self._call(call, *words, ctypes.byref(number))
        return Rope(self, number.value)

    def _known(self, rope: Rope) -> int:
        """The number of a rope of this store."""
        if rope._owner is not self:
            raise Missing(Code.NO_ROPE)
        return rope._name

    def rope(self, text: bytes = b"") -> Rope:
        """These bytes, or the empty rope."""
        return Rope(self, 0) + _bytes(text)

    def source(self, source: int, place: int, count: int) -> Rope:
        """So many bytes of a source from a place on."""
        return self._rope("source", _number(source, 32), _number(place, 64), _number(count, 64))

    def function(self, function: int, pattern: bytes, count: int) -> Rope:
        """The first count bytes of FILL, RAMP or CYCLE, over 1 to 16 bytes of pattern."""
        text = _bytes(pattern)
        return self._rope("function", _number(function, 32), text, len(text), _number(count, 64))

    def cut(self, rope: Rope, place: int, count: int) -> Rope:
        """Of a rope at most so many bytes from a place on: what a slice gives, without asking for its length."""
        return self._rope("substr", self._known(rope), _number(place, 64), _number(count, 64))


class Session(_Owner):
    """A session that keeps every revision of its texts, from nothing; resume goes on from an image. Its sources may be given at once.

    A command makes the next revision, and answers its number. r and q are revisions, p and i places, n a number of bytes.
    `session[k]` is a text, `session[-1]` the last one, `len(session)` how many there are; a loop goes through them."""

    _kind = "session"

    def __init__(self, sources: Iterable[Source] = ()) -> None:
        super().__init__(sources)

    @classmethod
    def resume(cls, image: "str | os.PathLike[str] | bytes", sources: Iterable[Source] = ()) -> "Session":
        """A session that goes on from an image: a path, or bytes. Raises Refused where it is not accepted with these sources."""
        data = image if isinstance(image, bytes) else read(image)
        given, count = _given(sources)
        session, verdict = cls(), Verdict()
        try:
            session._call("resume", data, len(data), given, count, ctypes.byref(verdict))
        except Error as error:
            session.close()
            if error.code == Code.REFUSED:
                raise Refused(str(verdict), verdict) from None
            raise
        session._sources, session._count = given, count
        return session

    def __len__(self) -> int:
        return self.sizes.revisions

    def __getitem__(self, k: int) -> Text:
        text = Text(self, _number(k if k >= 0 else k + len(self), 32))
        len(text)
        return text

    def __iter__(self) -> Iterator[Text]:
        return (Text(self, k) for k in range(len(self)))

    @property
    def sizes(self) -> Sizes:
        """How large the session is."""
        sizes = Sizes()
        self._call("sizes", ctypes.byref(sizes))
        return sizes

    def new(self) -> int:
        """The empty text."""
        return self._apply("New")

    def open(self, source: int) -> int:
        """The text of a source."""
        return self._apply("Open", q=source)

    def insert(self, r: int, p: int, text: bytes) -> int:
        """r, with the bytes put in at p."""
        return self._apply("Insert", r, p=p, text=text)

    def delete(self, r: int, p: int, n: int) -> int:
        """r without its n bytes from p on."""
        return self._apply("Delete", r, p=p, n=n)

    def replace(self, r: int, p: int, n: int, text: bytes) -> int:
        """r, with the bytes in place of its n bytes from p on."""
        return self._apply("Replace", r, p=p, n=n, text=text)

    def paste(self, r: int, p: int, q: int, i: int, n: int) -> int:
        """r, with the n bytes of q from i on put in at p."""
        return self._apply("Paste", r, q, p, i, n)

    def join(self, r: int, q: int) -> int:
        """r and then q."""
        return self._apply("Join", r, q)

    def cut(self, r: int, i: int, n: int) -> int:
        """The n bytes of r from i on."""
        return self._apply("Cut", r, i=i, n=n)

    def fill(self, r: int, p: int, byte: int, n: int) -> int:
        """r, with n bytes of this one put in at p."""
        return self._apply("Fill", r, p=p, n=n, byte=_a_byte(byte))

    def back(self, r: int) -> int:
        """r: an undo, a redo, a branch."""
        return self._apply("Back", r)

    def balance(self, r: int) -> int:
        """r, by a balanced rope."""
        return self._apply("Balance", r)

    def many(self, r: int, changes: "Iterable[Change | Tuple[int, int, bytes]]") -> int:
        """r with all changes at once: (p, m, bytes), each the bytes in place of m bytes from place p of r on."""
        all_changes = [Change(p, m, _bytes(text)) for p, m, text in changes]
        room = (_Change * max(1, len(all_changes)))(*[(_number(p, 64), _number(m, 64), len(text)) for p, m, text in all_changes])
        return self._apply("Many", r, text=b"".join(change.text for change in all_changes), changes=room, change_count=len(all_changes))

    def _apply(self, name: str, r: int = 0, q: int = 0, p: int = 0, i: int = 0, n: int = 0, byte: int = 0, text: bytes = b"",
               changes: "Optional[ctypes.Array[_Change]]" = None, change_count: int = 0) -> int:  # fmt: skip
        data, none, revision = _bytes(text), (_Change * 1)(), ctypes.c_uint32()
        room = ctypes.cast(none if changes is None else changes, ctypes.c_void_p)
        numbers = [_number(p, 64), _number(i, 64), _number(n, 64)]
        command = _Command(NAMES.index(name), byte, _number(r, 32), _number(q, 32), *numbers, data, len(data), room, change_count)
        self._call("apply", ctypes.byref(command), ctypes.byref(revision))
        return revision.value

    def image(self) -> bytes:
        """The image of the session, which `cordkit check`, Image and resume take."""
        length, got = ctypes.c_uint64(), ctypes.c_size_t()
        self._call("save", ctypes.byref(length))
        room = ctypes.create_string_buffer(max(1, length.value))
        self._call("saved", 0, room, length.value, ctypes.byref(got))
        self._call("forget")
        return room.raw[: got.value]

    def save(self, path: "str | os.PathLike[str]") -> None:
        """Writes the image as a file: first beside it, and then in its place, so that an older one stays until the new one is whole."""
        image, beside = self.image(), f"{os.fspath(path)}.new"
        with open(beside, "wb") as file:
            try:
                file.write(image)
                file.flush()
                os.fsync(file.fileno())
                os.replace(beside, path)
            except BaseException:
                os.unlink(beside)
                raise
