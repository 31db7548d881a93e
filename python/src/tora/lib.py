"""The shared library `libtora` in the own process: no program is started. `tora.core` has the rules of one node, and
`tora.router` a whole one with its neighbour links, and `tora.driven` a simulated world.

The library is that which TORA_LIBRARY names, else the first of these that is there: `libtora.so.0` beside this file, in
`out` of the repository, or where the system looks for libraries, as that of the Debian package libtora0. A `Core`,
`Router` or `World` is used by one thread at a time.
"""
from __future__ import annotations

import ctypes
import ctypes.util
import enum
import functools
import os
import pathlib
from collections.abc import Iterable
from ctypes import POINTER, byref, c_int32, c_size_t, c_uint8, c_uint32, c_uint64, c_void_p
from types import TracebackType
from typing import Any, ClassVar, NamedTuple, Self

ABI_VERSION = 1
NAME = "libtora.so.0"
GREATEST_ID = 2**32 - 1
GREATEST_TICK = 2**64 - 1

# The codes of `tora.h` that are no error of an input.
OK, MEMORY, NULL, ABSENT, ROOM, UNKNOWN = 0, 1, 5, 8, 9, 10
FIRST_REFUSAL, FIRST_PACKET_FAULT = 11, 21

WORDS = {
    1: "there is not enough memory",
    2: "there are more than 255 neighbours, or more than 64 destinations",
    3: "a neighbour or a destination is named twice",
    4: "the node itself is among its neighbours",
    5: "it is closed",
    6: "the number of a node is 0",
    7: "there is no such choice",
    10: "the destination is not in the table, or the link is not up",
    11: "the neighbour is not configured",
    12: "the link is up already",
    13: "the link is not up",
    14: "the update is not of the neighbour that sent it",
    15: "the destination is not in the table",
    16: "the first life number is 0 or above 2^62",
    21: "the bytes spell no packet: there are too few",
    22: "the bytes spell no packet: there are too many",
    23: "the bytes spell no packet: the version is not 1",
    24: "the bytes spell no packet: the kind is not 1, 2 or 3",
    25: "the bytes spell no packet: a byte that has to be zero is not",
    26: "the bytes spell no packet: the destination, the height or the level is out of range",
}


class LibraryError(Exception):
    """What a call of the library answers in place of its result.

    Attributes
    ----------
    code : int
        The code, as `tora.h` has it; 0 where there is no library.
    """

    def __init__(self, code: int, words: str | None = None) -> None:
        """An error of a code, in its words."""
        self.code = code
        super().__init__(words or WORDS.get(code, f"the library answers {code}"))


class NoLibraryError(LibraryError):
    """There is no library `libtora`, or it is another version; the text says where it was looked for."""


class RefusedError(LibraryError):
    """The core or router refuses the input; it is as it was."""


class PacketError(LibraryError):
    """The bytes are not a packet; the core is unchanged."""


class ClosedError(LibraryError):
    """The core, router or world was closed."""


class Erasure(enum.IntEnum):
    """What becomes of erased reference levels. Nodes of both choices may be neighbours."""

    PLAIN = 0
    REMEMBERED = 1


class Height(NamedTuple):
    """A height. Heights compare as TORA orders them: a link leads from the higher to the lower one.

    Attributes
    ----------
    tau : int
        When the reference level was defined, in ticks of 100 ms.
    oid : int
        The node that defined it.
    r : int
        0 for an original level, 1 for a reflected one.
    delta : int
        The order within the level.
    id : int
        The node whose height it is.
    """

    tau: int
    oid: int
    r: int
    delta: int
    id: int

    def __str__(self) -> str:
        """The height as the program prints it."""
        return f"({self.tau},{self.oid},{self.r},{self.delta},{self.id})"


class _Handle(ctypes.Structure):
    _fields_ = [("at", c_void_p)]


class _Height(ctypes.Structure):
    _fields_ = [("tau", c_uint64), ("oid", c_uint32), ("r", c_uint32), ("delta", c_int32), ("id", c_uint32)]


class _Times(ctypes.Structure):
    _fields_ = [(name, c_uint64) for name in ("hello", "silent", "retry", "tries")]


class _Change(ctypes.Structure):
    _fields_ = [(name, c_uint32) for name in ("kind", "node", "hop", "reason")]


class _Tally(ctypes.Structure):
    _fields_ = [(name, c_uint64) for name in ("accepted", "repeated", "ahead", "stale", "foreign", "busy", "bad")]


_HELD, _HEIGHT, _NUMBER, _SIZE = POINTER(_Handle), POINTER(_Height), POINTER(c_uint32), POINTER(c_size_t)
_BYTES, _LONG, _TIMES = POINTER(c_uint8), POINTER(c_uint64), POINTER(_Times)
_NODE: list[type] = [_HELD, c_uint32, _NUMBER, c_size_t, _NUMBER, c_size_t, c_uint32]  # what makes a node
_READERS: dict[str, list[type]] = {
    "free": [_HELD],
    "need": [_HELD, c_uint32, c_uint64],
    "height": [_HELD, c_uint32, _HEIGHT],
    "entry": [_HELD, c_uint32, c_uint32, _HEIGHT],
    "next_hop": [_HELD, c_uint32, _NUMBER],
    "flag": [_HELD, c_uint32, _NUMBER],
    "is_up": [_HELD, c_uint32, _NUMBER],
    "show": [_HELD, _BYTES, c_size_t, _SIZE],
}
_SIGNATURES: dict[str, list[type]] = {
    "tora_abi_version": [],
    "tora_version": [_BYTES, c_size_t, _SIZE],
    "tora_core_new": _NODE,
    "tora_core_clone": [_HELD, _HELD],
    "tora_core_link_up": [_HELD, c_uint32, c_uint64],
    "tora_core_link_down": [_HELD, c_uint32, c_uint64],
    "tora_core_packet": [_HELD, c_uint32, _BYTES, c_size_t, c_uint64],
    "tora_core_sent_count": [_HELD, _SIZE],
    "tora_core_sent": [_HELD, c_size_t, _BYTES, c_size_t, _SIZE],
    "tora_router_new": [*_NODE, _TIMES, c_uint64],
    "tora_router_datagram": [_HELD, c_uint32, _BYTES, c_size_t, c_uint64, _NUMBER],
    "tora_router_tick": [_HELD, c_uint64],
    "tora_router_cut": [_HELD, c_uint32, c_uint64],
    "tora_router_poll_datagram": [_HELD, c_uint64, _NUMBER, _BYTES, c_size_t, _SIZE],
    "tora_router_poll_change": [_HELD, POINTER(_Change)],
    "tora_router_next_due": [_HELD, _LONG],
    "tora_router_next_life": [_HELD, _LONG],
    "tora_router_tally": [_HELD, c_uint32, POINTER(_Tally)],
    "tora_world_new": [_HELD, c_uint32, c_uint32, _TIMES],
    "tora_world_free": [_HELD],
    "tora_world_line": [_HELD, _BYTES, c_size_t, _SIZE],
    "tora_world_answer": [_HELD, _BYTES, c_size_t, _SIZE],
    **{f"tora_{kind}_{name}": types for kind in ("core", "router") for name, types in _READERS.items()},
}


def places() -> list[str]:
    """Where the library is looked for, in this order."""
    named = os.environ.get("TORA_LIBRARY")
    if named:
        return [named]
    here = pathlib.Path(__file__).resolve()
    found = [str(here.with_name(NAME))]
    if len(here.parents) > 3:
        found.append(str(here.parents[3] / "out" / NAME))
    return [*found, NAME]


@functools.cache
def _opened(paths: tuple[str, ...]) -> ctypes.CDLL:
    """The first library of these that there is, with the types of its calls."""
    for path in paths:
        if os.sep in path and not os.path.exists(path):
            continue
        try:
            library = ctypes.CDLL(path)
        except OSError:
            continue
        for name, types in _SIGNATURES.items():
            call = getattr(library, name, None)
            if call is None:
                raise NoLibraryError(OK, f"{path}: it has no call {name}")
            call.argtypes, call.restype = types, None if name.endswith("_free") else c_uint32
        if library.tora_abi_version() != ABI_VERSION:
            version = library.tora_abi_version()
            raise NoLibraryError(OK, f"{path}: its calls are of version {version}, and not {ABI_VERSION}")
        return library
    where = ", ".join(paths)
    how = "the Debian package libtora0 has it, ./tora build --lib builds it, TORA_LIBRARY names it"
    raise NoLibraryError(OK, f"there is no library tora at {where}; {how}")


def library() -> ctypes.CDLL:
    """The library.

    Raises
    ------
    NoLibraryError
        Where there is none, or it is another version.
    """
    return _opened(tuple(places()))


def version() -> str:
    """The version of the library."""
    text, length = (c_uint8 * 64)(), c_size_t()
    done(library().tora_version(text, len(text), byref(length)))
    return bytes(text[: length.value]).decode()


def done(code: int) -> None:
    """Raises what a code says, unless it is done."""
    if code == OK:
        return
    if code == MEMORY:
        raise MemoryError(WORDS[code])
    if code == NULL:
        raise ClosedError(code)
    if code >= FIRST_PACKET_FAULT:
        raise PacketError(code)
    if code >= FIRST_REFUSAL:
        raise RefusedError(code)
    raise LibraryError(code)


def within(name: str, number: int, most: int) -> int:
    """A number that the library's type holds; ctypes would cut it in silence."""
    if not 0 <= number <= most:
        raise ValueError(f"{name} is from 0 to {most}, and not {number}")
    return number


def node(name: str, number: int) -> int:
    """The number of a node."""
    return within(name, number, GREATEST_ID)


def tick(now: int) -> int:
    """A moment."""
    return within("now", now, GREATEST_TICK)


def spelt(datagram: bytes) -> ctypes.Array[c_uint8]:
    """Bytes as the library reads them."""
    return (c_uint8 * len(datagram)).from_buffer_copy(datagram)


class Held:
    """What the library holds until it is closed."""

    _KIND: ClassVar[str]

    def _make(self, *words: Any) -> None:
        """Has the library make what is held."""
        self._handle, self._library = _Handle(), library()
        done(self._call("new", *words))

    def _call(self, name: str, *words: Any) -> int:
        """What a call answers."""
        code: int = getattr(self._library, f"tora_{self._KIND}_{name}")(self._handle, *words)
        return code

    def close(self) -> None:
        """Frees it: each later call but this raises `ClosedError`."""
        self._call("free")

    def __enter__(self) -> Self:
        """It is closed at the end of the block."""
        return self

    def __exit__(
        self, kind: type[BaseException] | None, error: BaseException | None, trace: TracebackType | None
    ) -> None:
        """Closes it."""
        self.close()

    def __del__(self) -> None:
        """Closes it where nobody holds it."""
        if getattr(self, "_library", None) is not None:
            self.close()


class Handle(Held):
    """What a core and a router have in common: it can be read."""

    def _make_node(self, me: int, neighbours: Iterable[int], destinations: Iterable[int], *words: Any) -> None:
        """Has the library make the node."""
        words_of_lists: list[Any] = []
        for name, numbers in ("a neighbour", neighbours), ("a destination", destinations):
            found = [node(name, it) for it in numbers]
            words_of_lists += [(c_uint32 * len(found))(*found), len(found)]
        self._make(node("a node", me), *words_of_lists, *words)

    def _height(self, name: str, *words: int) -> Height | None:
        found = _Height()
        code = self._call(name, *words, byref(found))
        if code == ABSENT:
            return None
        done(code)
        return Height(found.tau, found.oid, found.r, found.delta, found.id)

    def height(self, d: int) -> Height | None:
        """The own height for destination `d`; None where it is NULL."""
        return self._height("height", node("d", d))

    def entry(self, d: int, k: int) -> Height | None:
        """The height that neighbour `k` sent last for destination `d`; None if it is NULL."""
        return self._height("entry", node("d", d), node("k", k))

    def next_hop(self, d: int) -> int | None:
        """The next hop to destination `d`; None where no neighbour is downstream."""
        hop = c_uint32()
        code = self._call("next_hop", node("d", d), byref(hop))
        if code == ABSENT:
            return None
        done(code)
        return hop.value

    def flag(self, d: int) -> bool:
        """Whether a route to destination `d` is required."""
        flag = c_uint32()
        done(self._call("flag", node("d", d), byref(flag)))
        return flag.value == 1

    def is_up(self, k: int) -> bool:
        """Whether the link to neighbour `k` is up."""
        up = c_uint32()
        done(self._call("is_up", node("k", k), byref(up)))
        return up.value == 1

    def show(self) -> str:
        """The state of the rules as text, as `tora replay` shows it."""
        length, room = c_size_t(), 512
        while True:
            text = (c_uint8 * room)()
            code = self._call("show", text, room, byref(length))
            if code != ROOM:
                done(code)
                return bytes(text[: length.value]).decode()
            room = length.value
