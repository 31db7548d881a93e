"""A whole node of TORA inside this process, by the shared library `libtora`: no sockets, threads or clocks.

>>> import tora
>>> with tora.Router(1, neighbours=[2], destinations=[9], first_life=1) as router:    # doctest: +SKIP
...     router.tick(now=0)
...     for peer, datagram in router.datagrams(now=0):
...         send(peer, datagram)

A tick is 100 ms. Datagrams may be lost, repeated, reordered and delayed; the host forges none. `tora.h` of the library
says what a host must do, and in which order.
"""
from __future__ import annotations

import enum
from collections.abc import Iterable, Iterator
from ctypes import byref, c_size_t, c_uint8, c_uint32, c_uint64
from typing import Any, NamedTuple

from tora.lib import ABSENT, GREATEST_TICK, Erasure, Handle, _Change, _Tally, _Times, done, node, spelt, tick, within

LONGEST_DATAGRAM = 560  # bytes


class Times(NamedTuple):
    """The times of a router's links. A part of 0 means the standard value.

    Attributes
    ----------
    hello : int
        Ticks from one HELLO to the next; standard: 10.
    silent : int
        Ticks without a frame from the neighbour after which a link goes down; standard: 50.
    retry : int
        Ticks from one try of a packet to the next, or until it is given up; standard: 5.
    tries : int
        Tries of a packet before it is given up; standard: 8.
    """

    hello: int = 0
    silent: int = 0
    retry: int = 0
    tries: int = 0


def spelt_times(times: Times) -> _Times:
    """Times as the library reads them."""
    return _Times(*(within(name, it, GREATEST_TICK) for name, it in times._asdict().items()))


class Intake(enum.IntEnum):
    """The outcome of a datagram. From 11 to 20, its bytes are no frame."""

    ACCEPTED = 1
    REPEATED = 2
    AHEAD = 3
    STALE = 4
    FOREIGN = 5
    BUSY = 6
    SHORT = 11
    LONG = 12
    VERSION = 13
    KIND = 14
    LENGTH = 15
    ID = 16
    LIFE = 17
    NUMBER = 18
    PACKET = 19
    COUNT = 20
    NO_NEIGHBOUR = 30


class Kind(enum.IntEnum):
    """What changed."""

    LINK_UP = 1
    LINK_DOWN = 2
    NEXT_HOP = 3


class Reason(enum.IntEnum):
    """Why a link is down."""

    SILENT = 1
    NEW_PEER = 2
    FULL = 3
    CUT = 4
    SPENT = 5


class Change(NamedTuple):
    """What changed at a router.

    Attributes
    ----------
    kind : Kind
        Whether it is a link or a next hop.
    node : int
        The neighbour, or the destination.
    hop : int or None
        The next hop; None if there is none, and for a link.
    reason : Reason or None
        Why a link is down; None otherwise.
    """

    kind: Kind
    node: int
    hop: int | None = None
    reason: Reason | None = None


class Tally(NamedTuple):
    """Counts of a neighbour's datagrams by outcome; bad ones are no frame."""

    accepted: int
    repeated: int
    ahead: int
    stale: int
    foreign: int
    busy: int
    bad: int


class Router(Handle):
    """A node: the rules, and a link end for each neighbour.

    Parameters
    ----------
    me : int
        The node, from 1 on.
    neighbours : iterable of int
        All nodes with which this node may ever have a link, at most 255.
    destinations : iterable of int
        The destinations of the table: at most 64.
    erasure : Erasure, optional
        How the node treats erased reference levels.
    times : Times, optional
        The times of its links.
    first_life : int
        The first number of a link session (life), from 1 to 2^62. No link of this node ever had this number or a
        higher one.

    Raises
    ------
    LibraryError
        If these arguments make no router.
    """

    _KIND = "router"

    def __init__(
        self,
        me: int,
        neighbours: Iterable[int],
        destinations: Iterable[int],
        erasure: Erasure = Erasure.PLAIN,
        times: Times = Times(),
        *,
        first_life: int,
    ) -> None:
        """A router whose links are closed until the first tick."""
        life = within("first_life", first_life, GREATEST_TICK)
        self._room = (c_uint8 * LONGEST_DATAGRAM)()
        self._make_node(me, neighbours, destinations, int(erasure), byref(spelt_times(times)), life)

    def datagram(self, peer: int, datagram: bytes, now: int) -> Intake:
        """Hand in the bytes of a datagram from node `peer` at the tick `now`. Returns the outcome."""
        intake = c_uint32()
        done(self._call("datagram", node("peer", peer), spelt(datagram), len(datagram), tick(now), byref(intake)))
        return Intake(intake.value)

    def tick(self, now: int) -> None:
        """Report the tick `now`: closed links open, and silent ones go down."""
        done(self._call("tick", tick(now)))

    def need(self, d: int, now: int) -> None:
        """Ask for a route to destination `d` at the tick `now`."""
        done(self._call("need", node("d", d), tick(now)))

    def cut(self, peer: int, now: int) -> None:
        """Report that the link to neighbour `peer` was lost at the tick `now`. The next tick opens it again."""
        done(self._call("cut", node("peer", peer), tick(now)))

    def poll_datagram(self, now: int) -> tuple[int, bytes] | None:
        """The next datagram to send at the tick `now`, after the neighbour that it is for; None if none is due."""
        peer, length = c_uint32(), c_size_t()
        words = byref(peer), self._room, LONGEST_DATAGRAM, byref(length)
        code = self._call("poll_datagram", tick(now), *words)
        if code == ABSENT:
            return None
        done(code)
        return peer.value, bytes(self._room[: length.value])

    def datagrams(self, now: int) -> Iterator[tuple[int, bytes]]:
        """Yields each datagram to send at the tick `now`, after the neighbour that it is for."""
        while found := self.poll_datagram(now):
            yield found

    def poll_change(self) -> Change | None:
        """The next change that was not polled yet; None if there is none."""
        found = _Change()
        code = self._call("poll_change", byref(found))
        if code == ABSENT:
            return None
        done(code)
        reason = Reason(found.reason) if found.reason else None
        return Change(Kind(found.kind), found.node, found.hop or None, reason)

    def changes(self) -> Iterator[Change]:
        """Yields each change that was not polled yet: first changes of links, then changes of next hops."""
        while found := self.poll_change():
            yield found

    def _number(self, name: str) -> int:
        number = c_uint64()
        done(self._call(name, byref(number)))
        return number.value

    def next_due(self) -> int:
        """The tick before which nothing is due unless something else happens; 2^64 - 1 if nothing ever is due."""
        return self._number("next_due")

    def next_life(self) -> int:
        """The next number of a link session (life): no link had this number or a higher one."""
        return self._number("next_life")

    def tally(self, k: int) -> Tally:
        """The counts of the datagrams of neighbour `k`, by outcome."""
        found = _Tally()
        done(self._call("tally", node("k", k), byref(found)))
        parts: list[Any] = [getattr(found, name) for name in Tally._fields]
        return Tally(*parts)
