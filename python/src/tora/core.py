"""TORA's rules for one node inside this process, by the shared library `libtora`; no program is started.

>>> import tora
>>> with tora.Core(3, neighbours=[2, 4], destinations=[4]) as core:    # doctest: +SKIP
...     core.link_up(4, now=1)
...     core.need(4, now=2)
...     core.height(4)
"""
from __future__ import annotations

from collections.abc import Iterable
from ctypes import byref, c_size_t, c_uint8
from typing import Any

from tora.lib import Erasure, Handle, _Handle, done, node, spelt, tick

LONGEST_PACKET = 32  # bytes


class Core(Handle):
    """The rules of one node.

    Parameters
    ----------
    me : int
        The node, from 1 on.
    neighbours : iterable of int
        All nodes with which this node may ever have a link, at most 255.
    destinations : iterable of int
        The destinations of the table: at most 64.
    erasure : Erasure, optional
        How the node treats erased reference levels.

    Raises
    ------
    LibraryError
        If these arguments make no core.
    """

    _KIND = "core"

    def __init__(
        self, me: int, neighbours: Iterable[int], destinations: Iterable[int], erasure: Erasure = Erasure.PLAIN
    ) -> None:
        """A core with no link up."""
        self._make_node(me, neighbours, destinations, int(erasure))

    def clone(self) -> Core:
        """A copy of the core."""
        second = Core.__new__(Core)
        second._handle, second._library = _Handle(), self._library
        done(self._call("clone", second._handle))
        return second

    def _step(self, name: str, *words: Any) -> list[bytes]:
        done(self._call(name, *words))
        return self.sent()

    def link_up(self, k: int, now: int) -> list[bytes]:
        """Report that the link to neighbour `k` came up at the tick `now`. Returns the packets to broadcast."""
        return self._step("link_up", node("k", k), tick(now))

    def link_down(self, k: int, now: int) -> list[bytes]:
        """Report that the link to neighbour `k` went down at the tick `now`. Returns the packets to broadcast."""
        return self._step("link_down", node("k", k), tick(now))

    def need(self, d: int, now: int) -> list[bytes]:
        """Ask for a route to `d` at the tick `now`. Returns the packets to broadcast."""
        return self._step("need", node("d", d), tick(now))

    def packet(self, k: int, packet: bytes, now: int) -> list[bytes]:
        """Hand in a packet from neighbour `k` at the tick `now`. Returns the packets to broadcast."""
        return self._step("packet", node("k", k), spelt(packet), len(packet), tick(now))

    def sent(self) -> list[bytes]:
        """The packets that the last accepted input gave, which go to every neighbour whose link is up."""
        count, length, room = c_size_t(), c_size_t(), (c_uint8 * LONGEST_PACKET)()
        done(self._call("sent_count", byref(count)))
        found = []
        for place in range(count.value):
            done(self._call("sent", place, room, LONGEST_PACKET, byref(length)))
            found.append(bytes(room[: length.value]))
        return found
