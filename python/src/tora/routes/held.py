"""Packets that wait for their route: a few for each destination, and not for long."""
from __future__ import annotations

import collections

MOST = 64  # packets of one destination
OLDEST = 2.0  # seconds


class Held:
    """Packets by their destination, in the order in which they came."""

    def __init__(self) -> None:
        self._packets: dict[int, collections.deque[tuple[float, bytes]]] = {}
        self.lost = 0  # packets that were given up

    def keep(self, destination: int, packet: bytes, now: float) -> None:
        """Keeps a packet; the oldest of its destination is given up where there are too many."""
        waiting = self._packets.setdefault(destination, collections.deque())
        if len(waiting) == MOST:
            waiting.popleft()
            self.lost += 1
        waiting.append((now, packet))

    def take(self, destination: int, now: float) -> list[bytes]:
        """The packets of a destination whose route stands now, without those that are too old."""
        waiting = self._packets.pop(destination, collections.deque())
        fresh = [packet for came, packet in waiting if now - came <= OLDEST]
        self.lost += len(waiting) - len(fresh)
        return fresh

    def __contains__(self, destination: object) -> bool:
        """Whether a packet of this destination waits."""
        return destination in self._packets
