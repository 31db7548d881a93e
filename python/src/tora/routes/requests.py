"""When a node is asked for a route: as a packet comes that has none, and again as long as such packets come."""
from __future__ import annotations

from collections.abc import Mapping

AGAIN = 1.0  # seconds between two requests for one destination
WANTED_FOR = 5.0  # seconds after the last packet in which a destination counts as asked for


class Requests:
    """The destinations that are asked for. All times are seconds of one clock."""

    def __init__(self) -> None:
        self._wanted: dict[int, float] = {}  # when a packet came last
        self._asked: dict[int, float] = {}  # when the node was asked last

    def want(self, destination: int, now: float) -> bool:
        """Notes a packet for a destination without a route; answers whether the node is to be asked now."""
        self._wanted[destination] = now
        return self._is_asked(destination, now)

    def due(self, hops: Mapping[int, int | None], now: float) -> list[int]:
        """The destinations for which the node is to be asked again: still asked for, and without a next hop."""
        for destination in [it for it, last in self._wanted.items() if now - last > WANTED_FOR]:
            del self._wanted[destination]
            self._asked.pop(destination, None)
        return [it for it in sorted(self._wanted) if hops.get(it) is None and self._is_asked(it, now)]

    def next_time(self, hops: Mapping[int, int | None]) -> float | None:
        """When `due` is to be called next, None for never."""
        return min((self._asked[it] + AGAIN for it in self._wanted if hops.get(it) is None), default=None)

    def _is_asked(self, destination: int, now: float) -> bool:
        """Whether the last request is long enough ago; then this one counts."""
        last = self._asked.get(destination)
        if last is not None and now - last < AGAIN:
            return False
        self._asked[destination] = now
        return True
