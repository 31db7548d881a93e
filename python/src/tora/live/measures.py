"""Figures of a stretch of numbered packets. Times are seconds of one clock."""
from __future__ import annotations

import dataclasses
from collections.abc import Mapping, Sequence

STEADY = 50  # packets, one after another, that arrive where a route works


@dataclasses.dataclass(frozen=True)
class Fared:
    """How the packets of a stretch of time fared.

    Attributes
    ----------
    sent, lost : int
    gap : float
        The longest time from the sending of a packet that arrived to that of the next one that did.
    working : float or None
        How long no route works: from the sending of the first packet that was lost to the sending of the first of
        `STEADY` packets after
        it that arrived one after another. 0 where no packet was lost; None where none of these runs comes.
    """

    sent: int
    lost: int
    gap: float
    working: float | None


def fared(sent: Mapping[int, float], arrived: set[int], begin: float, end: float) -> Fared:
    """How the packets fared that were sent from one moment to another.

    Parameters
    ----------
    sent : mapping
        By the number of a packet when it was sent.
    arrived : set
        The numbers of the packets that arrived.
    begin, end : float
        The first moment, and the first after the last.
    """
    numbers = sorted(number for number, moment in sent.items() if begin <= moment < end)
    lost = sum(number not in arrived for number in numbers)
    moments = [sent[number] for number in numbers if number in arrived]
    gap = max((b - a for a, b in zip([begin, *moments], [*moments, end])), default=end - begin)
    return Fared(len(numbers), lost, gap, _working([(sent[it], it in arrived) for it in numbers]) if lost else 0.0)


def _working(packets: Sequence[tuple[float, bool]]) -> float | None:
    """How long no route works, of packets of which one at least was lost."""
    first_lost: float | None = None
    run, start = 0, 0.0
    for moment, has_arrived in packets:
        if not has_arrived:
            run = 0
            first_lost = moment if first_lost is None else first_lost
        elif first_lost is not None:
            start = moment if run == 0 else start
            run += 1
            if run == STEADY:
                return start - first_lost
    return None


def longest_stall(intervals: Sequence[tuple[float, float, int]], begin: float, end: float) -> float:
    """The longest time in which no byte went, of intervals with their bytes (begin, end, bytes), as far as it lies
    within two moments."""
    longest, current = 0.0, 0.0
    for start, stop, size in intervals:
        part = max(0.0, min(stop, end) - max(start, begin))
        current = 0.0 if size else current + part
        longest = max(longest, current)
    return longest
