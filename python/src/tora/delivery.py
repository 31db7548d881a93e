"""Data packets over the next hops of a run: how many come to their destination, what becomes of the others, and when.

Each flow sends RATE packets a second: number k, from 0, in the first tick that ends after k / RATE seconds. A packet
is looked at in the tick in which it is sent, at its source, and then every HOP ticks, always at the end of the tick.
What is found first ends it, and these are tried in this order:

- delivered: it is at its destination; its delay is the ticks since it was sent
- lost_loop: it is at a node at which it was looked at before: its source counts, and its destination never does
- lost_ttl: it has made TTL hops
- lost_no_hop: the node has no next hop
- lost_parted: the link to the next hop is parted

Otherwise it leaves for the next hop, where it is looked at HOP ticks later. What becomes of the link or of the next hop
meanwhile does not count. `under_way` is what is still to be looked at when the run ends. Nothing waits in a queue, and
no packet is sent again: a delay is HOP times the hops.
"""
from __future__ import annotations

import collections
import dataclasses
import math
import re
from collections.abc import Sequence
from fractions import Fraction
from typing import Any, NamedTuple

from tora.bounds import MOST_TICKS, TICKS_A_SECOND, check_whole
from tora.counted import mean_of, median_of, share_95_of
from tora.errors import UsageError, shown
from tora.world import World

LOOP, TTL, NO_HOP, PARTED = "lost_loop", "lost_ttl", "lost_no_hop", "lost_parted"
COLUMNS = (
    "sent", "delivered", "delivery_ratio", NO_HOP, PARTED, LOOP, TTL, "under_way", "delay_median", "delay_95",
    "delivered_hops_mean",
    "control_per_delivered", "control_copies_per_delivered", "packets_a_second", "hop_ticks", "ttl",
)


@dataclasses.dataclass(frozen=True)
class Load:
    """Data packets that each flow sends.

    Attributes
    ----------
    rate : Fraction
        Packets a second, above 0.
    hop : int
        Ticks of a hop, from 1.
    ttl : int
        Most hops of a packet, from 1.
    """

    rate: Fraction
    hop: int = 1
    ttl: int = 32

    @classmethod
    def of(cls, rate: str | float, hop: int = 1, ttl: int = 32) -> Load:
        """The load of a rate, a number or its text, of up to nine digits and up to nine more after a point.

        Raises
        ------
        UsageError
            Where the rate, `hop` or `ttl` is beyond its bounds.
        """
        text = rate if isinstance(rate, str) else f"{rate:.9f}".rstrip("0").rstrip(".")
        if not re.fullmatch(r"[0-9]{1,9}(\.[0-9]{1,9})?", text) or not Fraction(text):
            told = f"`{shown(text)}` is no number of packets a second above 0"
            raise UsageError(f"{told}, of up to nine digits and up to nine more after a point", key="traffic")
        return cls(Fraction(text), check_whole("hop", hop, 1, MOST_TICKS), check_whole("ttl", ttl, 1, MOST_TICKS))

    @classmethod
    def asked(cls, rate: str | float | None, hop: int | None, ttl: int | None) -> Load | None:
        """The requested load, None without a rate; `hop` and `ttl` are allowed only with a rate."""
        if rate is None:
            for name, value in (("hop", hop), ("ttl", ttl)):
                if value is not None:
                    raise UsageError("it needs traffic", key=name)
            return None
        return cls.of(rate, 1 if hop is None else hop, 32 if ttl is None else ttl)


class Packets(NamedTuple):
    """Packets of a flow that were sent in one tick, and fare alike.

    They are looked at next at `node`, and have made `hops`; `seen` has the nodes before as bits.
    """

    destination: int
    node: int
    sent: int
    hops: int
    seen: int
    many: int


class Traffic:
    """The packets of all flows of a run, tick by tick."""

    def __init__(self, flows: Sequence[tuple[int, int]], load: Load) -> None:
        """Before the first tick."""
        self.flows, self.load = flows, load
        self.made = 0  # packets of each flow until now
        self.due: dict[int, list[Packets]] = {}  # by tick
        self.ends: collections.Counter[str] = collections.Counter()
        self.delays: collections.Counter[float] = collections.Counter()
        self.hops: collections.Counter[float] = collections.Counter()

    def run(self, first: int, last: int, world: World) -> None:
        """The ticks from `first` to `last`, at whose ends the world is as it is now."""
        for tick in range(first, last + 1):
            due = self.due.pop(tick, [])
            count = math.ceil(tick * self.load.rate / TICKS_A_SECOND) - self.made
            if count:
                self.made += count
                due += [Packets(destination, source, tick, 0, 0, count) for source, destination in self.flows]
            if due:
                self.look(tick, due, world)

    def look(self, tick: int, due: list[Packets], world: World) -> None:
        """Looks at the packets of a tick: some end, and the others leave for their next hop."""
        leave = []
        for destination, node, sent, hops, seen, count in due:
            hop = world.hops[destination][node]
            if node == destination:
                self.delays[tick - sent] += count
                self.hops[hops] += count
            elif seen >> node & 1:
                self.ends[LOOP] += count
            elif hops == self.load.ttl:
                self.ends[TTL] += count
            elif hop is None:
                self.ends[NO_HOP] += count
            elif hop not in world.near[node]:
                self.ends[PARTED] += count
            else:
                leave.append(Packets(destination, hop, sent, hops + 1, seen | 1 << node, count))
        if leave:
            self.due[tick + self.load.hop] = leave

    def columns(self, control: int, copies: int) -> dict[str, Any]:
        """Their columns; `control` are the control packets that were broadcast, `copies` their copies."""
        sent, delivered = self.made * len(self.flows), sum(self.delays.values())
        row: dict[str, Any] = dict.fromkeys(COLUMNS)
        row |= {name: self.ends[name] for name in (NO_HOP, PARTED, LOOP, TTL)}
        row.update(packets_a_second=float(self.load.rate), hop_ticks=self.load.hop, ttl=self.load.ttl)
        row.update(sent=sent, delivered=delivered, under_way=sent - delivered - sum(self.ends.values()))
        if sent:
            row.update(delivery_ratio=round(delivered / sent, 4))
        if delivered:
            row.update(
                delay_median=median_of(self.delays), delay_95=share_95_of(self.delays),
                delivered_hops_mean=round(mean_of(self.hops), 3),
                control_per_delivered=round(control / delivered, 4),
                control_copies_per_delivered=round(copies / delivered, 4),
            )
        return row
