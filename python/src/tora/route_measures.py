"""How the routes of the flows of a run fare: shares of rounds, outages, and loops of next hops.

At the end of each round each flow's route is followed along the next hops. It works where it reaches the destination
over links that are not parted; it is stale where it comes to a parted link, without a hop where it comes to a node
without next hop, and looping where it comes back to a node, over links that are not parted. What the nodes know of a
parted link does not count here: the motion decides.
"""
from __future__ import annotations

import collections
import dataclasses
from collections.abc import Iterable, Mapping
from typing import TYPE_CHECKING, Any, NamedTuple

from tora.counted import mean_of, median_of, share_95_of
from tora.world import NULL, World, distances

if TYPE_CHECKING:
    from tora.scenario import Scenario

Flow = tuple[int, int]
Ring = tuple[int, ...]
Hops = Mapping[int, int | None]
Near = Mapping[int, set[int]]
WORKS, STALE, NO_HOP, LOOPING = "available", "stale", "no_hop", "looping"
COLUMNS = (
    "connected", "available", "stale", "no_hop", "looping", "stretch_mean", "stretch_95", "stretch_most", "hops_mean",
    "outages",
    "outages_by_break", "restored", "restore_median", "restore_95", "restore_most", "healed", "heal_median", "heal_95",
    "open_outages", "loops", "loops_without_height", "loop_rounds", "loop_longest", "loop_nodes",
)


class RouteState(NamedTuple):
    """How a route fares.

    It has a status, the hops where it works, and those of the shortest path, None where there is none.
    """

    status: str
    length: int
    least: int | None


def follow(hops: Hops, near: Near, node: int, destination: int) -> tuple[str, int, list[int]]:
    """How a route fares from a node, after how many hops, and its nodes in their order."""
    walk = {node: None}
    while node != destination:
        hop = hops[node]
        if hop is None:
            return NO_HOP, 0, list(walk)
        if hop not in near[node]:
            return STALE, 0, list(walk)
        if hop in walk:
            return LOOPING, 0, list(walk)
        walk[hop] = None
        node = hop
    return WORKS, len(walk) - 1, list(walk)


def live_loops(hops: Hops, near: Near, starts: Iterable[int]) -> set[Ring]:
    """The loops of next hops over links that are not parted to which they lead from these nodes.

    Each begins with its lowest node.

    From all nodes they are the cycles of `networkx.simple_cycles` of the graph of next hops over such links.
    """
    met: set[int] = set()
    loops: set[Ring] = set()
    for start in starts:
        walk: dict[int, None] = {}  # in the order in which nodes are come to
        node: int | None = start
        while node is not None and node not in met:
            met.add(node)
            walk[node] = None
            hop = hops[node]
            node = hop if hop in near[node] else None
        if node in walk:
            ring = list(walk)
            ring = ring[ring.index(node):]
            at = ring.index(min(ring))
            loops.add(tuple(ring[at:] + ring[:at]))
    return loops


@dataclasses.dataclass
class Loop:
    """A loop.

    It has the round in which it was first seen, for how many it stood, and whether a node of it has had no height.
    """

    destination: int
    ring: Ring
    start: int
    rounds: int = 0
    without_height: bool = False


class Loops:
    """Loops over links that are not parted, from the round in which each was first seen to the last."""

    def __init__(self) -> None:
        """None yet."""
        self.open: dict[tuple[int, Ring], Loop] = {}
        self.all: list[Loop] = []

    def take(self, clock: int, destination: int, rings: set[Ring], codes: Mapping[int, int]) -> None:
        """The state at the end of a round for a destination whose next hops or links have changed."""
        for key in [key for key in self.open if key[0] == destination and key[1] not in rings]:
            self.close(clock, key)
        for ring in sorted(rings):
            if (destination, ring) not in self.open:
                self.open[destination, ring] = loop = Loop(destination, ring, clock)
                self.all.append(loop)
        self.look(destination, codes)

    def look(self, destination: int, codes: Mapping[int, int]) -> None:
        """Looks at the heights of the nodes of the loops of a destination."""
        for (of, ring), loop in self.open.items():
            if of == destination:
                loop.without_height |= any(codes[node] == NULL for node in ring)

    def close(self, clock: int, key: tuple[int, Ring]) -> None:
        """A loop that is no more at the end of this round."""
        loop = self.open.pop(key)
        loop.rounds = clock - loop.start

    def end(self, clock: int) -> None:
        """The run ends in the round before this."""
        for key in list(self.open):
            self.close(clock, key)

    def columns(self) -> dict[str, Any]:
        """Their columns."""
        return {
            "loops": len(self.all), "loops_without_height": sum(loop.without_height for loop in self.all),
            "loop_rounds": sum(loop.rounds for loop in self.all),
            "loop_longest": max((loop.rounds for loop in self.all), default=0),
            "loop_nodes": max((len(loop.ring) for loop in self.all), default=0),
        }


class Outage(NamedTuple):
    """An outage.

    It has the round before it, whether it began at a parted link, whether no path stood for a time, and since when one
    stands.
    """

    start: int
    by_break: bool
    was_cut: bool
    linked_since: int | None


class Outages:
    """When the route of a flow stops to work, why, and after how many rounds it works again."""

    def __init__(self) -> None:
        """No flow has had a route."""
        self.open: dict[Flow, Outage] = {}
        self.worked: set[Flow] = set()
        self.count = self.by_break = 0
        self.restored: collections.Counter[float] = collections.Counter()
        self.healed: collections.Counter[float] = collections.Counter()

    def take(self, clock: int, flow: Flow, status: str, linked: bool) -> None:
        """One flow at the end of a round in which it fares otherwise than before.

        `linked` says whether there is a path to its destination.
        """
        outage = self.open.get(flow)
        if status == WORKS:
            self.worked.add(flow)
            if outage:
                self.close(clock, self.open.pop(flow))
        elif outage:
            since = None if not linked else clock - 1 if outage.linked_since is None else outage.linked_since
            self.open[flow] = Outage(outage.start, outage.by_break, outage.was_cut or not linked, since)
        elif flow in self.worked:
            self.count += 1
            self.by_break += status == STALE
            self.open[flow] = Outage(clock - 1, status == STALE, not linked, clock - 1 if linked else None)
            self.worked.discard(flow)

    def close(self, clock: int, outage: Outage) -> None:
        """Counts the rounds of an outage: since the path exists again if it was cut, otherwise since the break."""
        if outage.was_cut:
            self.healed[clock - (clock - 1 if outage.linked_since is None else outage.linked_since)] += 1
        elif outage.by_break:
            self.restored[clock - outage.start] += 1

    def columns(self) -> dict[str, Any]:
        """Their columns."""
        row: dict[str, Any] = {
            "outages": self.count, "outages_by_break": self.by_break, "restored": self.restored.total(),
            "healed": self.healed.total(), "open_outages": len(self.open),
        }
        if self.restored:
            row.update(
                restore_median=median_of(self.restored), restore_95=share_95_of(self.restored),
                restore_most=max(self.restored)
            )
        if self.healed:
            row.update(heal_median=median_of(self.healed), heal_95=share_95_of(self.healed))
        return row


class Routes:
    """How the routes of the flows fare. Rounds without a change are counted when something changes, or in the end.

    A route is followed again only where a node on it has another next hop, or the link to it was parted or mended; then
    loops are looked for that such nodes lead to.
    """

    def __init__(self, scenario: Scenario) -> None:
        """Before the first round."""
        self.flows = {d: [flow for flow in scenario.flows if flow[1] == d] for d in scenario.destinations}
        self.fares = {d: [RouteState("", 0, None)] * len(flows) for d, flows in self.flows.items()}
        # the round in which a flow began to fare so
        self.since = {d: [1] * len(flows) for d, flows in self.flows.items()}
        self.nodes = {d: [{source} for source, _ in flows] for d, flows in self.flows.items()}  # of its route
        self.fared: collections.Counter[RouteState] = collections.Counter()  # rounds of all flows
        self.rounds = self.linked = 0
        self.count: collections.Counter[str] = collections.Counter()
        self.lengths: collections.Counter[float] = collections.Counter()
        self.stretches: collections.Counter[float] = collections.Counter()
        self.outages, self.loops = Outages(), Loops()
        self.far: dict[int, dict[int, int]] = {}

    def take(self, first: int, last: int, world: World) -> None:
        """Rounds at whose ends the world is as it is now."""
        if world.relinked:
            self.far = {destination: distances(world.near, destination) for destination in self.flows}
        for destination in self.flows:
            if world.relinked or destination in world.rerouted:
                self.look(first, world, destination)
            elif destination in world.changed:
                self.loops.look(destination, world.codes[destination])

    def look(self, clock: int, world: World, destination: int) -> None:
        """Looks at a destination whose next hops or links are others in this round than before."""
        moved, flows, fares = world.moved(destination), self.flows[destination], self.fares[destination]
        for at, fare in self.found(world, destination, moved).items():
            if fare != fares[at]:
                self.settle(clock, destination, at)
                fares[at] = fare
                self.outages.take(clock, flows[at], fare.status, fare.least is not None)
        self.look_for_loops(clock, world, destination, moved)

    def found(self, world: World, destination: int, moved: set[int]) -> dict[int, RouteState]:
        """How flows fare, by their place, that may fare otherwise than before.

        Their routes have such a node, or their shortest path has another length.
        """
        hops, near, far, flows = world.hops[destination], world.near, self.far[destination], self.flows[destination]
        nodes, found = self.nodes[destination], {}
        for at in [at for at, own in enumerate(nodes) if not moved.isdisjoint(own)]:
            status, length, walk = follow(hops, near, *flows[at])
            nodes[at], found[at] = set(walk), RouteState(status, length, far.get(flows[at][0]))
        for at, fare in enumerate(self.fares[destination] if world.relinked else ()):
            least = far.get(flows[at][0])
            if at not in found and fare.least != least:
                found[at] = RouteState(fare.status, fare.length, least)
        return found

    def look_for_loops(self, clock: int, world: World, destination: int, moved: set[int]) -> None:
        """Looks for loops to which such nodes lead; those without such a node are as before."""
        rings = live_loops(world.hops[destination], world.near, moved)
        rings |= {ring for of, ring in self.loops.open if of == destination and moved.isdisjoint(ring)}
        if rings or self.loops.open:
            self.loops.take(clock, destination, rings, world.codes[destination])

    def settle(self, clock: int, destination: int, at: int) -> None:
        """Counts the rounds from the one in which a flow began to fare as it does to the one before this."""
        since = self.since[destination]
        if clock > since[at]:
            self.fared[self.fares[destination][at]] += clock - since[at]
            since[at] = clock

    def end(self, rounds: int) -> None:
        """Counts the state at the end of the run."""
        for destination, flows in self.flows.items():
            for at in range(len(flows)):
                self.settle(rounds + 1, destination, at)
        for (status, length, least), count in self.fared.items():
            self.rounds += count
            if least is not None:
                self.linked += count
                self.count[status] += count
                if status == WORKS:
                    self.lengths[length] += count
                    self.stretches[length / least] += count
        self.loops.end(rounds + 1)

    def columns(self) -> dict[str, Any]:
        """Their columns; shares are of the rounds and flows that have a path."""
        row: dict[str, Any] = dict.fromkeys(COLUMNS)
        row |= self.outages.columns() | self.loops.columns()
        if self.rounds:
            row["connected"] = round(self.linked / self.rounds, 4)
        if self.linked:
            row |= {status: round(self.count[status] / self.linked, 4) for status in (WORKS, STALE, NO_HOP, LOOPING)}
        if self.lengths:
            row.update(
                stretch_mean=round(mean_of(self.stretches), 4), stretch_95=round(share_95_of(self.stretches), 3),
                stretch_most=round(max(self.stretches), 3), hops_mean=round(mean_of(self.lengths), 3),
            )
        return row
