"""The world of a trace, round by round: links that are not parted, heights and next hops."""
from __future__ import annotations

from collections.abc import Iterator, Mapping
from typing import TYPE_CHECKING


from tora.records import CODES, Height
from tora.trace import Trace, rows_of

if TYPE_CHECKING:
    from tora.scenario import Scenario

Pair = tuple[int, int]
NULL = -1  # in the place of a place among the `route` records of the trace
OWN = -2  # of a destination that has its first height


def ordered(a: int, b: int) -> Pair:
    """A link as it is kept: the lower node first."""
    return (a, b) if a < b else (b, a)


def distances(near: Mapping[int, set[int]], start: int) -> dict[int, int]:
    """How many hops each node is from `start`, by the neighbours of each; nodes that can't be reached are left out.

    These are the lengths of `networkx.single_source_shortest_path_length`, which takes twice as long.
    """
    far, row = {start: 0}, [start]
    for node in row:  # which grows
        hops = far[node] + 1
        for other in near[node]:
            if other not in far:
                far[other] = hops
                row.append(other)
    return far


class World:
    """The world at the end of a round.

    Attributes
    ----------
    nodes : list of int
        Nodes with links, ascending.
    declared, links : set of pairs
        All links, and those that are not parted; the lower node first.
    near : dict
        By node the set of its neighbours over links that are not parted.
    hops : dict
        By destination and node the next hop, or None.
    codes : dict
        By destination and node the place, among the `route` records of the trace, of the one that has its height, or
        `NULL` or `OWN`.
    changed : set of int
        Destinations with a height, a next hop or a link that is not as in the rounds before.
    rerouted : dict
        By destination the nodes whose next hop is not as in the rounds before.
    relinked : set of pairs
        Links that were parted or mended since.
    """

    def __init__(self, scenario: Scenario, trace: Trace) -> None:
        """Every link is mended, no node except a destination has a height, and no node has a next hop."""
        self._trace = trace
        self.nodes = list(scenario.linked)
        self.declared = set(scenario.links)
        self.links = set(scenario.links)
        self.near: dict[int, set[int]] = {node: set() for node in self.nodes}
        for a, b in self.links:
            self.near[a].add(b)
            self.near[b].add(a)
        self.hops: dict[int, dict[int, int | None]] = {d: dict.fromkeys(self.nodes) for d in scenario.destinations}
        self.codes = {d: {node: OWN if node == d else NULL for node in self.nodes} for d in self.hops}
        self.changed, self.relinked = set(self.hops), set(self.links)
        self.rerouted = {d: set(self.nodes) for d in self.hops}

    def height(self, node: int, destination: int) -> Height | None:
        """The height of a node for a destination, or None for NULL."""
        code = self.codes[destination][node]
        return (0, 0, 0, 0, destination) if code == OWN else self._trace.height(code)

    def heights(self, destination: int) -> dict[int, Height | None]:
        """By node its height for a destination."""
        return {node: self.height(node, destination) for node in self.nodes}

    def settle(self) -> None:
        """What changed until now is no news any more."""
        self.changed, self.rerouted, self.relinked = set(), {}, set()

    def moved(self, destination: int) -> set[int]:
        """The nodes whose next hop for a destination, or the link to it, is not as in the rounds before."""
        hops, found = self.hops[destination], set(self.rerouted.get(destination, ()))
        for a, b in self.relinked:
            if hops[a] == b:
                found.add(a)
            if hops[b] == a:
                found.add(b)
        return found

    def take_route(self, node: int, destination: int, code: int, hop: int | None) -> None:
        """Height or next hop of a node have changed."""
        hops = self.hops[destination]
        if hops[node] != hop:
            hops[node] = hop
            self.rerouted.setdefault(destination, set()).add(node)
        self.codes[destination][node] = code
        self.changed.add(destination)

    def take_link(self, is_mended: bool, a: int, b: int) -> None:
        """A link is mended or parted."""
        link = ordered(a, b)
        if is_mended:
            self.links.add(link)
            self.near[a].add(b)
            self.near[b].add(a)
        else:
            self.links.discard(link)
            self.near[a].discard(b)
            self.near[b].discard(a)
        self.relinked.add(link)
        self.changed.update(self.hops)


def spans(scenario: Scenario, trace: Trace) -> Iterator[tuple[int, int, World]]:
    """Yields the first and the last of rounds at whose ends the world is the same, and the world.

    The world is one object that changes.

    The trace has to be one of the scenario (`Trace.check`).
    """
    world, ended, last, route, mend = World(scenario, trace), 0, scenario.rounds, CODES["route"], CODES["mend"]
    places = trace.places("part", "mend", "route")
    fields = {CODES[kind]: zip(*trace.columns[kind].tolist()) for kind in ("part", "mend")}
    changes = trace.route_changes()
    for now, clock, kind in rows_of(trace.rounds()[places], trace.clocks[places], trace.kinds[places]):
        if now > ended + 1 and ended < last:
            first, ended = ended + 1, min(now - 1, last)
            yield first, ended, world
            world.settle()
        if clock > last:
            break
        if kind == route:
            world.take_route(*next(changes))
        else:
            world.take_link(kind == mend, *next(fields[kind]))
    if ended < last:
        yield ended + 1, last, world


def moments(scenario: Scenario, trace: Trace) -> Iterator[tuple[int, World]]:
    """Yields each round and the world at its end.

    `changed` are the destinations that are not as in the round before.
    """
    for first, last, world in spans(scenario, trace):
        for clock in range(first, last + 1):
            yield clock, world
            world.settle()


def world_at(scenario: Scenario, trace: Trace, clock: int) -> World:
    """The world at the end of a round, from 1."""
    for first, last, world in spans(scenario, trace):
        if first <= clock <= last:
            return world
    raise IndexError(f"the run has no round {clock}")
