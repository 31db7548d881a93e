"""The laws of worlds at rest, for a network that was run until it was.

Heights, next hops, walks and whether entries are exact are printed by the program. No line prints an entry: it is what
the neighbour has told in the life of the link, by the trace, and `taken` has to count all that. A clear may have made
it NULL since; where that can't be told from the trace, the entry is counted as one or the other.
"""
from __future__ import annotations

import collections
import pathlib
from collections.abc import Iterable

from tora.errors import StudyError, shown
from tora.networks import Broken, Network, simulated
from tora.program import Program
from tora.records import Height, Record, Value, field
from tora.trace import Trace

__all__ = ["KINDS", "Broken", "RestingWorld", "Told", "check_taken"]

KINDS = {
    "height": "the neighbour's height",
    "null": "NULL",
    "cleared": "that height, or NULL by a clear",
    "stale": "of a neighbour without a height",
    "stale or null": "of a neighbour without a height, or NULL by a clear",
}
End = tuple[int, int]  # a node and its neighbour


class Told:
    """The links and broadcasts in a trace.

    It has the life of each link end that is up, and what was broadcast since.
    """

    def __init__(self, network: Network, path: pathlib.Path) -> None:
        """Folds a trace to its end."""
        self.lives: dict[End, tuple[int, int]] = {}
        self.told: dict[End, list[tuple[int, Record]]] = {}
        self.clears: dict[tuple[Value, Value], list[tuple[int, tuple[Value, ...]]]] = collections.defaultdict(list)
        began = {node: list(clocks) for node, clocks in network.restarts.items()}
        for at, record in enumerate(Trace.read(path).records()):
            for node, clocks in began.items():
                while clocks and clocks[0] < record.clock:
                    self.begins_anew(node)
                    clocks.pop(0)
            self.take(at, record)
        for node, clocks in began.items():
            if clocks:
                self.begins_anew(node)

    def begins_anew(self, node: int) -> None:
        """The ends of a node are closed."""
        for end in [end for end in self.lives if end[0] == node]:
            del self.lives[end], self.told[end]

    def take(self, at: int, record: Record) -> None:
        """Takes a record."""
        if record.kind in ("up", "down"):
            node, neighbour, own, peer = [word for word in record.words if isinstance(word, int)]
            self.lives.pop((node, neighbour), None)
            self.told.pop((node, neighbour), None)
            if record.kind == "up":
                self.lives[node, neighbour], self.told[node, neighbour] = (own, peer), []
        elif record.kind in ("qry", "upd", "clr"):
            for end in self.told:
                if end[0] == record.words[0]:
                    self.told[end].append((at, record))
            if record.kind == "clr":
                self.clears[record.words[0], record.words[1]].append((at, record.words[3:]))

    def entry(self, node: int, neighbour: int, destination: int) -> tuple[Height | None, bool]:
        """The height that the neighbour has sent, or None, and whether a clear may have erased it at the node since."""
        if neighbour == destination:
            return (0, 0, 0, 0, destination), False
        height: Height | None = None
        since = -1
        for at, record in self.told[neighbour, node]:
            if record.words[1] == destination and record.kind == "upd":
                told = record.words[3]
                height, since = told if isinstance(told, tuple) else None, at
            elif record.words[1] == destination and record.kind == "clr":
                height = None if height and height[:3] == (*record.words[3:], 1) else height
        if height is None:
            return None, False
        own = any(at > since for at, _ in self.clears[node, destination])
        others = {end[1] for end in self.lives if end[0] == node}
        return height, own or any((*level, 1) == height[:3] for k in others for _, level in self.clears[k, destination])


class RestingWorld:
    """A network at rest: its printed state, and its trace."""

    def __init__(self, network: Network, printed: Iterable[str], told: Told) -> None:
        """Takes the last lines that were printed apart."""
        self.network, self.told = network, told
        self.heights: dict[tuple[int, int], Height | None] = {}
        self.hops: dict[tuple[int, int], int | None] = {}
        self.exact: dict[int, bool] = {}
        self.walks: dict[tuple[int, int], list[Value] | None] = {}
        lines = iter(printed)
        for destination in network.destinations:
            for node in network.nodes:
                _, _, height, _, hop = _of_words(next(lines), "node", 5)
                self.heights[node, destination], self.hops[node, destination] = _height(height), _hop(hop)
            self.exact[destination] = _of_words(next(lines), "exact", 2)[1] == "1"
            for node in network.nodes:
                word = _of_words(next(lines), "walk", 2)[1]
                walk = [] if word == "-" else [field("printed", None, "i", it) for it in word.split(",")]
                self.walks[node, destination] = walk or None

    def check(self, seen: collections.Counter[str]) -> None:
        """All laws; counts what is seen."""
        self.check_links()
        for destination in self.network.destinations:
            self.check_entries(destination, seen)
            for node in self.network.nodes:
                self.check_hop(node, destination)
            for node in self.network.nodes:
                if self.heights[node, destination] is not None:
                    self.check_walk(node, destination, seen)

    def check_links(self) -> None:
        """A link is up at both ends in one life, or at neither."""
        for (node, neighbour), life in self.told.lives.items():
            _holds(
                f"the link of {node} to {neighbour} is up in one life",
                self.told.lives.get((neighbour, node)) == life[::-1]
            )

    def check_entries(self, destination: int, seen: collections.Counter[str]) -> None:
        """Each entry is NULL, the neighbour's height, or of a neighbour that has no height; counts them by kind."""
        sure, maybe = False, False
        for node, neighbour in self.told.lives:
            if node == destination:
                continue
            entry, is_open = self.told.entry(node, neighbour, destination)
            height = self.heights[neighbour, destination]
            _holds(
                f"the entry {entry} of {neighbour} at {node} is its height {height}, or it has none",
                entry is None or height in (entry, None)
            )
            is_stale = entry is not None and height is None
            sure, maybe = sure or (is_stale and not is_open), maybe or is_stale
            kind = "null" if entry is None else "stale" if is_stale else "height"
            seen[{"height": "cleared", "stale": "stale or null"}[kind] if is_open else kind] += 1
        _holds(f"entries for {destination} are exact only where none is stale", not (self.exact[destination] and sure))
        _holds(f"entries for {destination} are exact where none is stale", self.exact[destination] or maybe)

    def check_hop(self, node: int, destination: int) -> None:
        """A next hop is the lowest of the entries that are lower than the own height."""
        own, hop = self.heights[node, destination], self.hops[node, destination]
        told = {k: self.told.entry(node, k, destination) for n, k in self.told.lives if n == node}
        entry = None if hop is None else told.get(hop, (None, False))[0]
        _holds(f"the next hop {hop} of {node} has an entry", hop is None or entry is not None)
        if node == destination:
            return
        low = [it for it, is_open in told.values() if it is not None and not is_open and (own is None or it < own)]
        _holds(f"the next hop of {node} is the lowest", not low or (entry is not None and entry <= min(low)))
        _holds(f"the next hop of {node} is lower", entry is None or own is None or entry < own)

    def check_walk(self, node: int, destination: int, seen: collections.Counter[str]) -> None:
        """From a node with a height next hops go down, to the destination or to a node without a height."""
        walk, at = [node], node
        while at != destination and (high := self.heights[at, destination]) is not None:
            hop = self.hops[at, destination]
            if hop is None:
                raise Broken(f"node {at}, which has a height, has a next hop")
            low = self.heights[hop, destination]
            _holds(f"the hop from {at} to {hop} goes down", low is None or low < high)
            walk.append(hop)
            at = hop
            _holds(f"the walk from {node} ends", len(walk) <= len(self.network.nodes) + 1)
        if at == destination:
            seen["walks that arrive"] += 1
            _holds(f"the walk from {node} is printed", self.walks[node, destination] == walk)
        else:
            seen["walks that end at a node without a height"] += 1
            lacks = any(self.heights[k, destination] is None for k in self.component(node))
            _holds(f"the walk from {node} arrives where nobody lacks a height", lacks)

    def component(self, node: int) -> set[int]:
        """The nodes that links which are up lead to."""
        found, left = {node}, [node]
        while left:
            at = left.pop()
            for n, k in self.told.lives:
                if n == at and k not in found:
                    found.add(k)
                    left.append(k)
        return found


def check_taken(network: Network, told: Told, folder: pathlib.Path, program: Program, time_limit: float) -> None:
    """All that was broadcast in the life of a link was taken in it."""
    ends = sorted(told.lives)
    lines = ["taken {} {} {} {}".format(*end, *told.lives[end]) for end in ends]
    printed = simulated(network, lines, folder, len(lines), program, time_limit)[0]
    for end, line in zip(ends, printed[len(printed) - len(ends) :]):
        count = len(told.told[end[::-1]])
        _holds(f"node {end[0]} has taken all {count} packets of {end[1]}: {line}", line == f"count {count}")


def _holds(what: str, is_so: bool) -> None:
    """Refuses what is not so."""
    if not is_so:
        raise Broken(what)


def _of_words(line: str, first: str, count: int) -> list[str]:
    """The words of a printed line, which has this many words and this first word."""
    words = line.split()
    if len(words) != count or words[0] != first:
        raise StudyError(f"`{shown(line)}` is no line `{first}`", file="printed")
    return words


def _height(word: str) -> Height | None:
    """A height that is printed."""
    found = field("printed", None, "h", word)
    return found if isinstance(found, tuple) else None


def _hop(word: str) -> int | None:
    """A next hop that is printed."""
    found = field("printed", None, "k", word)
    return found if isinstance(found, int) else None
