"""Scenarios without motion, for a run that has none: of its simulation file, or of its trace."""
from __future__ import annotations

import collections
from collections.abc import Iterable, Sequence
from typing import Any

import numpy as np

from tora import bounds
from tora.building import check_times, digest_of
from tora.errors import StudyError
from tora.files import reading
from tora.records import field
from tora.trace import Trace
from tora.world import ordered

# The lines of a simulation file that tell a scenario, with their fields: l a list, i an id, n a number.
TELLING = {"dests": "l", "link": "ii", "need": "ii", "rounds": "n", "part": "ii"}
Pair = tuple[int, int]


def static_of_simulation(path: str, times: tuple[int, int, int, int]) -> dict[str, Any]:
    """The fields of the scenario of a simulation file.

    They are its destinations, links and rounds, and the flows that it asks for.

    Raises
    ------
    StudyError
        With the line at fault.
    """
    destinations: list[int] = []
    links: dict[Pair, None] = {}
    flows: dict[Pair, None] = {}
    rounds = breaks = 0
    with reading(path) as source:
        lines = [text.rstrip("\n") for text in source]
    for number, text in enumerate(lines, 1):
        kind, values = _line_of(path, number, text, bool(links))
        if kind == "dests":
            destinations = values
        elif kind == "link":
            links[ordered(*values)] = None
        elif kind == "need" and values[1] in destinations and values[0] != values[1]:
            flows[values[0], values[1]] = None
        elif kind in ("rounds", "tick"):
            rounds += values[0] if values else 1
        breaks += kind == "part" and rounds > 0
    if not links:
        raise StudyError("no link in this simulation file", file=path)
    fields = _fields(path, destinations, sorted(links), list(flows), rounds)
    fields |= {"breaks": breaks, "times": check_times(times)}
    return fields | {"lines": tuple(lines), "digest": digest_of(lines)}


def static_of_trace(trace: Trace) -> dict[str, Any]:
    """The fields of the scenario that come from the records of a trace: the links, destinations and needs that they name."""
    links: set[Pair] = set()
    destinations: set[int] = set()
    for kind in ("part", "mend", "up", "down"):
        links.update(ordered(a, b) for a, b in np.unique(trace.columns[kind][:2], axis=1).T.tolist())
    for kind in ("qry", "upd", "clr", "route"):
        destinations.update(np.unique(trace.columns[kind][1]).tolist())
    if not links or not destinations:
        raise StudyError(f"the trace names no {'destination' if links else 'link'}", file=trace.path)
    asked = dict.fromkeys(zip(*trace.columns["need"].tolist()))
    flows = [(node, d) for node, d in asked if d in destinations and node != d]
    fields = _fields(trace.path, sorted(destinations), sorted(links), flows, int(trace.clocks[-1]))
    return fields | {"digest": trace.digest} | ({} if trace.header is None else {"times": trace.header.times})


def _line_of(path: str, number: int, text: str, has_links: bool) -> tuple[str, list[int]]:
    """The word of a line, and the numbers after it; None for a line without a part of the scenario."""
    kind, *words = text.split(" ")
    letters = TELLING.get(kind)
    is_other = (letters is None and not has_links) or (number == 1) != (kind == "dests")
    if is_other or (letters and len(words) != len(letters)):
        raise StudyError("no line of a simulation file", file=path, line=number)
    if letters == "l":
        return kind, [_whole(path, number, "i", word) for word in words[0].split(",") if words[0] != "-"]
    return kind, [_whole(path, number, letter, word) for letter, word in zip(letters or "", words)]


def _whole(path: str, number: int, letter: str, word: str) -> int:
    """A number or an id."""
    value = field(path, number, letter, word)
    assert isinstance(value, int)
    return value


def _fields(
    path: str, destinations: Sequence[int], links: Sequence[Pair], flows: Iterable[Pair], rounds: int
) -> dict[str, Any]:
    """The fields of a scenario without motion; refuses one of more nodes than a simulation has."""
    degree = collections.Counter(node for link in links for node in link)
    if len(degree) > bounds.GREATEST_NODES:
        raise StudyError(f"{len(degree)} nodes; a simulation has at most {bounds.GREATEST_NODES}", file=path)
    most = max(degree.values())
    is_large = len(degree) > bounds.MOST_NODES or most > bounds.MOST_NEIGHBOURS
    return {
        "seed": 0, "nodes": len(degree), "range": 0.0, "rounds": rounds, "sample": 1, "times": (10, 50, 5, 8),
        "limit": bounds.GREATEST_NEIGHBOURS if is_large else bounds.MOST_NEIGHBOURS,
        "destinations": tuple(destinations), "flows": tuple(flows),
        "links": tuple(links), "contact_kept": 1.0, "links_met": len(links), "most_met": most, "most_at_once": most,
        "breaks": 0,
        "left_out": (), "positions": np.zeros((0, 0, 2)), "parameters": {}, "large": is_large,
    }
