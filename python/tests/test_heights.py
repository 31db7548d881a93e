"""Pictures of heights: breaks of routes, next hops and places, by what Graphviz's texts of the same run have."""
from __future__ import annotations

import dataclasses
import re
from pathlib import Path

import numpy as np
import pytest

from conftest import STORED
from tora.errors import UsageError
from tora.heights import break_lines, breaks, graph_of, heights, moved_apart, places_of, rounds_around
from tora.plots import picture
from tora.run import Run
from tora.world import world_at

RUN = Run.read(STORED / "7-9.json", STORED / "7-9.trace")
ROUNDS = {120: "before", 121: "in", 161: "behind"}


def stored_edges(path: Path) -> set[tuple[int, int, str]]:
    """The arrows of a text for Graphviz, with their kinds, by a tool that was written apart from this one."""
    kinds = {"color=red": "stale", "color=black": "hop", "dir=none": "none", 'color="#9a9a9a"': "down"}
    found = set()
    for a, b, told in re.findall(r"^  (\d+) -> (\d+) \[(.*)\];$", path.read_text(), re.MULTILINE):
        found.add((int(a), int(b), next(kind for mark, kind in kinds.items() if mark in told)))
    return found


def test_breaks() -> None:
    """The breaks of the stored run."""
    assert break_lines(breaks(RUN, 1)) == (STORED / "breaks").read_text().splitlines()
    assert rounds_around(RUN, 1, 3) == list(ROUNDS)


@pytest.mark.parametrize("clock", ROUNDS)
def test_edges(clock: int) -> None:
    """Next hops, stale hops, and arrows from the higher to the lower height are those of the stored text."""
    graph = graph_of(world_at(RUN.scenario, RUN.trace, clock), 1)
    assert {(a, b, kind) for a, b, kind in graph.edges(data="kind")} == stored_edges(STORED / f"dag-{clock}.dot")
    labels = dict(re.findall(r'^  (\d+) \[.*<font point-size="9">([^<]+)</font>', (STORED / f"dag-{clock}.dot").read_text(), re.MULTILINE))
    assert {str(node): "NULL" if height is None else str(height[3]) for node, height in graph.nodes(data="height")} == labels


@pytest.mark.parametrize(("scale", "shift"), [(1, 0), (1, -5_000), (1000, 9_000_000), (0.001, -0.2), (1, -150)])
def test_places_keep_their_order(scale: float, shift: float) -> None:
    """Places are neither mirrored nor collapsed, whatever the signs and the sizes of coordinates are: distances have one ratio, and right stays right."""
    points = np.array([[0.0, 0], [300, 0], [300, 200], [100, 150]])
    scenario = dataclasses.replace(RUN.scenario, positions=np.array([points * scale + shift]), rounds=10, sample=10)
    found = places_of(scenario, 1)
    wanted = points / 300 * 10
    assert found - found[0] == pytest.approx(wanted - wanted[0], abs=1e-6)
    assert found.min() >= -1e-9 and found.max() <= 10 + 1e-9


def test_nodes_are_moved_apart() -> None:
    """Nodes of one place do not cover each other, and those that stand far apart stay where they are."""
    found = moved_apart(np.array([[5.0, 5], [5, 5], [5, 5], [0, 0]]), 0.4)
    apart = [float(np.hypot(*(found[i] - found[j]))) for i in range(3) for j in range(i)]
    assert min(apart) >= 0.39
    assert found[3].tolist() == [0, 0]


def test_pictures_are_the_same_each_time() -> None:
    """A picture for each round; the same bytes each time, and others for another round."""
    first, again = heights(RUN, 1, list(ROUNDS)), heights(RUN, 1, list(ROUNDS))
    assert list(first) == list(ROUNDS)
    for kind in ("png", "svg"):
        shown = [picture(first[clock], kind) for clock in ROUNDS]
        assert shown == [picture(again[clock], kind) for clock in ROUNDS] and len(set(shown)) == 3


def test_refusals() -> None:
    """A destination, a break and a round that there are not."""
    for call, cause in (
        (lambda: breaks(RUN, 7), "--destination: 7 is none of the scenario; these are: 1"), (lambda: rounds_around(RUN, 1, 99), "has 5 breaks"),
        (lambda: heights(RUN, 1, [0]), "0 is not 1 to"), (lambda: heights(RUN, 1, [10**9]), "is not 1 to"),
    ):
        with pytest.raises(UsageError, match=cause):
            call()
