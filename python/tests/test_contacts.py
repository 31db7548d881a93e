"""Pairs within reach, compared with those of every pair in every sample."""
from __future__ import annotations

import itertools
import math
import random

import numpy as np
import pytest

from tora.contacts import contacts_of, declared_links

Places = list[list[tuple[float, float]]]


def walk(source: random.Random, nodes: int, samples: int, step: float) -> Places:
    """Places of nodes that go at most a step in each direction from sample to sample."""
    places = [[(source.uniform(0, 300), source.uniform(0, 300)) for _ in range(nodes)]]
    for _ in range(samples - 1):
        places.append([(x + source.uniform(-step, step), y + source.uniform(-step, step)) for x, y in places[-1]])
    return places


def compare(places: Places, reach: float) -> None:
    """Compares what is found of places with the definition."""
    found, near, most, total = contacts_of(np.array(places, float), reach), set(), 0, dict[tuple[int, int], int]()
    nodes = range(len(places[0]))
    assert len(found.changes) == len(places)
    for now, (came, gone) in zip(places, found.changes):
        apart = {
            (a, b): ((now[a][0] - now[b][0]) ** 2 + (now[a][1] - now[b][1]) ** 2) for a,
            b in itertools.combinations(nodes, 2)
        }
        wanted = {(a + 1, b + 1) for (a, b), square in apart.items() if square <= reach * reach}
        assert (came, gone) == (sorted(wanted - near), sorted(near - wanted))
        near = wanted
        for pair in near:
            total[pair] = total.get(pair, 0) + 1
        most = max(most, *(sum(node + 1 in pair for pair in near) for node in nodes))
    assert (found.most, found.total) == (most, total)


@pytest.mark.parametrize("step", [0, 0.5, 5, 80])
def test_as_every_pair(step: float) -> None:
    """Slow, fast and resting nodes."""
    compare(walk(random.Random(step), 9, 60, step), 100)


@pytest.mark.parametrize("reach", [20, 100, 0.01, 1e7])
def test_whole_places(reach: float) -> None:
    """On a grid many pairs are just at the reach, and some stand on one place."""
    source = random.Random(5)
    compare(
        [[(source.randrange(0, 241, 20), source.randrange(0, 241, 20)) for _ in range(40)] for _ in range(20)], reach
    )


@pytest.mark.parametrize(
    ("a", "b"), [((0.1, 0.3), (100.1, 0.3)), ((7.3, 1.1), (7.3, 101.1)), ((5, 6), (65, 86)), ((1.005, 2), (-98.995, 2))]
)
def test_at_the_reach(a: tuple[float, float], b: tuple[float, float]) -> None:
    """Of pairs that are just at the reach, one above the other, beside each other and askew, the square of the distance
    decides.
    """
    dx, dy = a[0] - b[0], a[1] - b[1]
    assert contacts_of(np.array([[a, b]], float), 100).changes[0][0] == [(1, 2)] * (dx * dx + dy * dy <= 10_000)


def test_far_places() -> None:
    """Places as far from the origin as they may be."""
    far = 1e7
    places = [[(far, far), (far - 100, far), (far - 100.01, far), (-far, -far)]]
    assert math.dist(*places[0][:2]) == 100
    compare(places, 100)


def test_limit() -> None:
    """The longest contacts come first while both ends have room; ties go by nodes."""
    total = {(1, 2): 5, (1, 3): 9, (2, 3): 5, (1, 4): 1}
    assert declared_links(total, 2) == ([(1, 2), (1, 3), (2, 3)], {1: 2, 2: 2, 3: 2})
    assert declared_links(total, 1) == ([(1, 3)], {1: 1, 3: 1})
