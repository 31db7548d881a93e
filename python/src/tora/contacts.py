"""Which nodes are within reach of each other, sample by sample, and which links a file declares of them."""
from __future__ import annotations

import dataclasses
from collections.abc import Mapping

import numpy as np
import numpy.typing as npt

Pair = tuple[int, int]
SLACK = 1e-6  # metres, and share of the reach, that rounding may cost the search


@dataclasses.dataclass(frozen=True)
class Contacts:
    """The pairs within reach, by what changes from sample to sample.

    Attributes
    ----------
    changes : list
        For each sample the pairs that come and those that go, each ascending; in a pair the lower node is first.
    total : dict
        By pair in how many samples it is within reach.
    most : int
        The most pairs of a node at once.
    """

    changes: list[tuple[list[Pair], list[Pair]]]
    total: dict[Pair, int]
    most: int


def contacts_of(positions: npt.NDArray[np.float64], reach: float) -> Contacts:
    """The contacts of nodes, which are numbered from 1.

    Parameters
    ----------
    positions : array of float, shape (samples, nodes, 2)
        Metres.
    reach : float
        Metres up to which two nodes are within reach: the square of their distance is not above that of the reach.
    """
    changes, total, most = [], dict[Pair, int](), 0
    nodes, before = positions.shape[1], np.zeros(0, np.int64)
    for at, places in enumerate(positions):
        now = keys_within(places, reach)
        came = _pairs(np.setdiff1d(now, before, assume_unique=True), nodes)
        gone = _pairs(np.setdiff1d(before, now, assume_unique=True), nodes)
        for pair in gone:  # the samples before a pair goes, without those before it came
            total[pair] += at
        for pair in came:
            total[pair] = total.get(pair, 0) - at
        most = max(most, int(np.bincount(np.concatenate([now // nodes, now % nodes]), minlength=1).max()))
        changes.append((came, gone))
        before = now
    for pair in _pairs(before, nodes):  # within reach to the end
        total[pair] += len(positions)
    return Contacts(changes, total, most)


def keys_within(places: npt.NDArray[np.float64], reach: float) -> npt.NDArray[np.int64]:
    """The pairs of a sample that are within reach, ascending, as numbers.

    A pair is the lower place, from 0, times the number of nodes, and the higher place.
    """
    from scipy.spatial import cKDTree  # a fifth of the time that the package takes to be imported

    found = cKDTree(places).query_pairs(reach * (1 + SLACK) + SLACK, output_type="ndarray")
    apart = places[found[:, 0]] - places[found[:, 1]]
    squares = apart[:, 0] * apart[:, 0] + apart[:, 1] * apart[:, 1]
    low, high = found[squares <= reach * reach].astype(np.int64).T
    keys: npt.NDArray[np.int64] = np.sort(low * len(places) + high)
    return keys


def declared_links(total: Mapping[Pair, int], limit: int) -> tuple[list[Pair], dict[int, int]]:
    """The links that fit the limit of neighbours, and how many each node has.

    Links come in the order of their total contact, the longest first, and then by nodes.
    """
    degree: dict[int, int] = {}
    links = []
    for a, b in sorted(total, key=lambda pair: (-total[pair], pair)):
        if degree.get(a, 0) < limit and degree.get(b, 0) < limit:
            links.append((a, b))
            degree[a], degree[b] = degree.get(a, 0) + 1, degree.get(b, 0) + 1
    return sorted(links), degree


def _pairs(keys: npt.NDArray[np.int64], nodes: int) -> list[Pair]:
    """The pairs of keys, with nodes from 1."""
    return list(zip((keys // nodes + 1).tolist(), (keys % nodes + 1).tolist()))
