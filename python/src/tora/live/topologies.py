"""Networks of hosts: a line, a ring, a grid, and points in a square that are joined where they are near."""
from __future__ import annotations

import dataclasses
import math
import random
from typing import Any

import networkx

from tora.errors import UsageError

KINDS = ("line", "ring", "grid", "geometric")
DEGREE = 5.0  # mean neighbours of a point of a geometric network
TRIES = 1000  # of points until they are connected
FEWEST, MOST = 4, 64


@dataclasses.dataclass(frozen=True)
class Network:
    """Hosts from 1, their cables (the lower number first, ascending), and the two ends of the data."""

    hosts: tuple[int, ...]
    cables: tuple[tuple[int, int], ...]
    source: int
    destination: int

    def graph(self) -> Any:
        """The network as networkx has it."""
        graph = networkx.Graph(self.cables)
        graph.add_nodes_from(self.hosts)
        return graph

    def neighbours(self, host: int) -> list[int]:
        """The hosts at the other ends of a host's cables, ascending."""
        return sorted(b if a == host else a for a, b in self.cables if host in (a, b))


def network(kind: str, nodes: int, seed: int) -> Network:
    """The network of a kind, with the ends of its data drawn by the seed: at least half as far apart as the two that
    are farthest.

    Parameters
    ----------
    kind : str
        One of `KINDS`.
    nodes : int
        How many hosts.
    seed : int
        Of the random numbers.
    """
    if not FEWEST <= nodes <= MOST:
        raise UsageError(f"{nodes} is not {FEWEST} to {MOST}", key="--nodes")
    graph = networkx.convert_node_labels_to_integers(_graph(kind, nodes, seed), first_label=1, ordering="sorted")
    cables = tuple(sorted((min(pair), max(pair)) for pair in graph.edges))
    far = dict(networkx.all_pairs_shortest_path_length(graph))
    least = max(2, math.ceil(networkx.diameter(graph) / 2))
    pairs = [(a, b) for a in sorted(graph) for b in sorted(graph) if far[a][b] >= least]
    source, destination = random.Random(f"{kind} {nodes} {seed}").choice(pairs)
    return Network(tuple(sorted(graph)), cables, source, destination)


def _graph(kind: str, nodes: int, seed: int) -> Any:
    """The graph of a kind."""
    if kind == "line":
        return networkx.path_graph(nodes)
    if kind == "ring":
        return networkx.cycle_graph(nodes)
    if kind == "grid":
        rows = next(it for it in range(int(math.sqrt(nodes)), 0, -1) if nodes % it == 0)
        if rows == 1:
            raise UsageError(f"{nodes} hosts make no grid", key="--nodes")
        return networkx.grid_2d_graph(rows, nodes // rows)
    if kind != "geometric":
        raise UsageError(f"`{kind}` is no topology; these are: {', '.join(KINDS)}", key="--topologies")
    radius = math.sqrt(DEGREE / (math.pi * (nodes - 1)))
    for turn in range(TRIES):
        graph = networkx.random_geometric_graph(nodes, radius, seed=seed * TRIES + turn)
        if networkx.is_connected(graph) and networkx.diameter(graph) >= 2:
            return graph
    raise UsageError(f"no {TRIES} draws make a connected network of {nodes} hosts", key="--nodes")


def cable_to_break(held: Network, path: list[int], rng: random.Random) -> tuple[tuple[int, int], bool]:
    """A cable on a path, in the order of the path, and whether there is another way without it; one that leaves another
    way comes first."""
    graph = held.graph()
    steps = list(zip(path, path[1:]))
    bridges = {frozenset(it) for it in networkx.bridges(graph)}
    spare = [it for it in steps if frozenset(it) not in bridges]
    return (rng.choice(spare), True) if spare else (rng.choice(steps), False)


def host_to_kill(held: Network, path: list[int], rng: random.Random) -> tuple[int, bool] | None:
    """A host between the ends of a path, and whether there is another way without it; None where there is none between
    them."""
    between = path[1:-1]
    if not between:
        return None
    cuts = set(networkx.articulation_points(held.graph()))
    spare = [it for it in between if it not in cuts]
    return (rng.choice(spare), True) if spare else (rng.choice(between), False)
