"""How routes fare, worked out by hand from the definition, and compared with every round, every record, and networkx.
"""
from __future__ import annotations

import collections
import random
import statistics
from collections.abc import Callable

import networkx
import numpy as np
import pytest
from conftest import refusal, scenario_of
from traces import FLOWS, LINKS, ROUNDS, plain_records, random_trace

from tora import counted
from tora.metrics import Measures, loop_lines, measure, overhead
from tora.route_measures import WORKS, Routes, follow, live_loops
from tora.trace import Trace
from tora.world import NULL, World, distances, moments, spans, world_at

Write = Callable[..., str]
# 1 - 2 - 3 and 1 - 3; node 1 goes to 3. Its hop is 2 up to round 9, then 3. The link 2 - 3 is parted in the rounds 4 to 7.
TEXT = """\
1 route 2 3 (0,0,0,1,2) 3
1 route 1 3 (0,0,0,2,1) 2
3 part 2 3
7 mend 2 3
10 route 1 3 (0,0,0,1,1) 3
"""


@pytest.fixture
def measured(written: Write) -> Callable[[str], Measures]:
    """Measures a trace of one flow in twelve rounds."""
    def run(text: str) -> Measures:
        return measure(
            scenario_of(links=[(1, 2), (1, 3), (2, 3)], flows=[(1, 3)], rounds=12), Trace.read(written(text))
        )

    return run


def test_shares(measured: Callable[[str], Measures]) -> None:
    """Stale in 4 of 12 rounds, two hops where one would do in 3 + 2, one hop in 3; the outage lasts from 3 to 8."""
    row = measured(TEXT).row
    assert [row[name] for name in ("connected", "available", "stale", "no_hop", "looping")] == [
        1.0, 0.6667, 0.3333, 0, 0
    ]
    assert [row[name] for name in ("stretch_mean", "stretch_95", "stretch_most", "hops_mean")] == [1.625, 2, 2, 1.625]
    assert [row[name] for name in ("outages", "outages_by_break", "restored", "restore_median")] == [1, 1, 1, 5]


def test_degree(measured: Callable[[str], Measures]) -> None:
    """Three links in eight rounds and two in four, each at two of three nodes."""
    assert measured(TEXT).row["degree_mean"] == 1.778


def test_without_a_change(measured: Callable[[str], Measures]) -> None:
    """A trace without a route: no hop in every round."""
    row = measured("3 frames 1 0 0 0\n").row
    assert [row["available"], row["no_hop"], row["outages"], row["hops_mean"]] == [0.0, 1.0, 0, None]


def test_loop(measured: Callable[[str], Measures]) -> None:
    """1 and 2 point at each other from round 2 to round 5, and 1 has no height in round 4 alone."""
    found = measured(
        "2 route 1 3 (0,0,0,2,1) 2\n2 route 2 3 (0,0,0,2,2) 1\n4 route 1 3 - 2\n5 route 1 3 (0,0,0,2,1) 2\n6 route 2 3 - -\n"
    )
    assert [
        found.row[name] for name in ("loops", "loops_without_height", "loop_rounds", "loop_longest", "loop_nodes")
    ] == [1, 1, 4, 4, 2]
    assert loop_lines(found.loops) == ["destination 3 loop 1,2 from round 2 for 4 rounds, a node of it has no height"]


def test_without_flows(written: Write) -> None:
    """A run without a flow has no shares; one without a round is refused."""
    scenario, trace = scenario_of(links=[(1, 2)], flows=[], rounds=5, destinations=[2]), Trace.read(written("3 frames 1 0 0 0\n"))
    row = measure(scenario, trace).row
    assert [row[name] for name in ("connected", "available", "outages", "degree_mean")] == [None, None, 0, 1.0]
    told = refusal(lambda: measure(scenario_of(links=[(1, 2)], flows=[], rounds=0, destinations=[2]), trace))
    assert told.endswith(":1: the run has no round")


def test_counted() -> None:
    """Counted figures are those of the values one by one, by the libraries that they name."""
    values = [3, 1, 4, 1, 5, 9, 2, 6, 5, 3, 5, 8]
    for some in (values, values[:-1], [7], [0.1] * 10):
        counts = collections.Counter(some)
        assert counted.median_of(counts) == statistics.median(some)
        assert counted.mean_of(counts) == pytest.approx(statistics.fmean(some), rel=1e-15)


@pytest.mark.parametrize("size", [1, 2, 5, 19, 20, 21, 40, 99, 100, 101, 160])
def test_quantile(size: int) -> None:
    """The 95 % point of 20 values is the 19th, and of 100 the 95th: `numpy.quantile` by the method that is named."""
    counts = collections.Counter(range(1, size + 1))
    assert counted.share_95_of(counts) == np.quantile(np.arange(1, size + 1), 0.95, method=counted.QUANTILE_RULE)


class PlainRoutes(Routes):
    """How routes fare by their definition: each flow, and all loops, in each round."""

    def take(self, first: int, last: int, world: World) -> None:
        """One round."""
        for destination, flows in self.flows.items():
            graph = networkx.Graph(world.links)
            far = networkx.single_source_shortest_path_length(graph, destination) if destination in graph else {
                destination: 0
            }
            for flow in flows:
                status, length, _ = follow(world.hops[destination], world.near, *flow)
                linked = flow[0] in far
                self.outages.take(first, flow, status, linked)
                self.rounds += 1
                self.linked += linked
                self.count[status] += linked
                if status == WORKS:
                    self.lengths[length] += 1
                    self.stretches[length / far[flow[0]]] += 1
            self.loops.take(first, destination, cycles(world, destination), world.codes[destination])

    def end(self, rounds: int) -> None:
        """The run ends."""
        self.loops.end(rounds + 1)


def cycles(world: World, destination: int) -> set[tuple[int, ...]]:
    """The cycles of next hops over links that are not parted, by networkx."""
    hops = world.hops[destination]
    graph = networkx.DiGraph([(node, hop) for node, hop in hops.items() if hop in world.near[node]])
    rings = [ring for ring in networkx.simple_cycles(graph)]
    return {tuple(ring[ring.index(min(ring)):] + ring[: ring.index(min(ring))]) for ring in rings}


@pytest.mark.parametrize("seed", range(60))
def test_as_every_round(seed: int, written: Write) -> None:
    """Routes that are followed again only where something on them changed fare as those of each round; loops are those
    of networkx.
    """
    trace, scenario = Trace.read(written(random_trace(random.Random(seed)))), scenario_of(LINKS, FLOWS, ROUNDS)
    plain, quick = PlainRoutes(scenario), Routes(scenario)
    for clock, world in moments(scenario, trace):
        plain.take(clock, clock, world)
        for destination in scenario.destinations:
            assert live_loops(world.hops[destination], world.near, world.nodes) == cycles(world, destination)
    plain.end(ROUNDS)
    for first, last, world in spans(scenario, trace):
        quick.take(first, last, world)
    quick.end(ROUNDS)
    assert quick.columns() == plain.columns()
    loops = [
        sorted(
            (it.destination, it.ring, it.start, it.rounds, it.without_height) for it in found.loops.all
        ) for found in (quick, plain)
    ]
    assert loops[0] == loops[1]


@pytest.mark.parametrize("seed", range(20))
def test_world(seed: int, written: Write) -> None:
    """The world of each round is that of the records up to it, taken one after the other; spans have an end where it
    changes.
    """
    path, scenario = written(random_trace(random.Random(seed))), scenario_of(LINKS, FLOWS, ROUNDS)
    trace, records = Trace.read(path), plain_records(path)
    rounds = trace.rounds().tolist()
    for clock, world in moments(scenario, trace):
        links, hops, heights = set(LINKS), {}, {}
        for record, now in zip(records, rounds):
            if now > clock:
                break
            if record.kind in ("part", "mend"):
                (links.add if record.kind == "mend" else links.discard)(record.words)
            elif record.kind == "route":
                hops[record.words[:2]], heights[record.words[:2]] = record.words[3], record.words[2]
        assert world.links == links
        for destination in scenario.destinations:
            assert world.hops[destination] == {node: hops.get((node, destination)) for node in world.nodes}
            assert world.heights(destination) == {
                node: heights.get(
                    (node, destination), (0, 0, 0, 0, destination) if node == destination else None
                ) for node in world.nodes
            }
    assert [first for first, _, _ in spans(scenario, trace)][0] == 1
    assert sum(last - first + 1 for first, last, _ in spans(scenario, trace)) == ROUNDS
    assert world_at(scenario, trace, ROUNDS).links == links


def test_distances() -> None:
    """They are those of networkx, on random graphs."""
    for seed in range(20):
        graph = networkx.gnp_random_graph(30, 0.08, seed=seed)
        near = {node: set(graph[node]) for node in graph}
        assert distances(near, 0) == networkx.single_source_shortest_path_length(graph, 0)


@pytest.mark.parametrize("seed", range(20))
def test_overhead(seed: int, written: Write) -> None:
    """Counts are those of the records one by one."""
    path = written(random_trace(random.Random(seed)))
    records, found = plain_records(path), overhead(Trace.read(path))
    for kind, name in (("qry", "query"), ("upd", "update"), ("clr", "clear")):
        some = [record.words for record in records if record.kind == kind]
        assert (found[name], found[f"{name}_copies"]) == (len(some), sum(int(str(words[2])) for words in some))
    frames = [record.words for record in records if record.kind == "frames"]
    assert [found[name] for name in ("hello", "data", "acknowledgement", "undelivered")] == [
        sum(column) for column in zip(*frames)
    ]
    assert (found["links_up"], found["links_down"]) == tuple(
        sum(record.kind == kind for record in records) for kind in ("up", "down")
    )


def test_codes() -> None:
    """The code of NULL is that of the reader."""
    assert NULL == -1
