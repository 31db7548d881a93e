"""The parts of `tora.live` that touch no system: topologies, figures of packets, plans, tables and plots."""
from __future__ import annotations

import csv
import math
import pathlib
import random

import networkx
import pytest

from conftest import refusal
from tora.live import cli, report
from tora.live.experiment import COLUMNS, Plan
from tora.live.measures import STEADY, fared, longest_stall
from tora.live.protocols import PROTOCOLS
from tora.live.topologies import KINDS, Network, cable_to_break, host_to_kill, network
from tora.live.traffic import RECORD, Records


@pytest.mark.parametrize(("kind", "cables"), [("line", 9), ("ring", 10), ("grid", 13)])
def test_topologies(kind: str, cables: int) -> None:
    held = network(kind, 10, 1)
    assert held.hosts == tuple(range(1, 11)) and len(held.cables) == cables and all(a < b for a, b in held.cables)
    assert held == network(kind, 10, 1)


@pytest.mark.parametrize("kind", KINDS)
@pytest.mark.parametrize("nodes", [10, 30])
@pytest.mark.parametrize("seed", [1, 2, 20])
def test_the_ends_of_the_data_are_far_apart(kind: str, nodes: int, seed: int) -> None:
    held = network(kind, nodes, seed)
    graph = held.graph()
    assert networkx.is_connected(graph) and len(graph) == nodes and max(dict(graph.degree).values()) <= 32
    far = networkx.shortest_path_length(graph, held.source, held.destination)
    assert far >= 2 and 2 * far >= networkx.diameter(graph)
    assert held.neighbours(1) == sorted(graph[1])


def test_networks_that_are_refused() -> None:
    assert "--nodes: 3 is not 4 to 64" in refusal(lambda: network("ring", 3, 1))
    assert "--nodes: 11 hosts make no grid" in refusal(lambda: network("grid", 11, 1))
    assert "--topologies: `star` is no topology" in refusal(lambda: network("star", 10, 1))


def test_what_is_broken_leaves_another_way_where_it_can() -> None:
    # 1 - 2 - 3 - 1, and 3 - 4: the cable 3 - 4 is the only one to 4
    held = Network((1, 2, 3, 4), ((1, 2), (1, 3), (2, 3), (3, 4)), 1, 4)
    for seed in range(20):
        assert cable_to_break(held, [1, 2, 3, 4], random.Random(seed)) in [((1, 2), True), ((2, 3), True)]
        assert host_to_kill(held, [1, 2, 3, 4], random.Random(seed)) == (2, True)
    assert cable_to_break(held, [3, 4], random.Random(1)) == ((3, 4), False)
    assert (
        host_to_kill(held, [1, 3, 4], random.Random(1)) == (3, False)
        and host_to_kill(held, [3, 4], random.Random(1)) is None
    )


def test_how_packets_fared() -> None:
    sent = {number: number / 100 for number in range(1, 1001)}  # one each 10 ms, of 10 s
    assert fared(sent, set(sent), 2.0, 5.0).lost == 0 and fared(sent, set(sent), 2.0, 5.0).working == 0
    arrived = set(sent) - set(range(210, 260))  # those of 2.10 s to 2.59 s are lost
    found = fared(sent, arrived, 2.0, 5.0)
    assert (found.sent, found.lost) == (300, 50)
    assert found.gap == pytest.approx(0.51) and found.working == pytest.approx(0.5)
    arrived -= {205}  # the four packets after it are no steady run
    assert fared(sent, arrived, 2.0, 5.0).working == pytest.approx(0.55)
    assert fared(sent, arrived, 1.0, 5.0).working == pytest.approx(0.55)  # a hundred packets arrive before
    assert fared(sent, set(sent) - {300}, 2.0, 5.0).working == pytest.approx(0.01)
    assert fared(sent, set(), 2.0, 5.0).working is None and fared(sent, set(), 2.0, 5.0).gap == 3.0
    assert fared(sent, set(range(481, 500)), 2.0, 5.0).working is None  # 19 packets are no steady run
    assert fared({}, set(), 2.0, 5.0).sent == 0 and STEADY == 50


def test_records_are_read_as_they_are_written(tmp_path: pathlib.Path) -> None:
    held = Records(tmp_path / "sent")
    assert held.read() == {}
    with open(tmp_path / "sent", "wb", buffering=0) as sink:
        sink.write(RECORD.pack(1, 500_000_000) + RECORD.pack(2, 750_000_000)[:9])
        assert held.read() == {1: 0.5}
        sink.write(RECORD.pack(2, 750_000_000)[9:])
        assert list(held.read().items()) == [(1, 0.5), (2, 0.75)]


def test_the_longest_stall() -> None:
    intervals = [(at / 10, at / 10 + 0.1, 0 if 10 <= at < 15 or at == 20 else 9) for at in range(30)]
    assert longest_stall(intervals, 0.0, 3.0) == pytest.approx(0.5)
    assert longest_stall(intervals, 1.25, 3.0) == pytest.approx(0.25) and longest_stall(
        intervals, 1.6, 3.0
    ) == pytest.approx(0.1)
    assert longest_stall([], 0.0, 1.0) == 0


def test_plans() -> None:
    def plans(*words: str) -> list[Plan]:
        return list(cli.plans(cli.parser().parse_args([*words, "out"])))

    assert len(plans()) == 20 * 2 * 4 * 7  # seeds, sizes, topologies; tora with its own times, three others with both
    assert [
        it.name for it in plans("--protocols", "tora babeld", "--seeds", "1", "--nodes", "10", "--topologies", "ring")
    ] == ["tora-default-ring-10-1", "babeld-default-ring-10-1", "babeld-equal-ring-10-1"]
    words = ("--seeds", "1", "--nodes", "10", "--topologies", "ring", "--timings", "default")
    assert {it.protocol for it in plans("--protocols", "bird", *words)} == {"bird-babel", "bird-ospf"}
    assert "--protocols: `ripd` is none of tora" in refusal(lambda: plans("--protocols", "ripd"))
    assert "--protocols: `tora` is repeated" in refusal(lambda: plans("--protocols", "tora tora"))
    assert "--nodes: `65` is none of" in refusal(lambda: plans("--nodes", "65"))
    assert "--seeds: `0` is not above 0" in refusal(lambda: plans("--seeds", "0"))
    assert "--jobs: `0` is not above 0" in refusal(lambda: plans("--jobs", "0"))
    assert "--faults: it is empty" in refusal(lambda: plans("--faults", " "))
    assert PROTOCOLS["batman-adv"].missing() is not None


def test_what_of_a_table_counts(tmp_path: pathlib.Path) -> None:
    phase = {"protocol": "tora", "timing": "default", "topology": "ring", "nodes": 10, "phase": "fault", "lost": 5}
    rows: list[dict[str, object]] = [
        {**phase, "seed": 1, "fault": "down", "working_ms": 3, "stolen": 0.05},
        {**phase, "seed": 2, "fault": "down", "working_ms": 4, "stolen": 0.06},  # the host took too much
        {**phase, "seed": 3, "fault": "down", "stolen": 0},  # no route came
        {**phase, "seed": 3, "fault": "lossy", "stolen": 0},
    ]
    with open(tmp_path / "live.csv", "w", newline="") as sink:
        writer = csv.DictWriter(sink, COLUMNS, lineterminator="\n", restval="")
        writer.writeheader()
        writer.writerows(rows)
    held = report.read(tmp_path / "live.csv").frame
    assert list(held["seed"]) == [1, 3, 3]
    assert list(held["working_ms"])[:2] == [3, math.inf] and math.isnan(list(held["working_ms"])[2])


def test_tables_and_plots(tmp_path: pathlib.Path) -> None:
    (tmp_path / "rows").mkdir()
    for protocol, base in (("tora", 10.0), ("babeld", 20.0)):
        for seed in range(1, 8):
            rows = [
                {
                    "fault": "rest",
                    "phase": "rest",
                    "control_bytes_rate": base + seed,
                    "processor_percent": 0.1,
                    "memory_mb": 5,
                    "stretch": 1,
                    "control_packets_rate": 2,
                    "routes_left": 0,
                    "spare": 1,
                }
            ]
            rows += [
                {"fault": "down", "phase": "fault", "working_ms": base * seed, "gap_ms": 1, "lost": 3, "spare": spare}
                for spare in (1,)
            ]
            with open(tmp_path / "rows" / f"{protocol}-{seed}.csv", "w", newline="") as sink:
                writer = csv.DictWriter(sink, COLUMNS, lineterminator="\n", restval="")
                writer.writeheader()
                writer.writerows(
                    {"protocol": protocol, "timing": "default", "topology": "ring", "nodes": 10, "seed": seed, **row}
                    for row in rows
                )
    assert cli.main(["--report", str(tmp_path)]) == 0
    told = (tmp_path / "tables.md").read_text()
    assert (
        "| babeld | working_ms | 7 | 0 | 80 | [20 .. 140] |" in told
    )  # the median of 20, 40 .. 140, and the least and greatest of seven
    assert (tmp_path / "mended.svg").read_bytes().startswith(b"<?xml") and (tmp_path / "cost.svg").stat().st_size > 1000
    assert len((tmp_path / "live.csv").read_text().splitlines()) == 29
