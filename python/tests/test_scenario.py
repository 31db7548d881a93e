"""Scenarios: the same seed makes the same files, and each option is refused beyond its bounds, by its name."""
from __future__ import annotations

import dataclasses
import hashlib
import json
import os
import pathlib
from collections.abc import Callable
from typing import Any

import numpy as np
import pytest
from conftest import STORED, refusal, scenario_of

from tora import building
from tora.bounds import MOST_SECONDS, MOST_TICKS
from tora.building import MOST_PARTS, Settings
from tora.errors import UsageError
from tora.scenario import Scenario
from tora.trace import Trace

# By a constructor and its arguments the first digits of the SHA-256 of the simulation file, the description, and the channel file.
GOLDEN: list[tuple[Callable[..., Scenario], dict[str, Any], tuple[str, str, str]]] = [
    (Scenario.waypoint, {"nodes": 20, "seed": 2}, ("cb1c3dad02e1d042", "92a35992979372e5", "c688df95374e1f4d")),
    (
        Scenario.waypoint,
        {"nodes": 12, "speed": (1, 10), "seed": 7, "rounds": 300, "pause": 0.0, "settle": 50.0, "area": (400.0, 200.0), "heights": 50, "need": 7, "sample": 3,
         "destinations": 2, "flows": 5, "times": (5, 20, 5, 8)},
        ("827d6b4a5d955f66", "1bf9a47c3e45172d", "b238b9699d46c4fc"),
    ),
    (
        Scenario.waypoint_steady, {"nodes": 15, "speed": (2, 15), "seed": 3, "rounds": 400, "degree": 4.0},
        ("5b130df5c5fa477f", "bbf89ecb07321933", "b3b4611d84e7cd5e")
    ),
    (
        Scenario.gauss_markov, {"nodes": 10, "speed": (1, 5), "seed": 4, "rounds": 500, "alpha": 0.5, "interval": 0.5},
        ("c2a2fe7bf170fcb5", "823e054dd76ab9ad", "3d2b905287dd9e14"),
    ),
    (
        Scenario.manhattan,
        {
            "nodes": 25, "speed": (5, 15), "seed": 5, "rounds": 600, "blocks": 3, "acceleration": 2.0,
            "safety_distance": 20.0
        },
        ("6b8ea9595e4eb241", "c9b765465b7d4672", "05c4241e51303246"),
    ),
    (
        Scenario.waypoint, {"nodes": 100, "seed": 6, "rounds": 200, "large": True, "degree": 8.0},
        ("65af08eba1096126", "84193d97f5992eab", "b4c46117248c9040")
    ),
    (
        Scenario.waypoint, {"nodes": 30, "seed": 11, "rounds": 900, "limit": 8, "range": 60.5},
        ("7c5d4c9d2949aaa9", "6518a36fc6fa9357", "87d1e69b6116e3e2")
    ),
]
WHOLE = {
    "seed": (0, MOST_TICKS), "rounds": (1, MOST_TICKS), "sample": (1, 10_000), "heights": (0, MOST_TICKS),
    "need": (1, MOST_TICKS), "limit": (1, 32),
    "destinations": (1, 64), "flows": (0, 65_536),
}
# By a constructor its parameters with their bounds.
NUMBERS: list[tuple[Callable[..., Scenario], str, float, float]] = [
    (Scenario.waypoint, "pause", 0, MOST_SECONDS), (Scenario.waypoint, "settle", 0, MOST_SECONDS),
    (Scenario.waypoint, "degree", 0.000_001, 1_000_000),
    (Scenario.waypoint, "range", 0.01, 10_000_000), (Scenario.gauss_markov, "alpha", 0, 1),
    (Scenario.gauss_markov, "interval", 0.1, 1000),
    (Scenario.gauss_markov, "mean_speed", 0, 10_000_000), (Scenario.gauss_markov, "speed_deviation", 0, 10_000_000),
    (Scenario.gauss_markov, "direction_deviation", 0, 1000), (Scenario.manhattan, "acceleration", 0, 10_000_000),
    (Scenario.manhattan, "safety_distance", 0, 10_000_000),
]


@pytest.mark.parametrize(("make", "arguments", "digests"), GOLDEN)
def test_files(
    make: Callable[..., Scenario], arguments: dict[str, Any], digests: tuple[str, ...], tmp_path: pathlib.Path
) -> None:
    """One seed makes one simulation file, one description and one channel file, byte for byte, by every version of this
    package.
    """
    paths = make(**arguments).write(tmp_path / "x", channel_file=tmp_path / "x.channel", edge_loss=0.4)
    assert [os.path.basename(path) for path in paths] == ["x.sim", "x.json", "x.channel"]
    assert tuple(hashlib.sha256(pathlib.Path(path).read_bytes()).hexdigest()[:16] for path in paths) == digests


def test_numbers_of_numpy() -> None:
    """Numbers of numpy are taken as numbers, and make the same files."""
    one = Scenario.waypoint(nodes=np.int64(5), seed=np.int64(2), rounds=np.int32(50), speed=(np.float64(1), np.float32(2)), degree=np.float64(5))
    other = Scenario.waypoint(nodes=5, seed=2, rounds=50, speed=(1, 2), degree=5)
    assert one.texts("x") == other.texts("x")


def test_read_again(tmp_path: pathlib.Path) -> None:
    """A description that is read is that of the scenario that was written."""
    scenario = Scenario.waypoint(nodes=9, seed=4, rounds=120)
    scenario.write(tmp_path / "x")
    read = Scenario.read(tmp_path / "x.json")
    for field in dataclasses.fields(Scenario):
        if field.name not in ("positions", "lines", "notes"):
            assert getattr(read, field.name) == getattr(scenario, field.name)
    assert np.array_equal(read.positions, scenario.positions)
    assert read.digest == hashlib.sha256((tmp_path / "x.sim").read_bytes()).hexdigest()


@pytest.mark.parametrize("name", WHOLE)
def test_whole_numbers(name: str) -> None:
    """Both bounds are taken, and what is beyond them is refused, and so is what is no whole number."""
    least, most = WHOLE[name]
    for value in (least, most):
        assert getattr(Settings.of(**{name: value}), name) == value
    for value in (least - 1, most + 1, 1.5, "3", None if name != "limit" else "x", True, float("nan")):
        assert refusal(lambda value=value: Settings.of(**{name: value})).startswith(f"{name}: ")


@pytest.mark.parametrize(("make", "name", "least", "most"), NUMBERS)
def test_numbers(make: Callable[..., Scenario], name: str, least: float, most: float) -> None:
    """The same of numbers with a point, of each constructor."""
    for value in (least - 0.001, most * 1.001 + 0.001, float("inf"), float("nan"), "x", True):
        with pytest.raises(UsageError) as caught:
            make(nodes=4, rounds=1, **{name: value})
        assert str(caught.value).startswith(f"{name}: ")


@pytest.mark.parametrize("nodes", [1, 65, 2.0, "3", -1, True])
def test_nodes(nodes: Any) -> None:
    """Two to 64 nodes, or to 1,024 where it is large."""
    assert refusal(lambda: Scenario.waypoint(nodes=nodes)).startswith("nodes: ")
    assert refusal(lambda: Scenario.waypoint(nodes=1025, large=True)).startswith("nodes: 1025 is not 2 to 1024")


@pytest.mark.parametrize("blocks", [0, 1001, 2.5])
def test_blocks(blocks: Any) -> None:
    """Blocks are whole."""
    assert refusal(lambda: Scenario.manhattan(blocks=blocks)).startswith("blocks: ")


@pytest.mark.parametrize(
    ("arguments", "told"),
    [
        ({"times": (MOST_TICKS + 1, 1, 1, 1)}, "times: "), ({"times": (1, 2, 3)}, "times: they are not four numbers"),
        ({"times": "10,50,5,8"}, "times: "),
        ({"times": (0, 1, 1, 1)}, "times: "), ({"times": (1, 1, 1, 1.5)}, "times: "),
        ({"speed": 3}, "speed: it is not a pair"),
        ({"speed": (0.0000001, 1)}, "speed: the least speed has to be 0.000001 or more"),
        ({"speed": (3, 1)}, "speed: the least speed"),
        ({"speed": (1, 1e300)}, "speed: "),
        ({"area": (0.001, 1)}, "area: a side of 0.001 x 1 m is not 0.01 to 10000000"), ({"area": (1, 0)}, "area: "),
        ({"area": "1x1"}, "area: it is not a pair"),
        ({"degree": 0.000001, "range": 1e7}, "degree: the side of 7.93e+10 m"),
        ({"degree": 1_000_000, "range": 0.01}, "degree: the side of"), ({"large": 1}, "large: "),
        ({"limit": 33}, "limit: 33 is not 1 to 32"),
        ({"limit": 256, "large": True}, "limit: 256 is not 1 to 255"),
        ({"area": (100, 100), "degree": 6.0}, "degree: it cannot be combined with an area"),
        ({"nods": 3}, "nods: there is no such setting"), ({"alpha": 0.5}, "alpha: there is no such setting"),
        ({"rounds": 2**64}, "rounds: "),
        (
            {"rounds": MOST_TICKS},
            "rounds, sample: some 3.69e+19 places of nodes, and a scenario has at most 1000000000"
        ),
        ({"rounds": 5_000_000_000, "sample": 10_000, "need": 1}, "rounds, sample, need, heights: some"),
        (
            {"rounds": 100_000_000, "heights": 1, "destinations": 64, "sample": 10_000, "need": 10_000},
            "rounds, sample, need, heights: some"
        ),
        ({"settle": MOST_SECONDS}, "rounds, settle, speed, area: some"),
        ({"area": (0.01, 0.01), "speed": (20, 20), "pause": 0, "settle": 100_000}, "rounds, settle, speed, area: some"),
    ],
)
def test_refusals(arguments: dict[str, Any], told: str) -> None:
    """What can't be is refused at once, by its name."""
    with pytest.raises(UsageError) as caught:
        Scenario.waypoint(**arguments)
    assert str(caught.value).startswith(told)


@pytest.mark.parametrize(
    ("make", "arguments"),
    [
        (Scenario.gauss_markov, {"interval": 0.1, "rounds": 500_000_000, "sample": 10_000, "need": 10_000}),
        (Scenario.manhattan, {"blocks": 1000, "speed": (1e7, 1e7)}),
        (Scenario.waypoint_steady, {"area": (0.01, 0.01), "pause": 0, "rounds": 10_000_000}),
    ],
)
def test_sizes_of_models(make: Callable[..., Scenario], arguments: dict[str, Any]) -> None:
    """More way points than a scenario has."""
    assert "way points, and a scenario has at most" in refusal(lambda: make(**arguments))


def test_size_of_a_file() -> None:
    """More places than a scenario has, of a movement file."""
    assert "places of nodes" in refusal(lambda: Scenario.from_ns2(STORED / "three.ns2", rounds=MOST_TICKS))


@pytest.mark.parametrize(
    ("nodes", "points", "settings"),
    [
        (1024, 1e6, {"large": True, "rounds": 864_000}),
        (64, 1e6, {"rounds": 315_576_000, "sample": 10_000, "need": 10_000})
    ],
)
def test_what_is_taken(nodes: int, points: float, settings: dict[str, Any], monkeypatch: pytest.MonkeyPatch) -> None:
    """A day of 1,024 nodes, and a year of 64 at the greatest step, are no more than a scenario has, on a machine with
    the memory.
    """
    monkeypatch.setattr(building.os, "sysconf", lambda name: 1 << 20)
    building.check_parts(Settings.of(**settings), nodes, points)
    monkeypatch.setattr(building.os, "sysconf", lambda name: 1 << 10)
    assert "this machine has 0.00105 GB of memory" in refusal(
        lambda: building.check_parts(Settings.of(**settings), nodes, points)
    )
    assert MOST_PARTS == 10**9


@pytest.mark.parametrize(
    ("make", "arguments"),
    [
        (Scenario.waypoint_steady, {"area": (10_000_000, 0.01), "pause": 0}),
        (Scenario.waypoint, {"settle": MOST_SECONDS, "pause": MOST_SECONDS, "degree": 9}),
        (Scenario.waypoint, {"speed": (0.000001, 0.000001), "degree": 9}),
        (Scenario.gauss_markov, {"direction_deviation": 1000, "speed_deviation": 1e7, "degree": 9}),
        (Scenario.manhattan, {"acceleration": 1e7, "safety_distance": 1e7, "degree": 9}),
    ],
)
def test_extremes(make: Callable[..., Scenario], arguments: dict[str, Any]) -> None:
    """Scenarios at bounds end, and with no other error than that no two nodes meet."""
    try:
        make(nodes=4, rounds=20, **arguments)
    except Exception as cause:
        assert str(cause) == "no two nodes ever meet"


def test_notes() -> None:
    """More destinations than nodes are told."""
    assert Scenario.waypoint(nodes=3, degree=3.0, seed=1).notes == (
        "4 destinations are asked for, and 3 are made: the nodes with links have no more",
    )


def test_outputs(tmp_path: pathlib.Path) -> None:
    """A prefix without a name, files that exist, an output that is another one, and what does not go together; nothing
    is written.
    """
    scenario = Scenario.waypoint(nodes=4, rounds=20, degree=9.0)
    for prefix in ("", f"{tmp_path}/"):
        assert refusal(lambda prefix=prefix: scenario.write(prefix)).startswith("prefix: ")
    assert "two outputs have this name" in refusal(
        lambda: scenario.write(tmp_path / "r", channel_file=tmp_path / "r.sim")
    )
    assert refusal(lambda: scenario.write(tmp_path / "r", edge_loss=0.5)) == "edge_loss: it needs a channel file"
    assert refusal(lambda: scenario.write(tmp_path / "r", channel_file=tmp_path / "c", edge_loss=1.5)).startswith(
        "edge_loss: "
    )
    assert refusal(lambda: scenario.write("/none/x")) == "/none/x.sim: No such file or directory"
    assert os.listdir(tmp_path) == []
    (tmp_path / "r.json").write_text("old")
    assert refusal(lambda: scenario.write(tmp_path / "r")).startswith(f"{tmp_path}/r.json: the output exists")
    assert os.listdir(tmp_path) == ["r.json"]
    scenario.write(tmp_path / "r", overwrite=True)
    assert json.loads((tmp_path / "r.json").read_text())["nodes"] == 4
    assert "its simulation file is beside it" in refusal(
        lambda: Scenario.read(tmp_path / "r.json").write(tmp_path / "s")
    )


def test_still_scenarios(written: Callable[..., str]) -> None:
    """A simulation file has its destinations, links, rounds and flows; so has a trace what it names."""
    path = written(
        "dests 3,1\nlink 2 1\nlink 2 3\nold 1\nneed 1 3\nneed 1 3\nneed 3 3\nneed 2 9\nrounds 5\ntick\npart 1 2\nheights 3\n"
    )
    scenario = Scenario.from_simulation(path, times=(5, 20, 5, 8))
    assert (scenario.nodes, scenario.rounds, scenario.links, scenario.flows) == (3, 6, ((1, 2), (2, 3)), ((1, 3),))
    assert (scenario.destinations, scenario.breaks, scenario.times, scenario.linked) == (
        (3, 1), 1, (5, 20, 5, 8), (1, 2, 3)
    )
    assert "a scenario without motion" in refusal(scenario.ways) and "a scenario without motion" in refusal(
        scenario.channel_text
    )
    scenario = Scenario.from_trace(
        Trace.read(written("0 part 2 1\n0 need 1 3\n0 need 1 4\n1 up 2 3 1 1\n2 qry 2 3 1\n9 frames 1 0 0 0\n"))
    )
    assert (scenario.links, scenario.flows, scenario.destinations, scenario.rounds) == (
        ((1, 2), (2, 3)), ((1, 3),), (3,), 9
    )


@pytest.mark.parametrize(
    ("text", "told"),
    [
        ("", ": no link in this simulation file"), ("dests 1\n", ": no link"),
        ("dests 1\nnode 2\n", ":2: no line of a simulation file"), ("link 1 2\n", ":1: no line"),
        ("dests 1\nlink 1\n", ":2: no line"), ("dests 1\nlink 1 x\n", ":2: `x` is no id"),
        ("dests 1\nlink 1 2\ndests 1\n", ":3: no line"), ("dests x\nlink 1 2\n", ":1: `x`"),
        (
            "dests 1\n" + "".join(f"link 1 {node}\n" for node in range(2, 1100)),
            ": 1099 nodes; a simulation has at most 1024"
        ),
    ],
)
def test_no_simulation_files(text: str, told: str, written: Callable[..., str]) -> None:
    """What no simulation file has is refused with its line."""
    path = written(text)
    assert refusal(lambda: Scenario.from_simulation(path)).startswith(path + told)


def test_traces_without_a_scenario(written: Callable[..., str]) -> None:
    """A trace that names no link or no destination, or too many nodes."""
    for text, told in (("1 need 1 2\n", "the trace names no link"), ("1 up 1 2 1 1\n", "the trace names no destination"),
                       (
                           "".join(f"0 up 1 {node} 1 1\n" for node in range(2, 1100)) + "1 route 1 2 - -\n",
                           "1099 nodes; a simulation has at most 1024"
                       )):
        path = written(text)
        assert refusal(lambda path=path: Scenario.from_trace(Trace.read(path))).startswith(f"{path}: {told}")


def test_linked() -> None:
    """The nodes with links, ascending."""
    assert scenario_of(links=[(2, 5), (1, 2)], flows=[(1, 5)], rounds=5).linked == (1, 2, 5)
