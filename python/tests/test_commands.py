"""What the command line calls: options that don't go together are refused, and nothing is written on bad input."""
from __future__ import annotations

import inspect
import os
import pathlib
from collections.abc import Callable
from typing import Any

import pytest
from conftest import STORED, refusal

from tora import commands
from tora.errors import UsageError
from tora.scenario import Scenario


@pytest.mark.parametrize(
    ("given", "name"),
    [
        ({"ns2": STORED / "three.ns2", "nodes": 50}, "nodes"),
        ({"ns2": STORED / "three.ns2", "model": "manhattan"}, "model"),
        ({"ns2": STORED / "three.ns2", "speed": (1, 3)}, "speed"),
        ({"ns2": STORED / "three.ns2", "pause": 1.0}, "pause"),
        ({"ns2": STORED / "three.ns2", "coordinates": 3}, "coordinates"),
        ({"bonnmotion": STORED / "three.movements", "area": (1, 1)}, "area"),
        ({"ns2": STORED / "three.ns2", "bonnmotion": STORED / "three.movements"}, "bonnmotion"),
        ({"bonnmotion": STORED / "three.movements", "absent": "rest"}, "absent"),
        ({"fcd": "f", "degree": 6.0}, "degree"), ({"model": "gauss-markov", "pause": 1.0}, "pause"),
        ({"model": "manhattan", "settle": 1.0}, "settle"),
        ({"model": "waypoint-steady", "settle": 1.0}, "settle"), ({"alpha": 0.5}, "alpha"),
        ({"model": "gauss-markov", "blocks": 3}, "blocks"),
        ({"coordinates": 3}, "coordinates"), ({"edge_loss": 0.5}, "edge_loss"),
        ({"area": (100, 100), "degree": 6.0}, "degree"), ({"model": "other"}, "model"),
        ({"nodes": 65}, "nodes"), ({"rounds": 0}, "rounds"),
    ],
)
def test_options_that_do_not_go_together(given: dict[str, Any], name: str, tmp_path: pathlib.Path) -> None:
    """Each is refused by its name with status 2, and nothing is written."""
    with pytest.raises(UsageError) as caught:
        commands.make(tmp_path / "x", **given)
    assert str(caught.value).startswith(f"{name}: ") and caught.value.status == 2
    assert os.listdir(tmp_path) == []


def test_made(tmp_path: pathlib.Path) -> None:
    """What is made is the scenario of the constructor, and what it lacks is told."""
    told = commands.make(
        tmp_path / "x", model="manhattan", nodes=6, speed=(2, 5), blocks=2, degree=8.0, seed=3, rounds=100,
        channel_file=tmp_path / "c", edge_loss=0.3
    )
    Scenario.manhattan(nodes=6, speed=(2, 5), blocks=2, degree=8.0, seed=3, rounds=100).write(
        tmp_path / "y", channel_file=tmp_path / "d", edge_loss=0.3
    )
    for one, other in (("x.sim", "y.sim"), ("x.json", "y.json"), ("c", "d")):
        assert (tmp_path / one).read_bytes() == (tmp_path / other).read_bytes()
    assert told == list(Scenario.manhattan(nodes=6, speed=(2, 5), blocks=2, degree=8.0, seed=3, rounds=100).notes)
    assert commands.make(tmp_path / "z", bonnmotion=STORED / "three.movements", rounds=600, limit=2)[0].startswith(
        "4 destinations are asked for"
    )


def test_inputs(tmp_path: pathlib.Path) -> None:
    """A movement file is not written to, also where files may be replaced."""
    (tmp_path / "x.sim").write_bytes((STORED / "three.ns2").read_bytes())
    for overwrite in (False, True):
        assert "the output is an input, too" in refusal(
            lambda overwrite=overwrite: commands.make(tmp_path / "x", ns2=tmp_path / "x.sim", overwrite=overwrite)
        )
    assert os.listdir(tmp_path) == ["x.sim"]


def test_parameters() -> None:
    """The command takes every parameter of the constructors and every setting, and no other."""
    names = set(inspect.signature(commands.make).parameters) - {
        "prefix", "channel_file", "edge_loss", "overwrite", "model"
    }
    taken = {name for some in commands.TAKEN.values() for name in some} | set(commands.SETTINGS) | set(commands.FILES)
    assert names == taken
    for kind, make in {
        "waypoint": Scenario.waypoint, "waypoint-steady": Scenario.waypoint_steady,
        "gauss-markov": Scenario.gauss_markov, "manhattan": Scenario.manhattan
    }.items():
        assert set(inspect.signature(make).parameters) - {"settings"} == set(commands.TAKEN[kind])


def test_measured(tmp_path: pathlib.Path) -> None:
    """The text has the names of the columns and the row; it is written beside its place, and never to an input."""
    files = (STORED / "6-1.json", STORED / "6-1.trace")
    text = commands.measure(*files, tmp_path / "row.csv", traffic="4", hop=2, version='tora 1,2 "x"')
    assert (tmp_path / "row.csv").read_text() == text
    header, row = (line.split(",") for line in text.splitlines())
    assert len(header) == len(row) and row[header.index("version")] == "tora 1 2 x" and row[
        header.index("hop_ticks")
    ] == "2"
    assert commands.measure(*files, header=False, traffic="4", hop=2, version='tora 1,2 "x"') == text.splitlines(True)[
        1
    ]
    assert "the output exists" in refusal(lambda: commands.measure(*files, tmp_path / "row.csv"))
    copy = tmp_path / "copy.trace"
    copy.write_bytes(files[1].read_bytes())
    assert "the output is an input, too" in refusal(lambda: commands.measure(files[0], copy, copy, overwrite=True))
    assert copy.read_bytes() == files[1].read_bytes()


@pytest.mark.parametrize(
    ("given", "name"),
    [({"hop": 3}, "hop"), ({"ttl": 3}, "ttl"), ({"traffic": "none"}, "traffic"), ({"traffic": "1", "hop": 0}, "hop")]
)
def test_measures_that_can_not_be(given: dict[str, Any], name: str, tmp_path: pathlib.Path) -> None:
    """Options of data packets stand with a rate alone, and are refused before a file is read."""
    assert refusal(lambda: commands.measure("/none", "/none", tmp_path / "x", **given)).startswith(f"{name}: ")


def test_bad_files(written: Callable[..., str], tmp_path: pathlib.Path) -> None:
    """A trace that is cut or empty leaves nothing behind."""
    for text, told in (
        ("", ":1: the trace is empty"), ("5 part 1 99\n", ":1: no link of the scenario"),
        ("1 part 1 2\n1 qry 1\n", ":2: `qry` has 3 fields, not 1")
    ):
        path = written(text)
        assert refusal(lambda path=path: commands.measure(STORED / "6-1.json", path, tmp_path / "x")).startswith(
            path + told
        )
    assert not (tmp_path / "x").exists()
    assert "no manifest is named" in refusal(lambda: commands.verify([]))
