"""Descriptions of scenarios: what is refused, each fault by its path in the file."""
from __future__ import annotations

import json
import math
import pathlib
import random
from collections.abc import Callable
from typing import Any

import pytest
from conftest import RUNS, STORED, description, refusal

from tora.description import faults_of, path_text, schema, validator
from tora.scenario import Scenario

Write = Callable[..., str]
PLACES = [[[0.0, 0.0], [50.0, 0.0], [100.0, 0.0]]]
GOOD = description(
    links=[[1, 2], [2, 3]], flows=[[1, 3]], rounds=8, positions=PLACES,
    parameters={"model": "waypoint", "alpha": 0.5, "degree": ""}
)
BAD = [
    ("positions", [[["x", 0], [1, 1], [2, 2]]], "positions[0][0][0]"),
    ("positions", [[[True, 0], [1, 1], [2, 2]]], "positions[0][0][0]"),
    ("positions", [[[0, 0], [1, 1], [2, 1.1e7]]], "positions[0][2][1]"),
    ("positions", [[[0, 0], [1, 1, 1], [2, 2]]], "positions[0][1]"),
    ("positions", [[[0, -(10**400)], [1, 1], [2, 2]]], "positions[0][0][1]"), ("positions", [[]], "positions[0]"),
    ("positions", [], "positions"),
    ("positions", [7], "positions[0]"), ("positions", {}, "positions"),
    ("positions", [[[0, 0], [1, 1]]], "positions[0]"),
    ("positions", [PLACES[0], [[0, 0]]], "positions[1]"),
    ("times", ["a", 50, 5, 8], "times[0]"), ("times", "10,50,5,8", "times"), ("times", [10, 50], "times"),
    ("times", [10.5, 50, 5, 8], "times[0]"),
    ("times", [10.0, 50, 5, 8], "times[0]"), ("times", [0, 50, 5, 8], "times[0]"),
    ("times", [10, 50, 5, 2**64], "times[3]"),
    ("rounds", 0, "rounds"), ("rounds", -5, "rounds"), ("rounds", True, "rounds"), ("rounds", "8", "rounds"),
    ("rounds", 10**400, "rounds"),
    ("rounds", 80, "positions"), ("sample", 0, "sample"), ("sample", -10, "sample"), ("sample", 10_001, "sample"),
    ("sample", 2**53, "sample"),
    ("nodes", 0, "nodes"), ("nodes", 10**30, "nodes"), ("nodes", None, "nodes"), ("nodes", 1025, "nodes"),
    ("nodes", 65, "positions[0]"),
    ("links", [], "links"), ("links", [[1.0, 2]], "links[0][0]"), ("links", [[[1], 2]], "links[0][0]"),
    ("links", [[2, 1]], "links[0]"),
    ("links", [[1, 2], [2, 2]], "links[1]"), ("links", [[1, 9]], "links[0]"), ("links", [1], "links[0]"),
    ("links", [[1, 2], [2, 3], [1, 2]], "links[2]"),
    ("links", [[1, 2, 3]], "links[0]"),
    ("destinations", [], "destinations"), ("destinations", [[1]], "destinations[0]"),
    ("destinations", [9], "destinations[0]"), ("destinations", ["3"], "destinations[0]"),
    ("destinations", [3, 1, 3], "destinations[2]"), ("destinations", [1], "flows[0][1]"),
    ("flows", [], "flows"), ("flows", [[3, 3]], "flows[0]"), ("flows", [[1, [3]]], "flows[0][1]"),
    ("flows", [[1]], "flows[0]"), ("flows", [[9, 3]], "flows[0][0]"),
    ("flows", [[1, 2]], "flows[0][1]"), ("flows", [[1, 3], [2, 3], [1, 3]], "flows[2]"),
    ("contact_kept", 7, "contact_kept"), ("contact_kept", -0.1, "contact_kept"), ("contact_kept", "1", "contact_kept"),
    ("limit", -1, "limit"), ("limit", 0, "limit"), ("limit", 256, "limit"), ("limit", 1, "links[1]"),
    ("limit", 33, "limit"),
    ("seed", -5, "seed"), ("seed", 2**64, "seed"), ("seed", 1.5, "seed"), ("range", 10**400, "range"),
    ("range", 0, "range"),
    ("left_out", [1], "left_out[0]"), ("left_out", [4], "left_out[0]"), ("breaks", -1, "breaks"), ("large", 1, "large"),
    ("parameters", [1], "parameters"), ("parameters", {"alpha": "x"}, "parameters.alpha"),
    ("parameters", {"model": "a,b"}, "parameters.model"),
    ("parameters", {"model": [1]}, "parameters.model"), ("digest", 7, "digest"), ("digest", "a" * 63, "digest"),
    ("nods", 3, None),
]
TEXTS = {
    "": ":1: Expecting value", "[" * 100_000: "nested too deeply", '{"seed":' * 100_000: "nested too deeply",
    "7": "no scenario",
    '{"seed": ' + "9" * 5000 + "}": "too many digits", "[1]": "no scenario", '{\n"seed": }': ":2: Expecting value",
    "hello world\n": ":1: Expecting value",
    '{"seed": NaN}': "NaN is no number of JSON", '{"seed": 1, "seed": 2}': ": seed: no scenario: the key is repeated",
}


@pytest.mark.parametrize(("key", "value", "where"), BAD)
def test_keys(key: str, value: Any, where: str | None, written: Write) -> None:
    """One key after the other is spoiled; the fault is told by its path."""
    path = written(json.dumps(GOOD | {key: value}))
    told = refusal(lambda: Scenario.read(path))
    assert told.startswith(f"{path}: {where}: no scenario: " if where else f"{path}: no scenario: ")


@pytest.mark.parametrize("key", [key for key in GOOD if key != "parameters"])
def test_missing_keys(key: str, written: Write) -> None:
    """Each key but the parameters is needed, and it is named."""
    path = written(json.dumps({name: value for name, value in GOOD.items() if name != key}))
    assert f"'{key}' is a required property" in refusal(lambda: Scenario.read(path))


@pytest.mark.parametrize("text", TEXTS)
def test_texts(text: str, written: Write) -> None:
    """Texts that are no scenario."""
    path = written(text)
    told = refusal(lambda: Scenario.read(path))
    assert told.startswith(path) and TEXTS[text] in told


@pytest.mark.parametrize("data", [bytes(range(256)) * 40, b"\xff\xfe", b"\xef\xbb\xbf"])
def test_bytes(data: bytes, written: Write) -> None:
    """Bytes that are no text, or no more than a byte order mark."""
    path = written(data)
    assert refusal(lambda: Scenario.read(path)).startswith(path)


def test_good(written: Write, tmp_path: pathlib.Path) -> None:
    """A scenario is read, with a byte order mark, too; links and flows are pairs."""
    for text in (json.dumps(GOOD), "\ufeff" + json.dumps(GOOD)):
        scenario = Scenario.read(written(text))
        assert (scenario.links, scenario.flows, scenario.times, scenario.linked) == (
            ((1, 2), (2, 3)), ((1, 3),), (10, 50, 5, 8), (1, 2, 3)
        )
        assert scenario.positions.shape == (1, 3, 2)
        assert scenario.flow_table().values.tolist() == [[1, 3]]
    assert refusal(lambda: Scenario.read(tmp_path / "none")) == f"{tmp_path}/none: No such file or directory"
    assert refusal(lambda: Scenario.read(tmp_path)) == f"{tmp_path}: Is a directory"


@pytest.mark.parametrize("run", [*RUNS, "three"])
def test_stored(run: str) -> None:
    """The stored descriptions are of the schema, by the library itself, and are written as they were read."""
    told = json.loads((STORED / f"{run}.json").read_text())
    assert list(validator().iter_errors(told)) == [] and list(faults_of(told)) == []
    scenario = Scenario.read(STORED / f"{run}.json")
    assert (scenario.rounds, len(scenario.links), scenario.positions.tolist()) == (
        told["rounds"], len(told["links"]), told["positions"]
    )


def test_schema() -> None:
    """The schema is one, and positions, which are looked at apart, are as it has them: by the library and by us, on
    random faults.
    """
    validator().check_schema(schema())
    source = random.Random(1)
    values = [0, 1.5, -7, "x", None, True, [], 1e7, 1.01e7, -1e7, -2e7, 10**30, math.inf, {}]
    for _ in range(300):
        places = [[[0.0, 0.0] for _ in range(3)] for _ in range(2)]
        for _ in range(source.randint(1, 3)):
            row = places[source.randrange(2)]
            at = source.randrange(3)
            if source.random() < 0.7 and isinstance(row[at], list):
                row[at] = [source.choice(values) for _ in range(source.choice((2, 2, 2, 1, 3)))]
            else:
                row[at] = source.choice(values)
        told = GOOD | {"positions": places}
        assert bool(list(validator().iter_errors(told))) == bool(list(faults_of(told)))


def test_paths() -> None:
    """As a path is told."""
    assert path_text(["links", 3, 1]) == "links[3][1]" and path_text([]) == "" and path_text(
        ["parameters", "model"]
    ) == "parameters.model"
