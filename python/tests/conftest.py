"""What the tests share: scenarios of a few nodes, files with a text, stored runs, and the program where it stands."""
from __future__ import annotations

import os
import pathlib
from collections.abc import Callable
from typing import Any

import pytest

from tora.errors import StudyError
from tora.program import Program
from tora.scenario import Scenario

STORED = pathlib.Path(__file__).parent / "stored"
RUNS = ("6-1", "6-2", "7-9", "8-1", "8-2")
REPOSITORY = pathlib.Path(__file__).parents[2]


def description(links: list[Any], flows: list[Any], rounds: int, **more: Any) -> dict[str, Any]:
    """A description with these links and flows, its nodes in a row; more keys replace those that are told here."""
    nodes = max(node for link in links for node in link)
    found = {
        "seed": 1, "nodes": nodes, "range": 100.0, "rounds": rounds, "sample": 10, "limit": 32, "times": [10, 50, 5, 8],
        "destinations": sorted({destination for _, destination in flows}), "flows": flows, "links": links,
        "contact_kept": 1.0,
        "links_met": len(links), "most_met": 2, "most_at_once": 2, "breaks": 0, "left_out": [],
        "positions": [[[50.0 * node, 0.0] for node in range(nodes)]] * (rounds // 10 + 1),
    }
    return found | more


def scenario_of(links: list[Any], flows: list[Any], rounds: int, **more: Any) -> Scenario:
    """The scenario of such a description."""
    import numpy as np

    told = description(links, flows, rounds, **more) | {"parameters": more.get("parameters", {})}
    told["positions"] = np.array(told["positions"])
    for name in ("times", "destinations", "left_out"):
        told[name] = tuple(told[name])
    for name in ("flows", "links"):
        told[name] = tuple(map(tuple, told[name]))
    return Scenario(**told)


@pytest.fixture
def written(tmp_path: pathlib.Path) -> Callable[..., str]:
    """Writes a file with a text or with bytes, and answers its path."""
    def write(text: str | bytes, name: str = "file") -> str:
        path = tmp_path / name
        path.write_bytes(text if isinstance(text, bytes) else text.encode())
        return str(path)

    return write


@pytest.fixture
def script(tmp_path: pathlib.Path) -> Callable[..., Program]:
    """Writes a script that stands for the program."""
    def write(text: str, name: str = "program") -> Program:
        path = tmp_path / name
        path.write_text(f"#!/bin/sh\n{text}\n")
        path.chmod(0o755)
        return Program((str(path),))

    return write


def built() -> Program | None:
    """The program where it stands built: by TORA, or in the repository; nothing is compiled for a test."""
    if os.environ.get("TORA"):
        return Program.find()
    for name in ("crates/tora/out/tora", "out/tora_unproved"):
        if os.access(REPOSITORY / name, os.X_OK):
            return Program.find(REPOSITORY / name)
    return None


@pytest.fixture(scope="session")
def program() -> Program:
    """The program that runs scenarios; a test that takes it is skipped where it is not built."""
    found = built()
    if found is None:
        pytest.skip("the program tora is not built (./tora build), and TORA names none")
    return found


def refusal(call: Callable[[], Any]) -> str:
    """What a call is refused with: one line."""
    with pytest.raises(StudyError) as caught:
        call()
    told = str(caught.value)
    assert "\n" not in told and len(told) < 400
    return told
