"""Drives: compared with the simulation of the same events, and that an engine which is silent, ends, or says something
else is an error.
"""
from __future__ import annotations

import os
import pathlib
import time
from collections.abc import Callable
from typing import Any

import pytest
from conftest import STORED, refusal

from tora.driving import Drive, drive
from tora.oracle import agree
from tora.program import Program

Script = Callable[..., Program]
FILE = STORED / "three.sim"


@pytest.mark.parametrize(
    ("text", "told"),
    [
        ("sleep 60", "the program says nothing within 0.5 seconds"),
        ("printf 'tora drive 1'; sleep 60", "says nothing"), ("exit 0", "it begins with ''"),
        ("echo hello", "it begins with 'hello'"),
        ("echo tora drive 1; sleep 60", "says nothing within 0.5 seconds"),
        ("echo tora drive 1; read x; echo sent 1; sleep 60", "has the line 'sent 1'"),
        ("echo tora drive 1; read x; echo fault 1 no", "ends with 'fault 1 no'"),
        ("echo tora drive 1; read x; echo ok; read x; exec sleep 60", "says nothing"),
        ("echo tora drive 1; while true; do echo 'bytes 1'; sleep 0.05; done", "says nothing within 0.5 seconds"),
    ],
)
def test_engines(text: str, told: str, script: Script) -> None:
    """It is never waited for without end, whatever it says before."""
    program, begin = script(text), time.monotonic()
    assert told in refusal(lambda: drive(FILE, program=program, time_limit=0.5))
    assert time.monotonic() - begin < 20


def test_engine_that_ends(script: Script) -> None:
    """An engine that ends is told, with the line that it ended before, or with its answer cut."""
    told = refusal(lambda: drive(FILE, program=script("echo tora drive 1"), time_limit=5))
    assert "the program ended before" in told or "ends with ''" in told


def test_stubborn_engine(script: Script) -> None:
    """An engine that does not end when its input does is ended."""
    program = script("echo tora drive 1; exec sleep 60")
    with Drive(program, time_limit=0.3) as running:
        assert "does not end within 0.3 seconds" in refusal(running.end)
    assert running.process.returncode is not None


@pytest.mark.parametrize(
    ("given", "told"),
    [({"ticks": 0}, "ticks: "), ({"ticks": 2**64}, "ticks: "), ({"loss": 1.1}, "loss: "), ({"loss": float("nan")}, "loss: "), ({"seed": -1}, "seed: "), ({"needs": [(0, 1)]}, "needs: "),
     ({"program": "/none/tora"}, "/none/tora: there is no such program"), (
         {"keep": "/dev/null/x", "program": "true"}, "/dev/null/x: Not a directory"
     )],
)
def test_bounds(given: dict[str, Any], told: str) -> None:
    """What can't be."""
    assert refusal(lambda: drive(FILE, **given)).startswith(told)


@pytest.mark.parametrize("text", ["", "hello\n", "link 1 2\n", "dests x\n", "dests 1 2\n", "\x00\n"])
def test_files(text: str, written: Callable[..., str]) -> None:
    """Files that are none."""
    path = written(text)
    assert refusal(lambda: drive(path, program="true")) == f"{path}:1: no line `dests LIST`"


def test_erasure(program: Program, tmp_path: pathlib.Path) -> None:
    """Choices of nodes are said to the drive, and stand in its simulation."""
    text = "dests 3\nlink 1 2\nlink 2 3\nold 3\nerasure 1 remembered\n"
    (tmp_path / "file").write_text(text)
    drive(tmp_path / "file", ticks=30, needs=[(1, 3)], keep=tmp_path, program=program)
    assert (tmp_path / "driven.txt").read_text().startswith(text + "need 1 3\n") and (tmp_path / "driven.sim").read_text().startswith(text)


def test_drive(program: Program, tmp_path: pathlib.Path) -> None:
    """A driven world is the simulated one, and so is its record, whose trace agrees with what it prints."""
    found = drive(FILE, ticks=60, loss=0.4, needs=[(1, 3)], keep=tmp_path, program=program)
    assert found.steps == 60 and 0 < found.delivered < found.sent
    assert sorted(os.listdir(tmp_path)) == ["driven.sim", "driven.txt", "record.sim"]
    (tmp_path / "out").write_text(program.run("sim", "--trace", tmp_path / "trace", tmp_path / "record.sim").output)
    assert agree(tmp_path / "record.sim", tmp_path / "out", tmp_path / "trace").lines > 0
    assert found.lines()[0].startswith("60 steps, ")
