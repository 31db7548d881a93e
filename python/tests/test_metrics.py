"""The row of a run: stored rows, what the header of its trace says, and the names of the columns."""
from __future__ import annotations

import json
import subprocess
import sys
from collections.abc import Callable
from typing import Any

import pytest
from conftest import RUNS, STORED, description, refusal

from tora.delivery import Load
from tora.metrics import ERASURE, columns, loop_lines, measure, row_text
from tora.resting import COLUMNS as OF_REST
from tora.run import Run
from tora.trace import Trace

FIRST = "0 trace 1 10 50 5 8 100000 1 3 0 7 1"
DIGEST = "a" * 64


LATER = (*OF_REST, *ERASURE)


def without_later(line: str) -> str:
    """A line of CSV without the columns that stored rows do not have, which stand at its end."""
    return ",".join(line.split(",")[: -len(LATER)])


@pytest.mark.parametrize("name", ["study.csv", "traffic.csv"])
def test_stored(name: str) -> None:
    """The rows of the stored runs, with and without data packets, are the stored ones, and the new columns stand after
    them.
    """
    load = Load.of("4", 2) if name == "traffic.csv" else None
    header, *rows = (STORED / name).read_text().splitlines()
    names = columns(load is not None)
    assert without_later(",".join(names)) == header and tuple(names[-len(LATER):]) == LATER
    for run, wanted in zip(RUNS, rows, strict=True):
        found = Run.read(STORED / f"{run}.json", STORED / f"{run}.trace")
        assert without_later(row_text(measure(found.scenario, found.trace, load).row, names)) == wanted


def test_stored_loops() -> None:
    """The loops of the stored runs."""
    lines = [
        f"{run} {line}\n" for run in RUNS for line in loop_lines(
            Run.read(STORED / f"{run}.json", STORED / f"{run}.trace").measure().loops
        )
    ]
    assert "".join(lines) == (STORED / "loops").read_text()


@pytest.fixture
def row(written: Callable[..., str]) -> Callable[[str, int], dict[str, Any]]:
    """The row of a trace of eight rounds with this first record, whose input ends at this clock."""
    def run(first: str, last: int) -> dict[str, Any]:
        scenario = description(links=[[1, 2]], flows=[[1, 2]], rounds=8)
        trace = f"{first}\n0 need 1 2\n1 frames 4 0 0 0\n{last} end {DIGEST}\n"
        return Run.read(written(json.dumps(scenario), "x.json"), written(trace, "x.trace")).measure().row

    return run


@pytest.mark.parametrize(
    ("more", "last", "wanted"),
    [
        ("", 8, (None, None, 8)), (" 5 -", 5, (5, None, 5)), (f" - {DIGEST}", 8, (None, DIGEST, 8)),
        (f" 9 {DIGEST}", 8, (9, DIGEST, 8))
    ],
)
def test_more(more: str, last: int, wanted: tuple[Any, ...], row: Callable[[str, int], dict[str, Any]]) -> None:
    """A run without a last round and a channel file, with either, and with both."""
    found = row(FIRST + more, last)
    assert (found["until"], found["channel_file"], found["rounds"]) == wanted
    assert [found[name] for name in ("loss", "delay_least", "delay_most", "repeat", "channel_seed", "notice")] == [
        100000, 1, 3, 0, 7, 1
    ]
    assert found["edge_loss"] is None
    assert list(found) == columns()


@pytest.mark.parametrize("more", [" 0 -", " 5 x", " x -"])
def test_refusals(more: str, row: Callable[[str, int], dict[str, Any]]) -> None:
    """A run without a round, and a digest that is none."""
    refusal(lambda: row(FIRST + more, 8))


def test_names() -> None:
    """No column has two names, and each is there with data packets, too."""
    for names in (columns(), columns(True)):
        assert len(set(names)) == len(names)
    assert set(columns()) < set(columns(True))


def test_speed_of_a_long_run(written: Callable[..., str]) -> None:
    """Six minutes of 64 nodes are read and measured in a tenth of the budget of an hour, which is 5 s and 300 MB beside
    other work.
    """
    lines, links = ["0 need 1 64"], [[node, node + 1] for node in range(1, 64)]
    for clock in range(1, 3601):
        lines += [
            f"{clock} route {node} 64 ({clock},1,0,{64 - node},{node}) {node + 1}" for node in range(
                1 + clock % 3, 64, 3
            )
        ]
        lines += [f"{clock} frames 64 1 1 0"] + (
            [f"{clock} part 5 6"] if clock % 20 == 10 else [f"{clock} mend 5 6"] if clock % 20 == 0 else []
        )
    told = description(links=links, flows=[[node, 64] for node in range(1, 64)], rounds=3600)
    code = (
        "import resource, sys, time; import tora; begin = time.process_time(); run = tora.Run.read(*sys.argv[1:]); run.measure(); "
        "print(time.process_time() - begin, resource.getrusage(resource.RUSAGE_SELF).ru_maxrss / 1000)"
    )
    done = subprocess.run(
        [sys.executable, "-c", code, written(json.dumps(told), "x.json"), written("\n".join(lines) + "\n", "x.trace")],
        capture_output=True, text=True,
        check=True, env={"PYTHONPATH": ":".join(sys.path)},
    )
    seconds, megabytes = map(float, done.stdout.split())
    assert seconds < 5 and megabytes < 300
    assert len(Trace.read(written("\n".join(lines) + "\n", "x.trace"))) == len(lines)


@pytest.mark.parametrize(("more", "erasure"), [("", "plain"), (" - -", "plain"), (" - - remembered", "remembered"), (" 8 - remembered", "remembered")])
def test_erasure(row: Callable[[str, int], dict[str, Any]], more: str, erasure: str) -> None:
    """The first record tells what nodes make of erased levels."""
    assert row(FIRST + more, 8)["erasure"] == erasure
