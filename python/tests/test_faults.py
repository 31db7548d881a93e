"""Faults that made a study wrong without a word, each as a user meets it: a command, its status and its one line."""
from __future__ import annotations

import csv
import dataclasses
import json
import os
import subprocess
import sys
import threading
from pathlib import Path

import numpy as np
import pytest

from conftest import REPOSITORY, STORED
from study_stub import write_stub
from test_routes import NODE, ROUTES
from tora.cli import main
from tora.errors import StudyError
from tora.heights import places_of
from tora.routes.configuration import read
from tora.routes.lines import Hops
from tora.routes.table import found_routes
from tora.run import Run

STUDIES = REPOSITORY / "docs" / "studies"


@pytest.fixture
def refused(tmp_path: Path, capsys: pytest.CaptureFixture[str], monkeypatch: pytest.MonkeyPatch):  # type: ignore[no-untyped-def]
    """A command that has to end with a status and one line; no file is made or changed."""
    monkeypatch.chdir(tmp_path)

    def run(status: int, cause: str, *words: object) -> None:
        before = {path: path.read_bytes() for path in tmp_path.rglob("*") if path.is_file()}
        assert main([str(word) for word in words]) == status
        found = capsys.readouterr()
        assert found.err.count("\n") == 1 and cause in found.err and found.out == "", found.err
        assert before == {path: path.read_bytes() for path in tmp_path.rglob("*") if path.is_file()}

    return run


def test_values_and_rows_that_stand_twice(tmp_path: Path, refused) -> None:  # type: ignore[no-untyped-def]
    """No run counts twice: neither a size or a value of a sweep, nor a row of a table."""
    refused(2, "`10` is repeated", "sweep", "s", "--nodes", "10,10", "--seeds", 3)
    refused(2, "`1-3` is repeated", "sweep", "s", "--nodes", 10, "--seeds", 3, "--vary", "speed=1-3,1-3")
    lines = (STUDIES / "study.csv").read_text().splitlines()
    (tmp_path / "t.csv").write_text("\n".join([*lines, lines[5]]) + "\n")
    refused(2, f"t.csv:{len(lines) + 1}: ", "summary", "t.csv")


def test_what_a_study_varies_or_sets_is_not_given_again(refused) -> None:  # type: ignore[no-untyped-def]
    """Neither a seed nor a size after the seeds, nor an option that varies."""
    refused(2, "unrecognized arguments: --seed 30", "sweep", "s", "--nodes", 10, "--seeds", 2, "--seed", 30)
    refused(2, "--nodes is repeated", "sweep", "s", "--nodes", 10, "--seeds", 2, "--nodes", 30)
    refused(2, "--speed: it varies", "sweep", "s", "--nodes", 10, "--seeds", 2, "--vary", "speed=1-3,1-9", "--speed", "1-5")


def test_groups_are_pooled_where_it_is_asked_alone(capsys: pytest.CaptureFixture[str]) -> None:
    """A group has the runs of one size and one number of flows; pooling stands in the header."""
    words = ["summary", str(STUDIES / "ns3-proved.csv"), "--measures", "delivery", "--where", "protocol=AODV", "--where", "speed=5"]
    assert main([*words, "--format", "csv"]) == 0
    rows = list(csv.DictReader(capsys.readouterr().out.splitlines()))
    assert [(row["nodes"], row["flows"], row["runs"]) for row in rows] == [(nodes, flows, "20") for nodes in ("20", "50") for flows in ("5", "10")]
    assert main([*words, "--pool", "nodes,flows"]) == 0
    assert "pooled in one interval: nodes = 20, 50" in capsys.readouterr().out


@pytest.mark.parametrize("text", ["", "\n", "nodes,seed,available\n", "nodes,seed,rounds,available\n10,1,9,nan\n", "nodes,hops\n1,2\n"])
def test_tables_that_are_none(tmp_path: Path, refused, text: str) -> None:  # type: ignore[no-untyped-def]
    """An empty table and `nan`: status 2, one line that names the file."""
    (tmp_path / "t.csv").write_text(text)
    refused(2, "t.csv", "summary", "t.csv")


def test_columns_that_are_not_there(refused) -> None:  # type: ignore[no-untyped-def]
    """A table that has no such column: of our own, too."""
    refused(2, "there is no column `colour`", "summary", STUDIES / "study.csv", "--measures", "colour")
    refused(2, "ns3.csv", "summary", STUDIES / "ns3.csv", "--report", "losses", "--where", "nodes=20")


def test_the_quantile_rule_is_told(capsys: pytest.CaptureFixture[str]) -> None:
    """The header names the rule; of 20 values the 95 % point lies between the 19th and the 20th."""
    words = ["summary", str(STUDIES / "study.csv"), "--measures", "available", "--where", "nodes=10", "--statistic", "q0.95"]
    assert main(words) == 0
    assert "q0.95 (numpy.quantile, rule linear)" in capsys.readouterr().out
    assert main([*words, "--format", "csv"]) == 0
    row, = csv.DictReader(capsys.readouterr().out.splitlines())
    with open(STUDIES / "study.csv", encoding="ascii", newline="") as source:
        values = sorted(float(row["available"]) for row in csv.DictReader(source) if row["nodes"] == "10")
    assert len(values) == 20 and float(row["value"]) == pytest.approx(values[18] + 0.05 * (values[19] - values[18]))


@pytest.mark.parametrize(("key", "change", "where"), [
    ("links", lambda it: [*it, it[0]], "links["), ("flows", lambda it: [*it, it[0]], "flows["), ("destinations", lambda it: [*it, it[0]], "destinations["),
    ("contact_kept", lambda it: 7, "contact_kept"), ("limit", lambda it: -1, "limit"), ("seed", lambda it: -5, "seed"),
])
def test_faults_of_a_description_by_their_path(tmp_path: Path, refused, key: str, change, where: str) -> None:  # type: ignore[no-untyped-def]
    """A link, flow or destination that is repeated, and numbers beyond what can be."""
    told = json.loads((STORED / "6-1.json").read_text())
    (tmp_path / "x.json").write_text(json.dumps(told | {key: change(told[key])}))
    refused(1, f"x.json: {where}", "measure", "x.json", STORED / "6-1.trace")


def test_options_that_do_not_go_together(refused) -> None:  # type: ignore[no-untyped-def]
    """A movement file has its nodes and its motion; ticks of a hop are of data packets."""
    refused(2, "nodes", "make", "x", "--ns2", STORED / "three.ns2", "--nodes", 50)
    refused(2, "model", "make", "x", "--ns2", STORED / "three.ns2", "--model", "manhattan")
    refused(2, "hop: it needs traffic", "measure", STORED / "6-1.json", STORED / "6-1.trace", "--hop", 3)


def test_inputs_and_outputs_are_not_overwritten(tmp_path: Path, refused) -> None:  # type: ignore[no-untyped-def]
    """An output is no input, no other output of the same command, and no file that is there."""
    (tmp_path / "a.trace").write_bytes((STORED / "6-1.trace").read_bytes())
    refused(2, "the output is an input, too", "page", "a.trace", "-o", "a.trace", "--overwrite")
    refused(2, "r.sim", "make", "r", "--nodes", 5, "--channel-file", "r.sim")
    refused(2, "a.trace", "measure", STORED / "6-1.json", STORED / "6-1.trace", "-o", "a.trace")
    (tmp_path / "list").write_text("00 01\n")
    done = subprocess.run([str(REPOSITORY / "dev" / "oracle.py"), "capture", "list", "list"], cwd=tmp_path, capture_output=True, text=True)
    assert done.returncode == 2 and "the output is an input, too" in done.stderr and (tmp_path / "list").read_text() == "00 01\n"


def test_intervals_are_possible_and_pairs_corrected(capsys: pytest.CaptureFixture[str]) -> None:
    """No delivery above 1 and no delay below 0; p-values of many pairs are corrected, and the header says by whom."""
    words = ["summary", str(STUDIES / "ns3-proved.csv"), "--where", "nodes=20", "--where", "flows=5", "--format", "csv", "--measures"]
    assert main([*words, "delivery,delay_95"]) == 0
    for row in csv.DictReader(capsys.readouterr().out.splitlines()):
        if row["low"]:
            assert 0 <= float(row["low"]) and (row["measure"] != "delivery" or float(row["high"]) <= 1)
    assert main([*words, "delivery", "--against", "protocol=AODV"]) == 0
    rows = list(csv.DictReader(capsys.readouterr().out.splitlines()))
    assert "Holm" in rows[0]["told"] or any("Holm" in row["told"] for row in rows)
    assert main([*words, "delivery", "--interval", "student"]) == 2


def test_a_pipe_is_a_table(tmp_path: Path, capsys: pytest.CaptureFixture[str]) -> None:
    """A table that comes through a pipe is read, and one with a byte order mark."""
    text = (STUDIES / "study.csv").read_bytes()
    pipe = tmp_path / "pipe"
    os.mkfifo(pipe)
    thread = threading.Thread(target=lambda: pipe.write_bytes(text))
    thread.start()
    assert main(["summary", str(pipe), "--measures", "available"]) == 0
    thread.join()
    (tmp_path / "bom.csv").write_bytes(b"\xef\xbb\xbf" + text)
    assert main(["summary", str(tmp_path / "bom.csv"), "--measures", "available"]) == 0
    one, other = capsys.readouterr().out.split("# ", 1)[1].split(f"# {tmp_path}/bom.csv")
    assert one.partition("\n")[2] == other.partition("\n")[2]


def test_names_that_are_missing_or_empty(refused) -> None:  # type: ignore[no-untyped-def]
    """A word that is missing is no question for help, and an empty name makes no file."""
    for words in (("make",), ("measure", "a.json"), ("plot", "heights", "a", "b"), ("make", "")):
        refused(2, "tora-study", *words)


def test_a_silent_program_is_ended(tmp_path: Path, refused) -> None:  # type: ignore[no-untyped-def]
    """A program that tells its version and then says nothing is ended by the time limit."""
    silent = write_stub(tmp_path, "silent")
    (tmp_path / "x.sim").write_text("dests 1\nlink 1 2\n")
    refused(1, "not done within 0.5 seconds", "page", "x.sim", "--program", silent, "--time-limit", "0.5")


def test_a_folder_with_quotes(tmp_path: Path, capsys: pytest.CaptureFixture[str]) -> None:
    """A folder's name may have quotes, blanks and a dollar sign."""
    folder = tmp_path / "it's \"my\" $study"
    done = subprocess.run(
        [sys.executable, "-m", "tora", "sweep", str(folder), "--nodes", "5", "--seeds", "2", "--rounds", "30", "--program", str(write_stub(tmp_path))],
        capture_output=True, text=True, env=os.environ | {"PYTHONPATH": str(REPOSITORY / "python" / "src")},
    )
    assert done.returncode == 0, done.stderr
    assert (folder / "study.csv").read_text().count("\n") == 3


@pytest.mark.parametrize("corner", [-5_000.0, 9_000_000.0])
def test_pictures_are_neither_mirrored_nor_collapsed(corner: float) -> None:
    """Coordinates may be negative or large: right stays right, up stays up, and distances keep their ratio."""
    scenario = Run.read(STORED / "6-1.json", STORED / "6-1.trace").scenario
    points = np.array([[0.0, 0], [300, 0], [300, 200]])
    found = places_of(dataclasses.replace(scenario, positions=np.array([points + corner]), rounds=10, sample=10), 1)
    assert found - found[0] == pytest.approx(points / 30, abs=1e-6)


def test_what_a_node_prints_reaches_no_shell_and_makes_no_address(tmp_path: Path) -> None:
    """A next hop is two numbers and nothing behind them, and routes go to the prefixes of the configuration alone."""
    with pytest.raises(StudyError, match="which is no line of `watch`"):
        Hops().take("hop 4 2;reboot")
    (tmp_path / "1.toml").write_text(NODE)
    (tmp_path / "routes.toml").write_text(ROUTES.format(node=tmp_path / "1.toml"))
    hops, held = Hops(), read(str(tmp_path / "routes.toml"))
    assert hops.take("hop 4 2") and len(found_routes(held, hops.hops, {"eth0", "eth1"})) == 3
    assert hops.take("hop 300 2") and len(found_routes(held, hops.hops, {"eth0", "eth1"})) == 3
