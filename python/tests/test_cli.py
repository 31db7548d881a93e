"""The command tora-study: its words, what help says, and what is refused in one line."""
from __future__ import annotations

import csv
import os
import statistics
import subprocess
import sys
from pathlib import Path

import pytest

from conftest import REPOSITORY, STORED
from tora import description
from tora.cli import main
from tora.program import Program

WORDS = ("make", "run", "sweep", "storms", "measure", "summary", "plot", "page", "verify")
PROVED = str(REPOSITORY / "docs/studies/ns3-proved.csv")
STUDY = str(REPOSITORY / "docs/studies/study.csv")


def told(capsys: pytest.CaptureFixture[str], *words: str) -> tuple[int, str, str]:
    """The exit status of words, and what they print on both outputs."""
    status = main(words)
    found = capsys.readouterr()
    return status, found.out, found.err


@pytest.mark.parametrize(
    "words",
    [(), ("make",), ("run",), ("sweep",), ("sweep", "x"), ("measure",), ("measure", "a.json"), ("summary",), ("plot",), ("plot", "by"), ("plot", "heights", "a", "b"),
     ("plot", "by", "a.csv"), ("verify",), ("page",), ("nothing",), ("make", ""), ("make", "x", "--nothing"), ("make", "x", "--nodes"), ("run", "x", "--loss", "much")],
)
def test_usage(capsys: pytest.CaptureFixture[str], tmp_path: Path, monkeypatch: pytest.MonkeyPatch, words: tuple[str, ...]) -> None:
    """A word that is missing, is none, or is empty: status 2, one line, nothing written."""
    monkeypatch.chdir(tmp_path)
    status, out, err = told(capsys, *words)
    assert (status, out) == (2, "") and err.startswith("tora-study") and err.count("\n") == 1
    assert not list(tmp_path.iterdir())


@pytest.mark.parametrize(("word", "parts"), [
    ("make", ["m/s", "metres", "2 to 64", "rounds of 100 ms"]), ("run", ["0 to 1", "rounds of 100 ms", "seconds"]), ("sweep", ["1000000 runs", "--vary", "2 to 64"]),
    ("storms", ["rounds of 100 ms", "3 to 8"]), ("measure", ["ticks of 100 ms", "above 0"]), ("summary", ["--pool", "95 %", "Holm"]), ("plot by", [".svg"]), ("plot heights", ["--break"]), ("page", ["metres"]),
    ("verify", ["--all"]),
])
def test_help(capsys: pytest.CaptureFixture[str], word: str, parts: list[str]) -> None:
    """Help names units, bounds and exit statuses, with status 0."""
    status, out, _ = told(capsys, *word.split(), "--help")
    text = " ".join(out.split())
    assert status == 0 and "Exit status: 0" in text
    for part in parts:
        assert part in text


def test_module() -> None:
    """`python -m tora` is the same command, and so is the script of the repository."""
    for command in ([sys.executable, "-m", "tora"], [sys.executable, str(REPOSITORY / "python/tora-study")]):
        done = subprocess.run([*command, "--help"], capture_output=True, text=True, check=True, env=os.environ | {"PYTHONPATH": str(REPOSITORY / "python/src")})
        assert all(word in done.stdout for word in WORDS)


@pytest.mark.parametrize(
    ("words", "cause"),
    [
        (["summary", PROVED, "--measures", "colour"], "there is no column `colour`"),
        (["summary", str(REPOSITORY / "docs/studies/ns3.csv"), "--report", "losses", "--where", "protocol=AODV"], "there is no column `lost_radio`"),
        (["summary", PROVED, "--report", "runs"], "--report runs: the table has several values of nodes"),
        (["summary", STUDY, "--report", "runs"], "no table of the ns-3 comparison"),
        (["summary", PROVED, "--against", "protocol=DSR"], "no run has protocol=DSR"),
        (["summary", PROVED, "--interval", "order"], "of a mean the intervals are bca and student"),
        (["summary", PROVED, "--measures", "delivery", "--interval", "student"], "an end of delivery is beyond what is possible"),
        (["summary", PROVED, "--ratio"], "--ratio: it needs --against"),
        (["summary", PROVED, "--statistic", "mode"], "`mode` is not mean, median or a quantile"),
        (["summary", PROVED, "--where", "nodes=20", "--where", "nodes=50"], "nodes is repeated"),
        (["summary", PROVED, "--pool", "nodes,nodes"], "`nodes` is repeated"),
        (["summary", PROVED, "--report", "runs", "--against", "protocol=AODV"], "--against: it cannot be combined with --report"),
        (["summary", STUDY, "-o", STUDY, "--overwrite"], "the output is an input, too"),
        (["plot", "by", STUDY, "-o", STUDY + ".txt"], "a picture ends in .png, .svg, .pdf"),
        (["plot", "by", STUDY, "-o", "x.png", "-o", "y.png"], "is repeated"),
        (["page", "--read", "x", "y"], "--read: it takes no other input or option"),
        (["page", "--read", "x", "--place", "y"], "--read: it takes no other input or option"),
        (["summary", PROVED, "--tora", "AODV"], "--tora: it needs --report"),
        (["summary", PROVED, "--where", "nodes=20", "--where", "flows=5", "--report", "runs", "--tora", "AODV"], "--tora: it needs --report aims"),
        (["verify", str(STORED), "6-1", "--all"], "--all: it cannot be combined with names of runs"),
        (["plot", "heights", str(STORED / "7-9.json"), str(STORED / "7-9.trace"), "1", "--list", "-o", "x"], "--output: it cannot be combined with --list"),
        (["page", "a.json", "b.trace", "--loss", "0.1"], "--loss: it needs a simulation file that is run now"),
        (["verify", "x.manifest.json", "--all"], "--all: it is of a study"),
        (["plot", "heights", str(STORED / "7-9.json"), str(STORED / "7-9.trace"), "1"], "--output: it is needed"),
        (["plot", "heights", str(STORED / "7-9.json"), str(STORED / "7-9.trace"), "1", "-o", "x", "--rounds", "1,x"], "`1,x` are no rounds"),
        (["measure", str(STORED / "7-9.json"), str(STORED / "7-9.trace"), "--hop", "3"], "hop: it needs traffic"),
    ],
)
def test_refusals(capsys: pytest.CaptureFixture[str], tmp_path: Path, monkeypatch: pytest.MonkeyPatch, words: list[str], cause: str) -> None:
    """In one line with status 2, and nothing is written."""
    monkeypatch.chdir(tmp_path)
    status, out, err = told(capsys, *words)
    assert (status, out) == (2, "") and cause in err and err.count("\n") == 1
    assert not list(tmp_path.iterdir())


def test_files_that_are_not_there(capsys: pytest.CaptureFixture[str], tmp_path: Path) -> None:
    """Status 1 with the name of the file; a folder is no table."""
    for words in (["summary", "/none/x.csv"], ["measure", "/none/x.json", "/none/x.trace"], ["plot", "by", "/none/x.csv", "-o", str(tmp_path / "x.png")], ["page", "/none/x.trace", "-o", str(tmp_path / "x")]):
        status, _, err = told(capsys, *words)
        assert status == 1 and "/none/x" in err and "No such file" in err and err.count("\n") == 1
    status, _, err = told(capsys, "summary", str(tmp_path))
    assert status == 1 and "Is a directory" in err


def test_missing_package(capsys: pytest.CaptureFixture[str], tmp_path: Path, monkeypatch: pytest.MonkeyPatch) -> None:
    """A Python package that is not installed is named, with its Debian package."""
    monkeypatch.setitem(sys.modules, "jsonschema", None)
    description.validator.cache_clear()
    (tmp_path / "one.json").write_text("{}\n")
    (tmp_path / "one.trace").write_text("")
    status, _, err = told(capsys, "measure", str(tmp_path / "one.json"), str(tmp_path / "one.trace"))
    assert (status, err) == (1, "tora-study measure: the Python package jsonschema is missing (Debian: python3-jsonschema)\n")


def test_summary_of_a_stored_study(capsys: pytest.CaptureFixture[str], tmp_path: Path) -> None:
    """As CSV, in a file, with the means of the standard library."""
    path = tmp_path / "summary.csv"
    assert told(capsys, "summary", STUDY, "--measures", "available", "--format", "csv", "-o", str(path)) == (0, "", "")
    with open(STUDY, encoding="ascii", newline="") as source:
        rows = list(csv.DictReader(source))
    with open(path, encoding="utf-8", newline="") as source:
        for row in csv.DictReader(source):
            values = [float(it["available"]) for it in rows if it["nodes"] == row["nodes"]]
            assert float(row["value"]) == pytest.approx(statistics.fmean(values)) and int(row["runs"]) == len(values) == 20
            assert min(values) <= float(row["low"]) < float(row["value"]) < float(row["high"]) <= max(values)
    assert told(capsys, "summary", STUDY, "-o", str(path))[0] == 2


def test_reports_of_the_comparison(capsys: pytest.CaptureFixture[str]) -> None:
    """The means and sums of docs/studies/ns-3.md, which another program worked out; intervals are BCa's now."""
    where = ["--where", "nodes=50", "--where", "flows=10"]
    runs = told(capsys, "summary", PROVED, *where, "--report", "runs")[1]
    assert "| AODV | 0 m/s | 20 | 0.990 [" in runs and "| TORA:notice=1,waits=1 | 20 m/s | 20 | 0.898 [" in runs and "scipy.stats.bootstrap" in runs
    aims = told(capsys, "summary", PROVED, *where, "--report", "aims", "--tora", "TORA:notice=1,waits=1")[1]
    assert "| TORA:notice=1,waits=1 | 20 m/s | 20 | -0.64 [" in aims and "] | open | 1.19 [" in aims and "| mean of the 5 speeds | 20 | 2.28 [" in aims
    losses = told(capsys, "summary", PROVED, *where, "--report", "losses")[1]
    assert "| the radio gave it up | 14047 | 37571 | 61765 | 5512 |" in losses
    assert "| of all that were sent | 26887 of 478390 in 100 runs | 48235 of 478390 in 100 runs |" in losses


def test_heights(capsys: pytest.CaptureFixture[str], tmp_path: Path) -> None:
    """Pictures around a break, and the list of breaks."""
    run = [str(STORED / "7-9.json"), str(STORED / "7-9.trace"), "1"]
    assert told(capsys, "plot", "heights", *run, "--list")[1] == (STORED / "breaks").read_text()
    assert told(capsys, "plot", "heights", *run, "--break", "3", "-o", str(tmp_path / "b"))[0] == 0
    assert sorted(path.name for path in tmp_path.iterdir()) == ["b-120.png", "b-121.png", "b-161.png"]


def test_loops(capsys: pytest.CaptureFixture[str]) -> None:
    """The loops of the stored run, one a line."""
    status, out, _ = told(capsys, "measure", str(STORED / "7-9.json"), str(STORED / "7-9.trace"), "--loops")
    assert status == 0 and "7-9 " + out == (STORED / "loops").read_text()


def test_one_run_step_by_step(capsys: pytest.CaptureFixture[str], tmp_path: Path, program: Program, monkeypatch: pytest.MonkeyPatch) -> None:
    """make, run, measure, page and verify, with the real program; the same seed makes the same files."""
    monkeypatch.setenv("TORA", " ".join(program.words))
    one, other = str(tmp_path / "one"), str(tmp_path / "other")
    options = ["--nodes", "6", "--seed", "3", "--rounds", "60", "--settle", "0"]
    for prefix in (one, other):
        assert told(capsys, "make", prefix, *options)[0] == 0
        assert told(capsys, "run", prefix, "--loss", "0.1", "--channel-seed", "5")[0] == 0
    for end in ("sim", "json", "trace"):
        assert Path(f"{one}.{end}").read_bytes() == Path(f"{other}.{end}").read_bytes()
    rows = list(csv.DictReader(told(capsys, "measure", f"{one}.json", f"{one}.trace", "--traffic", "4")[1].splitlines()))
    assert (rows[0]["nodes"], rows[0]["seed"], rows[0]["rounds"], rows[0]["loss"], rows[0]["channel_seed"]) == ("6", "3", "60", "100000", "5")
    assert told(capsys, "page", f"{one}.json", f"{one}.trace", "-o", f"{one}.html")[0] == 0
    assert told(capsys, "verify", f"{one}.manifest.json")[0] == 0
    assert told(capsys, "make", one, *options)[0] == 2
    assert told(capsys, "page", f"{one}.sim", "--notice", "-o", f"{one}-now.html")[0] == 0
