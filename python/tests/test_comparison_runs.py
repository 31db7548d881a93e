"""The runs of the ns-3 comparison: their names and words, and the workflow with a stand-in for tora-compare."""
from __future__ import annotations

import csv
import hashlib
import json
import subprocess
import sys
from pathlib import Path

import pytest

from conftest import REPOSITORY
from tora import timed
from tora.cli import main
from tora.comparison_runs import parts_of, runs_of
from tora.errors import UsageError

STUB = """#!/usr/bin/env python3
import sys
words = dict(word[2:].split("=", 1) for word in sys.argv[1:])
print("protocol,nodes,speed,flows,seed,control_rate,delivery")
print(",".join([words["label"], words["nodes"], words["speed"], words["flows"], words["seed"], words.get("side", "500"), "1"]))
"""


def test_words() -> None:
    """A protocol's own words are told apart by the name before `=`, and its row has the whole as its name."""
    runs = runs_of({"protocols": "TORA:notice=1,times=20,60,5,8 AODV", "nodes": 20, "speeds": "0 1.5", "seeds": 2, "words": "--side=790"})
    assert list(runs) == [f"{name}-20-{speed}-5-{seed}" for name in ("TORA_notice_1_times_20_60_5_8", "AODV") for speed in ("0", "1.5") for seed in (1, 2)]
    assert runs["TORA_notice_1_times_20_60_5_8-20-0-5-2"] == [
        "--label=TORA:notice=1;times=20;60;5;8", "--protocol=TORA", "--notice=1", "--times=20,60,5,8", "--nodes=20", "--speed=0", "--flows=5", "--seed=2", "--side=790"]


@pytest.mark.parametrize(
    ("config", "cause"),
    [
        ({"nodes": "20 20"}, "nodes: 20 stands twice"), ({"speeds": "5 5.0"}, "speeds: 5.0 stands twice"), ({"protocols": "AODV AODV"}, "stands twice"),
        ({"protocols": "DSR"}, "`DSR` is no protocol"), ({"protocols": "TORA:notice=1;waits=1"}, "is no protocol"), ({"speeds": "fast"}, "is no number"),
        ({"seeds": 0}, "seeds: `0` is not"), ({"nodes": " "}, "it has no value"), ({"words": "--seed=30"}, "the comparison sets --seed=30"),
        ({"words": "--nodes=30"}, "the comparison sets"),
    ],
)
def test_refusals(config: dict[str, object], cause: str) -> None:
    """Values that stand twice, and words that the comparison sets."""
    with pytest.raises(UsageError, match=cause):
        parts_of(config)


def test_workflow(tmp_path: Path, capsys: pytest.CaptureFixture[str]) -> None:
    """The table has the rows in their order, and the manifest what they were made of; a second call makes nothing again."""
    pytest.importorskip("snakemake")
    compare = tmp_path / "tora-compare"
    compare.write_text(STUB)
    compare.chmod(0o755)
    words = [
        sys.executable, "-m", "snakemake", "--snakefile", str(REPOSITORY / "ns3/compare/Snakefile"), "--directory", str(tmp_path / "cmp"), "--cores", "2", "--quiet", "all",
        "--config", "protocols=AODV TORA:notice=1,waits=1", "speeds=0 5", "seeds=2", f"out={tmp_path}", "words=--side=790",
    ]
    done = subprocess.run(words, capture_output=True, text=True)
    assert done.returncode == 0, done.stderr
    with open(tmp_path / "cmp" / "compare.csv", encoding="utf-8", newline="") as source:
        rows = list(csv.DictReader(source))
    assert [(row["protocol"], row["speed"], row["seed"], row["control_rate"]) for row in rows] == [
        (protocol, speed, seed, "790") for protocol in ("AODV", "TORA:notice=1;waits=1") for speed in "05" for seed in "12"]
    told = json.loads((tmp_path / "cmp" / "manifest.json").read_text())
    assert told["program"]["sha256"]["tora-compare"] == hashlib.sha256(STUB.encode()).hexdigest() and len(told["runs"]) == 8
    with open(tmp_path / "cmp" / "times.csv", encoding="utf-8", newline="") as source:
        times = list(csv.DictReader(source))
    assert [[row[it] for it in ("protocol", "speed", "seed")] for row in times] == [[row[it] for it in ("protocol", "speed", "seed")] for row in rows]
    assert list(times[0])[-2:] == ["seconds", "megabytes"]
    before = {path: path.stat().st_mtime_ns for path in (tmp_path / "cmp" / "rows").iterdir()}
    assert subprocess.run(words, capture_output=True).returncode == 0
    assert before == {path: path.stat().st_mtime_ns for path in (tmp_path / "cmp" / "rows").iterdir()}
    assert main(["verify", str(tmp_path / "cmp"), "AODV-20-5-5-2"]) == 0
    assert "AODV-20-5-5-2: the same row" in capsys.readouterr().out
    assert main(["verify", str(tmp_path / "cmp"), "AODV-20-5-5-3"]) == 2
    compare.write_text(STUB.replace('"500"', '"501"'))
    assert main(["verify", str(tmp_path / "cmp")]) == 1
    assert "another one than that of the manifest" in capsys.readouterr().err
    again = subprocess.run([*words[:-6], "--config", "nodes=20 20", f"out={tmp_path}"], capture_output=True, text=True)
    assert again.returncode == 1 and "compare: nodes: 20 stands twice" in again.stderr


def test_what_a_program_takes_is_written(tmp_path: Path) -> None:
    """The status is the program's, and the file has two positive numbers."""
    told = tmp_path / "told.tsv"
    assert timed.main([str(told), sys.executable, "-c", "raise SystemExit(3)"]) == 3
    head, row = told.read_text().splitlines()
    assert head == "seconds\tmegabytes" and all(float(it) > 0 for it in row.split("\t"))
    assert timed.main([str(told), sys.executable, "-c", "import os; os.kill(os.getpid(), 15)"]) == 128 + 15
