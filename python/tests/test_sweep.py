"""A study: its runs, what is refused before any of them, and what its folder has."""
from __future__ import annotations

import csv
import hashlib
import json
from pathlib import Path

import pytest

from study_stub import write_stub
from tora.cli import main
from tora.study import Study

SMALL = ["--rounds", "30", "--settle", "0"]


def sweep(folder: Path, *words: str, program: Path | None = None) -> int:
    """The exit status of a sweep of two sizes by a stub."""
    stub = program or write_stub(folder.parent)
    return main(["sweep", str(folder), "--nodes", "5,6", "--jobs", "2", "--program", str(stub), *SMALL, *words])


def rows_of(folder: Path) -> list[dict[str, str]]:
    """The rows of a study."""
    with open(folder / "study.csv", encoding="utf-8", newline="") as source:
        return list(csv.DictReader(source))


def test_runs_stand_in_order() -> None:
    """Sizes, then what varies, then seeds; every value with every other."""
    study = Study([5, 8], 2, {"pause": [0.0, 9.0], "times": [(10, 50, 5, 8), (5, 20, 5, 8)]}, {"rounds": 30})
    runs = study.runs()
    assert len(runs) == study.count() == 16
    assert [run.name for run in runs[:3]] == ["5-1-pause=0-times=10:50:5:8", "5-2-pause=0-times=10:50:5:8", "5-1-pause=0-times=5:20:5:8"]
    assert runs[2].options == {"nodes": 5, "rounds": 30, "pause": 0.0, "times": (5, 20, 5, 8), "seed": 1}


@pytest.mark.parametrize(
    ("words", "cause"),
    [
        (["--nodes", "10,10"], "`10` is repeated"),
        (["--nodes", "10,010"], "10 is repeated"),
        (["--nodes", "10", "--nodes", "20"], "--nodes is repeated"),
        (["--vary", "speed=1-3,1-3"], "`1-3` is repeated"),
        (["--vary", "speed=1-3,1.0-3.00"], "`1.0-3.00` is repeated"),
        (["--vary", "pause=0", "--vary", "pause=9"], "pause is repeated"),
        (["--vary", "speed=1-3,1-9", "--speed", "1-5"], "--speed: it varies"),
        (["--seed", "30"], "unrecognized arguments: --seed 30"),
        (["--vary", "seed=1,2"], "an option that may vary"),
        (["--vary", "nodes=5,6"], "an option that may vary"),
        (["--vary", "heights=5,6"], "an option that may vary"),
        (["--vary", "speed"], "an option that may vary"),
        (["--vary", "speed=3"], "not of the form 1-3"),
        (["--vary", "speed=9-1"], "speed"),
        (["--vary", "times=1"], "not four numbers"),
        (["--speed", "1-3", "--speed", "1-4"], "--speed is repeated"),
        (["--nodes", "65"], "--nodes: 65 is not 2 to 64"),
        (["--nodes", "1"], "--nodes: 1 is not 2 to 64"),
        (["--nodes", ""], "a name is empty"),
        (["--nodes", "x"], "`x` is no whole number"),
        (["--pause", "x"], "`x` is no number"),
        (["--alpha", "0.5"], "alpha"),
        (["--hop", "3"], "hop: it needs traffic"),
        (["--seeds", "0"], "not 1 or more"),
        (["--seeds", "1000000", "--vary", "pause=1,2"], "at most 1000000"),
        (["--channel-seed", "3"], "it needs a channel"),
        (["--loss", "1.5"], "--loss: 1.5 is not a number from 0 to 1"),
        (["--limit", "33"], "--limit: 33 is not 1 to 32"),
        (["--ns2", "x", "--nodes", "5"], "a movement file says how many nodes there are"),
        (["--spee", "1-3"], "unrecognized arguments"),
        (["--batches", "2"], "--batches: it needs --profile"),
    ],
)
def test_refusals(tmp_path: Path, capsys: pytest.CaptureFixture[str], words: list[str], cause: str) -> None:
    """Each is refused in one line, with status 2, and nothing is written."""
    more = [*([] if "--nodes" in words else ["--nodes", "5"]), *([] if "--seeds" in words else ["--seeds", "1"])]
    assert main(["sweep", str(tmp_path / "study"), *more, *words]) == 2
    told = capsys.readouterr().err
    assert cause in told and told.count("\n") == 1
    assert not (tmp_path / "study").exists()


def test_a_study(tmp_path: Path, capsys: pytest.CaptureFixture[str]) -> None:
    """Its folder, whose name has quotes and blanks, has the rows of all runs, the manifest, the summary, the picture and pages."""
    folder = tmp_path / "a 'study' of \"mine\""
    assert sweep(folder, "--seeds", "2", "--vary", "speed=1-3,1-10", "--traffic", "4", "--page", "--keep") == 0
    rows = rows_of(folder)
    assert [(row["nodes"], row["speed_most"], row["seed"]) for row in rows] == [
        (nodes, speed, seed) for nodes in "56" for speed in ("3.0", "10.0") for seed in "12"]
    assert all(row["sent"] and row["version"] == "stub 1" for row in rows)
    told = json.loads((folder / "manifest.json").read_text())
    assert told["table"] == hashlib.sha256((folder / "study.csv").read_bytes()).hexdigest()
    assert list(told["runs"]) == [run.name for run in Study.read(folder).runs()] and told["seeds"] == [1, 2]
    for name, run in told["runs"].items():
        for what, end in (("simulation", "sim"), ("trace", "trace")):
            assert run["sha256"][what] == hashlib.sha256((folder / "runs" / f"{name}.{end}").read_bytes()).hexdigest()
    assert set(told["program"]["sha256"].values()) == {hashlib.sha256((tmp_path / "stub").read_bytes()).hexdigest()}
    assert {"numpy", "pandas", "scipy", "matplotlib"} <= {name for name, value in told["libraries"].items() if value}
    assert (folder / "study.png").read_bytes()[:4] == b"\x89PNG" and "groups by" in (folder / "summary.txt").read_text()
    index = (folder / "index.html").read_text()
    assert index.count('<a href="runs/') == 8 and "runs/5-1-speed%3D1-3.html" in index
    capsys.readouterr()
    assert main(["verify", str(folder), "6-2-speed=1-10"]) == 0
    assert "6-2-speed=1-10: the same simulation, printed, trace and row" in capsys.readouterr().out


def test_a_sweep_goes_on(tmp_path: Path, capsys: pytest.CaptureFixture[str]) -> None:
    """A run that fails is told and leaves no table; the same command makes what is missing, and nothing again."""
    folder, stub = tmp_path / "study", write_stub(tmp_path, "failing")
    assert sweep(folder, "--seeds", "4", program=stub) == 1
    told = capsys.readouterr().err
    assert "has no row" in told and "status 3: the stub does not like this file" in told
    made = {path.name: path.stat().st_mtime_ns for path in (folder / "rows").iterdir()}
    assert 0 < len(made) < 8 and not (folder / "study.csv").exists()
    stub.write_text(stub.read_text().replace('"failing" in', '"never" in'))  # another program of the same name
    assert sweep(folder, "--seeds", "4", program=stub) == 1
    assert "another one than that of the study's first runs" in capsys.readouterr().err
    program = json.loads((folder / "program.json").read_text())
    program["sha256"] = {"failing": hashlib.sha256(stub.read_bytes()).hexdigest()}
    (folder / "program.json").write_text(json.dumps(program))
    assert sweep(folder, "--seeds", "4", program=stub) == 0
    assert {name: (folder / "rows" / name).stat().st_mtime_ns for name in made} == made
    assert len(rows_of(folder)) == 8
    finished = {name: (folder / name).stat().st_mtime_ns for name in ("study.csv", "manifest.json", "summary.txt")}
    assert sweep(folder, "--seeds", "4", program=stub) == 0
    assert {name: (folder / name).stat().st_mtime_ns for name in finished} == finished
    capsys.readouterr()
    assert sweep(folder, "--seeds", "5", program=stub) == 1
    assert "study.json: the folder holds another study" in capsys.readouterr().err


def test_a_folder_that_is_in_use(tmp_path: Path, capsys: pytest.CaptureFixture[str]) -> None:
    """A folder with other files is no place for a study; a file is none either."""
    (tmp_path / "notes").mkdir()
    (tmp_path / "notes" / "text").write_text("mine")
    assert sweep(tmp_path / "notes", "--seeds", "1") == 1
    assert "is not empty, and holds no study" in capsys.readouterr().err
    assert [path.name for path in (tmp_path / "notes").iterdir()] == ["text"]
    (tmp_path / "file").write_text("mine")
    assert sweep(tmp_path / "file", "--seeds", "1") == 1
    assert (tmp_path / "file").read_text() == "mine"


def test_a_silent_program(tmp_path: Path, capsys: pytest.CaptureFixture[str]) -> None:
    """It is not waited for without end."""
    stub = write_stub(tmp_path, "silent")
    assert sweep(tmp_path / "study", "--seeds", "1", "--time-limit", "0.5", program=stub) == 1
    assert "not done within 0.5 seconds" in capsys.readouterr().err


def test_verify_tells_what_differs(tmp_path: Path, capsys: pytest.CaptureFixture[str]) -> None:
    """A table, a manifest or a program that is another one."""
    folder = tmp_path / "study"
    assert sweep(folder, "--seeds", "1") == 0
    table, manifest = (folder / "study.csv").read_text(), (folder / "manifest.json").read_text()
    capsys.readouterr()
    (folder / "study.csv").write_text(table.replace("\n5,1,30,", "\n5,1,31,"))
    assert main(["verify", str(folder)]) == 1
    assert "study.csv: it is not the table of the manifest" in capsys.readouterr().err
    (folder / "study.csv").write_text(table)
    told = json.loads(manifest)
    digest = told["runs"]["5-1"]["sha256"]["trace"]
    (folder / "manifest.json").write_text(manifest.replace(digest, digest[::-1]))
    assert main(["verify", str(folder)]) == 1
    assert "5-1: the run that is made again has another trace" in capsys.readouterr().err
    (folder / "manifest.json").write_text(manifest)
    assert main(["verify", str(folder), "--program", str(write_stub(tmp_path, "failing"))]) == 1
    assert "the program is another one than that of the manifest" in capsys.readouterr().err
    assert main(["verify", str(folder), "7-1"]) == 2
    assert main(["verify", str(folder), "--all"]) == 0
    assert capsys.readouterr().out.count("the same simulation") == 2
