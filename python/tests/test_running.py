"""Runs of the program on scenarios: their files, their manifests, and that the stored traces are what it writes."""
from __future__ import annotations

import json
import os
import pathlib
import re
from collections.abc import Callable

import pytest
from conftest import RUNS, STORED, refusal

import tora
from tora import commands
from tora.oracle import agree
from tora.program import Program

Script = Callable[..., Program]
# A stand-in for the program, which writes a trace without a header and a word.
STAND_IN = """\
case $1 in --version) echo stand-in 1; exit;; esac
while [ $# -gt 1 ]; do case $1 in --trace) trace=$2;; esac; shift; done
[ -s "$1" ] || exit 1
awk '/^rounds/ { clock += $2 } END { print "1 up 1 2 1 1"; print clock " frames 1 0 0 0" }' "$1" >"$trace"
echo printed
"""


@pytest.fixture
def scenario() -> tora.Scenario:
    """A scenario whose nodes 1 and 2 have a link."""
    return tora.Scenario.waypoint(nodes=4, degree=9.0, rounds=40, seed=1)


@pytest.fixture
def stand_in(script: Script) -> Program:
    """The stand-in."""
    return script(STAND_IN)


def test_files(scenario: tora.Scenario, stand_in: Program, tmp_path: pathlib.Path) -> None:
    """A run has four files, its version and what was printed; without a prefix they stand in a folder that goes with
    it.
    """
    run = scenario.run(prefix=tmp_path / "r", program=stand_in)
    assert sorted(os.listdir(tmp_path)) == ["program", "r.json", "r.manifest.json", "r.sim", "r.trace"]
    assert (run.version, run.output, run.trace.path) == ("stand-in 1", "printed\n", f"{tmp_path}/r.trace")
    hidden = scenario.run(program=stand_in)
    folder = os.path.dirname(hidden.trace.path)
    assert sorted(os.listdir(folder)) == ["run.json", "run.manifest.json", "run.sim", "run.trace"]
    assert hidden.links().equals(run.links())
    assert run.measure().row["version"] == "stand-in 1"
    del hidden
    assert not os.path.exists(folder)


def test_outputs(scenario: tora.Scenario, stand_in: Program, tmp_path: pathlib.Path) -> None:
    """What exists is not replaced, and what can't be is refused before anything is written."""
    for given, told in (
        ({"loss": 2}, "loss: "), ({"channel_seed": 1}, "channel_seed: "),
        ({"edge_loss": 0.5, "channel_file": "c"}, "edge_loss: "), ({"until": 0}, "until: ")
    ):
        assert refusal(lambda given=given: scenario.run(prefix=tmp_path / "r", program=stand_in, **given)).startswith(
            told
        )
    (tmp_path / "r.trace").write_text("old")
    assert refusal(lambda: scenario.run(prefix=tmp_path / "r", program=stand_in)).startswith(
        f"{tmp_path}/r.trace: the output exists"
    )
    assert refusal(
        lambda: scenario.run(prefix=tmp_path / "r", program=stand_in, channel_file=tmp_path / "r.trace", overwrite=True)
    ).startswith(f"{tmp_path}/r.trace: the output is an input")
    assert sorted(os.listdir(tmp_path)) == ["program", "r.trace"]
    scenario.run(prefix=tmp_path / "r", program=stand_in, overwrite=True)
    assert (tmp_path / "r.trace").read_text() != "old"


@pytest.mark.parametrize(
    ("text", "told"),
    [
        ("case $1 in --version) echo 1; exit;; esac; echo no >&2; exit 1", "the program ends with status 1: no"),
        ("case $1 in --version) exit;; esac; sleep 60", "is not done within 1 seconds"),
        ("exit 0", "r.trace: No such file or directory"),
    ],
)
def test_failures(text: str, told: str, scenario: tora.Scenario, script: Script, tmp_path: pathlib.Path) -> None:
    """A program that fails, that says nothing, or that writes no trace leaves nothing behind."""
    program = script(text)
    told_so = refusal(lambda: scenario.run(prefix=tmp_path / "r", program=program, time_limit=1))
    assert told in told_so or "trace: No such file" in told_so
    assert sorted(os.listdir(tmp_path)) == ["program"]


def test_words(scenario: tora.Scenario, script: Script, tmp_path: pathlib.Path) -> None:
    """The program is told the times that are not its own, the channel, and that the world is large."""
    program = script(f"case $1 in sim) echo \"$*\" >{tmp_path}/words;; esac\n" + STAND_IN)
    large = tora.Scenario.waypoint(nodes=4, degree=9.0, rounds=40, times=(5, 20, 5, 8), large=True)
    large.run(loss=0.1, repeat=0.2, delay=(0, 2), channel_seed=7, notice=True, until=30, program=program)
    words = (tmp_path / "words").read_text()
    assert words.startswith(
        "sim --channel loss=0.1,repeat=0.2,delay=0-2 --seed 7 --notice --until 30 --times 5,20,5,8 --large --trace "
    )
    scenario.run(edge_loss=0.4, program=program, prefix=tmp_path / "r")
    assert re.fullmatch(r"sim --channel-file \S+/r.channel --trace \S+ \S+/r.sim\n", (tmp_path / "words").read_text())
    assert json.loads((tmp_path / "r.json").read_text())["parameters"]["edge_loss"] == 0.4
    assert (tmp_path / "r.channel").read_text().startswith("0 1 2 loss=")


def test_manifest(scenario: tora.Scenario, stand_in: Program, tmp_path: pathlib.Path) -> None:
    """A manifest tells what a run was made of; the run is made again and compared."""
    scenario.run(prefix=tmp_path / "r", program=stand_in, loss=0.1, channel_seed=3, delay=(0, 2))
    told = json.loads((tmp_path / "r.manifest.json").read_text())
    assert told["arguments"] == {"loss": 0.1, "channel_seed": 3, "delay": [0, 2]} and told["seeds"] == {
        "scenario": 1, "channel": 3
    }
    assert told["program"]["version"] == "stand-in 1" and set(told["libraries"]) >= {"numpy", "pandas", "scipy"}
    path = tmp_path / "r.manifest.json"
    assert commands.verify([path], program=stand_in.words[0]) == [
        f"{tmp_path}/r: the same trace and output, by the same program"
    ]
    (tmp_path / "r.trace").write_text((tmp_path / "r.trace").read_text() + "\n")
    assert refusal(
        lambda: commands.verify([path], program=stand_in.words[0])
    ) == f"{tmp_path}/r.trace: the trace is not that of the manifest"
    (tmp_path / "r.trace").unlink()
    commands.verify([path], program=stand_in.words[0])
    (tmp_path / "r.sim").write_text("dests 1\n")
    assert refusal(
        lambda: commands.verify([path], program=stand_in.words[0])
    ) == f"{tmp_path}/r.sim: the simulation file is not that of the manifest"


def test_another_program(scenario: tora.Scenario, stand_in: Program, script: Script, tmp_path: pathlib.Path) -> None:
    """A program with other answers is told, and so is another one with the same."""
    scenario.run(prefix=tmp_path / "r", program=stand_in)
    path = tmp_path / "r.manifest.json"
    same = script(STAND_IN.replace("stand-in 1", "stand-in 2"), "same")
    assert commands.verify([path], program=same.words[0]) == [
        f"{tmp_path}/r: the same trace and output, by another program, stand-in 2"
    ]
    other = script(STAND_IN.replace("1 up 1 2 1 1", "1 up 1 2 1 2"), "other")
    assert refusal(
        lambda: commands.verify([path], program=other.words[0])
    ) == f"{path}: the run that is made again has another trace, from line 1 on"
    other = script(STAND_IN.replace("echo printed", "echo other"), "other")
    assert refusal(
        lambda: commands.verify([path], program=other.words[0])
    ) == f"{path}: the run that is made again prints something else"


@pytest.mark.parametrize(
    ("text", "told"),
    [
        ("", ":1: Expecting value"), ("[]", ": no manifest of format 1"),
        ('{"format": 1}', ": arguments: it is missing"), ("\xff", ": no manifest"), ("[" * 100_000, ": no manifest")
    ],
)
def test_no_manifests(text: str, told: str, stand_in: Program, tmp_path: pathlib.Path) -> None:
    """What no manifest is."""
    path = tmp_path / "r.manifest.json"
    path.write_bytes(text.encode("latin-1"))
    assert refusal(lambda: commands.verify([path], program=stand_in.words[0])).startswith(f"{path}{told}")


def test_command(scenario: tora.Scenario, stand_in: Program, tmp_path: pathlib.Path) -> None:
    """The command simulates the files that stand there, and measures with the version of the manifest; a file that was
    changed is refused.
    """
    scenario.write(tmp_path / "r")
    trace = commands.run(tmp_path / "r", program=stand_in.words[0], delay=1)
    assert trace == f"{tmp_path}/r.trace"
    header, row = (line.split(",") for line in commands.measure(tmp_path / "r.json", trace).splitlines())
    assert row[header.index("version")] == "stand-in 1"
    assert refusal(lambda: commands.run(tmp_path / "r", program=stand_in.words[0])).startswith(
        f"{trace}: the output exists"
    )
    pathlib.Path(trace).write_text("40 frames 1 0 0 0\n")
    assert refusal(
        lambda: commands.measure(tmp_path / "r.json", trace)
    ) == f"{trace}: the trace is not that of the manifest beside it"
    (tmp_path / "r.sim").write_text((tmp_path / "r.sim").read_text() + "tick\n")
    assert refusal(lambda: commands.run(tmp_path / "r", program=stand_in.words[0], overwrite=True)).startswith(
        f"{tmp_path}/r.sim: it is not the simulation file"
    )


def all_old(text: str) -> str:
    """A simulation file with a line `old N` for every node."""
    lines = text.splitlines(True)
    at = next(number for number, line in enumerate(lines) if number and not line.startswith("link "))
    nodes = sorted({int(word) for line in lines[1:at] for word in line.split()[1:]})
    return "".join([*lines[:at], *(f"old {node}\n" for node in nodes), *lines[at:]])


def inside(trace: str) -> list[str]:
    """The lines of a trace without its first and its last record."""
    return [line for line in trace.splitlines() if not line.startswith("0 trace ") and " end " not in line]


@pytest.mark.parametrize("run", RUNS)
def test_stored_traces(run: str, program: Program, tmp_path: pathlib.Path) -> None:
    """The stored traces are of a simulator that was written apart: the program writes the same where every node is old,
    and else all but the datagrams; what it prints agrees with its trace."""
    wanted, text = (STORED / f"{run}.trace").read_text().splitlines(), (STORED / f"{run}.sim").read_text()
    (tmp_path / "old.sim").write_text(all_old(text))
    program.run("sim", "--trace", tmp_path / "old.trace", tmp_path / "old.sim")
    assert inside((tmp_path / "old.trace").read_text()) == wanted
    plain = program.run("sim", STORED / f"{run}.sim").output
    printed = program.run("sim", "--trace", tmp_path / "trace", STORED / f"{run}.sim").output
    assert printed == plain
    found = inside((tmp_path / "trace").read_text())
    assert [line for line in found if " frames " not in line] == [line for line in wanted if " frames " not in line]
    (tmp_path / "out").write_text(printed)
    assert agree(STORED / f"{run}.sim", tmp_path / "out", tmp_path / "trace").lines == plain.count("\n")


def test_run(program: Program, tmp_path: pathlib.Path) -> None:
    """A scenario is run over a channel, measured, and made again."""
    run = tora.Scenario.waypoint(nodes=8, speed=(1, 10), seed=2, rounds=150).run(
        loss=0.1, delay=(0, 2), channel_seed=5, notice=True, prefix=tmp_path / "r", program=program
    )
    row = run.measure(traffic=4).row
    assert (row["loss"], row["delay_most"], row["channel_seed"], row["notice"], row["rounds"]) == (
        100_000, 2, 5, 1, 150
    )
    assert len(run.routes()) > 0 and set(run.packets()["kind"]) <= {"QRY", "UPD", "CLR"}
    assert commands.verify([tmp_path / "r.manifest.json"], program=program.words[0])[0].endswith("by the same program")
    lines = (tmp_path / "r.trace").read_text().splitlines(True)
    (tmp_path / "cut").write_text("".join(lines[:-1]))
    assert refusal(
        lambda: tora.Run.read(tmp_path / "r.json", tmp_path / "cut")
    ) == f"{tmp_path}/cut:{len(lines) - 1}: the trace is cut: its last record `end` is missing"
    tora.Scenario.waypoint(nodes=8, seed=3, rounds=150).write(tmp_path / "other")
    assert refusal(lambda: tora.Run.read(tmp_path / "other.json", tmp_path / "r.trace")).startswith(
        f"{tmp_path}/r.trace:"
    )


def test_losses_by_distance(program: Program, tmp_path: pathlib.Path) -> None:
    """A run over a channel file, up to a last round."""
    run = tora.Scenario.waypoint(nodes=8, seed=3, rounds=150).run(
        edge_loss=0.4, until=100, prefix=tmp_path / "r", program=program
    )
    row = run.measure().row
    assert (row["rounds"], row["until"], row["edge_loss"]) == (100, 100, 0.4)
    assert row["channel_file"] == json.loads((tmp_path / "r.manifest.json").read_text())["inputs"]["channel_file"]
    commands.verify([tmp_path / "r.manifest.json"], program=program.words[0])
    (tmp_path / "bad").write_text("0 1 2 loss=0\n5 1 2\n")
    told = refusal(
        lambda: tora.Scenario.waypoint(nodes=4, degree=9.0, rounds=20).run(
            channel_file=tmp_path / "bad", program=program
        )
    )
    assert f"{tmp_path}/bad: line 2: " in told


def test_rest_after_a_partition(program: Program, written: Callable[..., str]) -> None:
    """A line whose destination is parted comes to rest: soon where that is noticed at once, and else once the silence is over."""
    text = "dests 3\nlink 1 2\nlink 2 3\nrounds 30\nneed 1 3\nrounds 30\npart 2 3\nrounds 200\n"
    scenario = tora.Scenario.from_simulation(written(text))
    for notice, least, most in ((True, 1, 10), (False, 40, 60)):
        row = scenario.run(notice=notice, program=program).measure().row
        assert (row["at_rest"], row["loops_at_rest"], row["dead_ends_at_rest"]) == (1, 0, 0)
        assert least <= row["rest_ticks"] <= most and 3 <= row["control_after_change"] <= 6
