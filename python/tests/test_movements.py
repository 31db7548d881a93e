"""Movement files: what is read, what is refused with its line, and that what is written is read again."""
from __future__ import annotations

import gzip
import math
import os
import pathlib
import random
from collections.abc import Callable

import numpy as np
import pytest
from conftest import STORED, refusal

from tora.bounds import TICK
from tora.motion import MODELS, Motion
from tora.movements import read_bonnmotion, read_fcd, read_ns2, write_bonnmotion, write_fcd, write_ns2
from tora.scenario import Scenario
from tora.ways import Way, position

Write = Callable[..., str]
START = "$node_(0) set X_ 1.0\n$node_(0) set Y_ 2.0\n"
MOVE = '$ns_ at 1.5 "$node_(0) setdest 10.25 20.5 3.0"'
SAME = (
    MOVE, MOVE.replace("1.5", "+1.5"), MOVE.replace("20.5", "2.05e1"), MOVE.replace("1.5", "15e-1"),
    MOVE.replace(" at", "   at"), MOVE.replace("(0)", "(000)")
)
OTHER = {
    "x" + MOVE: "no line of a setdest file", MOVE + "x": "no line of a setdest file",
    MOVE.replace("1.5", "nan"): "no line", MOVE.replace("1.5", "1_5"): "no line",
    MOVE.replace("1.5", "inf"): "no line", MOVE.replace("1.5", "1.5.1"): "no line",
    MOVE.replace('3.0"', "3.0"): "no line", MOVE.replace("(0)", "(-3)"): "no line",
    MOVE.replace("20.5", "1e9"): "a number is too large", MOVE.replace("(0)", "(9)"): "node 9 has no first position",
    MOVE.replace("10.25 20.5", "10.25"): "no line",
    MOVE + " " + MOVE: "no line", MOVE.replace(" setdest", "\nsetdest"): "no line",
    MOVE.replace("1.5", "-1.5"): "a time or a speed is below 0",
    MOVE.replace("3.0", "-3.0"): "a time or a speed is below 0", MOVE.replace("(0)", f"({'9' * 5000})"): "no line",
    MOVE.replace("(0)", f"({'9' * 21})"): "no line",
    "$node_(0) set W_ 1": "no line", "nothing": "no line", MOVE.replace("3.0", "٣"): "no line",
}
FCD = """<fcd-export>
  <timestep time="0.00"><vehicle id="a" x="1.00" y="2.00" speed="3.1"/><person id="b" x="5" y="6"/></timestep>
  <timestep time="1.00"><vehicle id="a" x="2.00" y="2.00"/><person id="b" x="5" y="7"/></timestep>
</fcd-export>
"""
TWO = [[(0.0, 1.0, 2.0), (1.0, 2.0, 2.0)], [(0.0, 5.0, 6.0), (1.0, 5.0, 7.0)]]


@pytest.mark.parametrize("line", SAME)
def test_spellings_of_moves(line: str, written: Write) -> None:
    """Moves in every spelling are the same; what foretells hop counts, comments and empty lines say nothing."""
    (way,) = read_ns2(written(f"# note\n\n{START}$ns_ at 1.5 \"$god_ set-dist 0 1 2\"\n{line}\n"))
    assert way == [(0.0, 1.0, 2.0), (1.5, 1.0, 2.0), (1.5 + math.hypot(9.25, 18.5) / 3, 10.25, 20.5)]


@pytest.mark.parametrize("line", OTHER)
def test_no_moves(line: str, written: Write) -> None:
    """Any other line is refused with its number."""
    path = written(f"{START}{line}\n{MOVE}\n")
    assert refusal(lambda: read_ns2(path)).startswith(f"{path}:3: {OTHER[line]}")


def test_moves_that_break_off(written: Write) -> None:
    """A new destination breaks off the move before it, wherever its line stands; a speed of 0 stops."""
    text = START + '$ns_ at 3 "$node_(0) setdest 4.0 0.0 0.0"\n$ns_ at 0 "$node_(0) setdest 1.0 12.0 1.0"\n'
    assert read_ns2(written(text)) == [[(0.0, 1.0, 2.0), (3.0, 1.0, 5.0)]]


def test_gaps(written: Write) -> None:
    """Nodes are 0, 1, 2 .. without a gap, each with both coordinates."""
    for text in ("$node_(1) set X_ 1\n$node_(1) set Y_ 1\n", "$node_(0) set X_ 1\n"):
        path = written(text)
        assert refusal(
            lambda: read_ns2(path)
        ) == f"{path}: nodes have to be 0, 1, 2 .. without a gap, each with X_ and Y_"


@pytest.mark.parametrize(
    ("text", "cause"),
    [("0 1 2\n0 1 1e300\n", ":2: a number is too large"), ("0 1 2\n0 nan 2\n", ":2: 3 numbers, not a multiple of 3, or one is not finite"), ("0 1 2\n0 x 2\n", ":2: a word is no number"),
     ("0.0 1.0 2.0\n0.0 1.0\n", ":2: 2 numbers, not a multiple of 3"), ("1 0 0 0 1 1\n", ":1: times go back"), (
         "", ":1: the file is empty"
     ), ("\n \n", ":1: the file is empty")],
)
def test_bonnmotion(text: str, cause: str, written: Write) -> None:
    """What no BonnMotion file has is refused with its line."""
    path = written(text)
    assert refusal(lambda: read_bonnmotion(path)).startswith(path + cause)


def test_stored(tmp_path: pathlib.Path) -> None:
    """The stored files, plain, compressed, of three coordinates and of ns-2, make the stored scenario, byte for byte.
    """
    for at, make in enumerate((
        lambda **all_: Scenario.from_bonnmotion(STORED / "three.movements", **all_),
        lambda **all_: Scenario.from_bonnmotion(STORED / "three.movements.gz", **all_),
        lambda **all_: Scenario.from_bonnmotion(STORED / "three3d.movements", coordinates=3, **all_),
        lambda **all_: Scenario.from_ns2(STORED / "three.ns2", **all_),
    )):
        scenario = make(destinations=4, flows=12, rounds=600)
        scenario.write(tmp_path / f"{at}")
        assert (tmp_path / f"{at}.sim").read_bytes() == (STORED / "three.sim").read_bytes()
        if at == 0:
            assert (tmp_path / "0.json").read_bytes() == (STORED / "three.json").read_bytes()
    few = Scenario.from_bonnmotion(STORED / "three.movements", destinations=4, flows=12, rounds=600, limit=2)
    assert "".join(f"scenario: {note}\n" for note in few.notes) == (STORED / "lost").read_text()


def test_fcd(written: Write) -> None:
    """Vehicles and persons of each time step."""
    assert read_fcd(written(FCD)) == TWO
    assert read_fcd(written(gzip.compress(FCD.encode()), "f.xml.gz")) == TWO


@pytest.mark.parametrize(
    ("old", "new", "cause"),
    [
        ('<person id="b" x="5" y="7"/>', "", ":3: the vehicle `b` is gone"),
        ('<person id="b" x="5" y="6"/>', "", ":3: the vehicle `b` is not in every time step before"),
        ('id="b" x="5" y="6"', 'id="a" x="5" y="6"', ":2: the vehicle `a` is repeated"),
        ('time="1.00"', 'time="0.00"', ":3: times go back"),
        ('x="2.00"', 'x="x"', ":3: `x` is no number"), ('x="2.00"', 'x="1e9"', ":3: `x` is no number, or too large"),
        ('x="2.00" ', "", ":3: `x` is no number"),
        ('id="a" x="2.00"', 'x="2.00"', ":3: a vehicle without an id"),
        ("<fcd-export>", "<fcd-export><vehicle/>", ":1: a vehicle without an id, or outside"),
        ("fcd-export", "other", ":1: no element of floating car data"), ("</fcd-export>", "", ": no XML: "),
        ('time="1.00"', "", ":3: `time` is no number"),
    ],
)
def test_no_fcd(old: str, new: str, cause: str, written: Write) -> None:
    """What no file of floating car data has is refused with its line."""
    path = written(FCD.replace(old, new))
    told = refusal(lambda: read_fcd(path))
    assert told.startswith(path) and cause in told


def test_absent(written: Write) -> None:
    """A vehicle that comes later, or goes, rests where that is asked for; it is never guessed."""
    path = written(FCD.replace('<person id="b" x="5" y="7"/>', "").replace("a", "a"))
    assert read_fcd(path, "rest") == [TWO[0], TWO[1][:1]]
    assert "absent: `x` is not refuse or rest" in refusal(lambda: read_fcd(path, "x"))
    path = written("<fcd-export></fcd-export>")
    assert refusal(lambda: read_fcd(path)) == f"{path}: no vehicle in a file of floating car data"


@pytest.mark.parametrize("read", [read_ns2, read_bonnmotion, read_fcd])
@pytest.mark.parametrize(
    "data",
    [
        b"", b"\xff\xfe\x00", bytes(range(256)) * 40, bytes(1000), b"hello world\n", b"[" * 100_000,
        b"9" * 5000 + b"\n", b"1e400 " * 29 + b"\n"
    ]
)
def test_spoiled(read: Callable[[str], list[Way]], data: bytes, written: Write) -> None:
    """Files in which something else stands, plain and compressed."""
    for name in ("file", "file.gz"):
        path = written(data, name)
        assert refusal(lambda: read(path)).startswith(path)


def test_cut_archive(written: Write) -> None:
    """A compressed file that is cut."""
    path = written((STORED / "three.movements.gz").read_bytes()[:-5], "cut.gz")
    assert refusal(lambda: read_bonnmotion(path)) == f"{path}: neither a text nor a compressed text"


def test_byte_order_mark(written: Write) -> None:
    """A byte order mark and ends of lines by CR LF are taken."""
    text = (STORED / "three.ns2").read_text()
    assert read_ns2(written("\ufeff" + text.replace("\n", "\r\n"))) == read_ns2(STORED / "three.ns2")


def test_how_many_nodes(written: Write) -> None:
    """Too many nodes in a movement file, and places in its name that are no number."""
    path = written("0 1 2\n" * 65)
    assert refusal(
        lambda: Scenario.from_bonnmotion(path)
    ) == f"{path}: 65 nodes; a simulated world has 2 to 64, or to 1024 where it is large"
    assert "coordinates: 4 is not 2 or 3" in refusal(lambda: Scenario.from_bonnmotion(path, coordinates=4))


@pytest.mark.parametrize("model", MODELS)
def test_round_trips(model: str, tmp_path: pathlib.Path) -> None:
    """Ways that are written are read again: exactly by BonnMotion, within a millimetre by ns-2, and within a centimetre
    at the steps by SUMO's format.
    """
    own = {"gauss-markov": {"alpha": 0.5, "mean_speed": 3.0, "speed_deviation": 1.0, "direction_deviation": 1.0, "interval": 1.0},
           "manhattan": {"blocks": 3, "acceleration": 1.0, "safety_distance": 5.0}}
    ways = MODELS[model](Motion(5, 300.0, 200.0, (1.0, 5.0), 3.0, 0.0, 60.0, own.get(model, {})), random.Random(1))
    for name in ("m", "m.gz"):
        write_bonnmotion(tmp_path / name, ways)
        assert read_bonnmotion(tmp_path / name) == ways
    write_ns2(tmp_path / "n", ways)
    write_fcd(tmp_path / "f", ways, until=60.0, step=0.5)
    read, stepped = read_ns2(tmp_path / "n"), read_fcd(tmp_path / "f")
    for way, other, steps in zip(ways, read, stepped, strict=True):
        for at in range(0, 590):
            assert math.dist(position(way, at * TICK), position(other, at * TICK)) < 0.001
        assert len(steps) == 121 and all(math.dist(position(way, time), place) < 0.01 for time, *place in steps)


def test_writing_of_a_scenario(tmp_path: pathlib.Path) -> None:
    """The ways of a scenario make the same links again; a file that exists is not replaced."""
    scenario = Scenario.waypoint(nodes=8, seed=3, rounds=200)
    write_bonnmotion(tmp_path / "m", scenario.ways())
    assert Scenario.from_bonnmotion(tmp_path / "m", rounds=200).links == scenario.links
    for write in (write_bonnmotion, write_ns2):
        assert "the output exists" in refusal(lambda write=write: write(tmp_path / "m", scenario.ways()))
    write_ns2(tmp_path / "m", scenario.ways(), overwrite=True)
    assert "the output is an input" in refusal(
        lambda: write_ns2(tmp_path / "m", scenario.ways(), inputs=[tmp_path / "m"], overwrite=True)
    )
    assert os.listdir(tmp_path) == ["m"]


@pytest.mark.parametrize("kind", ["bonnmotion", "ns2", "fcd"])
def test_motion_of_a_scenario(kind: str, tmp_path: pathlib.Path) -> None:
    """A scenario whose motion is written and read again has the same places, within a centimetre, and links."""
    scenario = Scenario.waypoint(nodes=8, seed=3, rounds=200)
    scenario.write_motion(tmp_path / "m", kind)
    make = {"bonnmotion": Scenario.from_bonnmotion, "ns2": Scenario.from_ns2, "fcd": Scenario.from_fcd}[kind]
    again = make(tmp_path / "m", rounds=200)
    assert np.abs(again.positions - scenario.positions).max() < 0.011 and again.links == scenario.links
    assert "the output exists" in refusal(lambda: scenario.write_motion(tmp_path / "m", kind))
    assert refusal(lambda: scenario.write_motion(tmp_path / "n", "other")).startswith("kind: `other` is not one of ns2")
