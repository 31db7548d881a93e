"""A simulated world by the shared library, and 200 random files of lines through it and through `tora drive`."""
from __future__ import annotations

import ctypes
import random
import subprocess

import pytest

import tora
from tora import lib
from tora.driven import FaultyLineError, Limits, RefusedLineError, World
from tora.lib import ClosedError, Erasure, LibraryError, NoLibraryError
from tora.program import Program
from tora.router import Times

CALLS = "send-lost send-gone receive read write sync".split()
LONGEST_LINE = 4096


@pytest.fixture(autouse=True)
def library() -> None:
    """Skips a test where the library is not built."""
    try:
        lib.library()
    except NoLibraryError:
        pytest.skip("the library tora is not built (./tora build --lib), and TORA_LIBRARY names none")


def test_first_route() -> None:
    with tora.World() as world:
        for line in "dests 3", "link 1 2", "link 2 3", "need 1 3":
            assert world.say(line) == []
        told = world.say("rounds 8")
        assert told[-2:] == ["hop 1 3 2", "hop 2 3 3"] and told[0].startswith("sent 1 2 1 ")
        assert world.answer("walk 1 3") == "walk 1,2,3\nok\n"
        with pytest.raises(RefusedLineError) as refused:
            world.say("deliver 0")
        assert (refused.value.number, refused.value.answer, refused.value.code) == (3, "refused 3", 0)
        with pytest.raises(FaultyLineError) as fault:
            world.say("deliver x")
        assert (fault.value.number, fault.value.cause) == (8, "it is no line that may stand here")
    with pytest.raises(ClosedError):
        world.say("rest")


def test_worlds_of_each_size() -> None:
    lines = ["dests 1", *(f"link 1 {node}" for node in range(2, 35)), "step"]
    with World() as small, World(Limits.LARGE, Erasure.REMEMBERED, Times(hello=3)) as large:
        told = [[world.answer(line) for line in lines][-1] for world in (small, large)]
        assert told[0] == "fault 35 the links and destinations are refused\n" and told[1].count("sent") == 4 * 33
        assert len(large.answer("bytes 1")) > 40 and large.answer("rounds 9").endswith("ok\n")


def test_worlds_that_are_refused() -> None:
    world = lib._Handle()
    times, library = lib._Times(), lib.library()
    assert [library.tora_world_new(world, *it, times) for it in ((2, 0), (0, 2), (2**32 - 1, 0))] == [7, 7, 7]
    with pytest.raises(ValueError):
        World(times=Times(hello=-1))


def test_a_handle_of_null_is_answered() -> None:
    library, handle, size = lib.library(), lib._Handle(), ctypes.c_size_t(7)
    calls = [
        library.tora_world_line(handle, None, 0, size), library.tora_world_answer(handle, None, 0, size),
    ]
    library.tora_world_free(handle)
    assert calls == [lib.NULL] * len(calls) and size.value == 7


def test_a_short_buffer_loses_no_answer() -> None:
    with World() as world:
        size, room = ctypes.c_size_t(), (ctypes.c_uint8 * 8)()
        assert world._call("answer", room, 8, size) == lib.OK and size.value == 0
        line = lib.spelt(b"dests 2")
        assert world._call("line", line, 7, size) == lib.OK and size.value == 3
        assert world._call("answer", room, 2, size) == lib.ROOM and size.value == 3 and bytes(room) == bytes(8)
        assert world._call("answer", room, 8, size) == lib.OK and bytes(room) == b"ok\n" + bytes(5)
    with pytest.raises(LibraryError):
        world.line(b"link 1 2")


def event_line(draw: random.Random, nodes: int, destinations: list[int]) -> bytes:
    """A random line behind the links."""
    n, k, d = draw.randint(1, nodes), draw.randint(1, nodes + 1), draw.choice([*destinations, 9])
    number = draw.choice([draw.randint(0, 9), draw.randint(0, 40), draw.randint(0, 400)])
    pair = f"{n} {k}"
    return draw.choice([
        "step", "step", "step", "step", f"deliver {number}", f"deliver {number}", f"deliver {number}",
        f"deliver {draw.randint(1, 12)}", f"need {n} {d}", f"need {n} {d}", f"rounds {draw.choice([0, 1, 2, 12])}",
        "needs", f"near {pair}", f"far {pair}", f"notice {pair}", f"bytes {number}", f"forget {number // 8}",
        f"take {pair} {draw.randbytes(draw.choice([0, 1, 28])).hex()}", f"heights {d}", f"exact {d}", f"walk {n} {d}",
        "rest", f"part {pair}", f"mend {pair}", "tick", f"open {pair}", f"pull {pair}", f"transmit {pair}",
        f"pump {pair}", f"turn {n}", f"arm {n} {draw.choice(CALLS)}", f"restart {n} -",
        f"restart {n} {draw.randbytes(16).hex()}", f"sent {pair} 1 {number}", f"taken {pair} {number} 1",
        "link 1 2", "old 1", "dests 1", "", "step ", "bytes", "rounds 10001", "\N{GREEK SMALL LETTER TAU}",
        "x" * draw.choice([LONGEST_LINE - 1, LONGEST_LINE, LONGEST_LINE + 1]),
    ]).encode()


def drive_file(draw: random.Random) -> list[bytes]:
    """The lines of a random drive."""
    nodes = draw.randint(2, 6)
    destinations = draw.sample(range(1, nodes + 1), draw.randint(1, min(nodes, 3)))
    pairs = [(a, b) for a in range(1, nodes + 1) for b in range(a + 1, nodes + 1)]
    links = draw.sample(pairs, draw.randint(1, len(pairs)))
    lines = [draw.choice(["", "step", "dests"])] * draw.choice([0, 0, 0, 1])
    lines += [f"dests {','.join(map(str, destinations))}", *(f"link {a} {b}" for a, b in links)]
    lines += draw.choice([[], [], [], ["link 1 1"], ["old 1", f"erasure {links[0][0]} remembered"], ["erasure 1 no"]])
    return [it.encode() for it in lines] + [event_line(draw, nodes, destinations) for _ in range(draw.randint(5, 90))]


@pytest.mark.parametrize("erasure", list(Erasure))
def test_random_drives(program: Program, erasure: Erasure) -> None:
    draw = random.Random(f"drive {erasure}")
    kinds = set()
    for _ in range(100):
        lines = drive_file(draw)
        limits, times = draw.choice(list(Limits)), draw.choice([Times(), Times(2, 7, 1, 3)])
        words = [*program.words, "drive", "--erasure", erasure.name.lower(), *["--large"] * limits]
        words += ["--times", "2,7,1,3"] * (times.hello == 2)
        ran = subprocess.run(words, input=b"".join(line + b"\n" for line in lines), capture_output=True, check=True)
        with World(limits, erasure, times) as world:
            told = b"".join(world.line(line) for line in lines)
        assert b"tora drive 1\n" + told == ran.stdout, b"\n".join(lines)
        kinds |= {b"".join(it.split()[: 1 + it.startswith(b"refused")]) for it in told.splitlines()}
    wanted = b"ok sent hop refused2 refused3 refused4 fault need bytes node exact walk rest count"
    assert set(wanted.split()) <= kinds
