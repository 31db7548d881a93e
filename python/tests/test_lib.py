"""The rules of one node by the shared library, and 1,000 random files of the program's replay through it."""
from __future__ import annotations

import ctypes
import importlib
import os
import pathlib
import random
import re
import shutil
import subprocess
import sys
from typing import Any

import pytest

from tora import lib
from tora.core import Core
from tora.lib import ClosedError, Erasure, Height, LibraryError, NoLibraryError, PacketError, RefusedError
from tora.program import Program

EXAMPLES = pathlib.Path(__file__).parents[2] / "examples"
LINKS = [(1, 2), (1, 3), (1, 4), (2, 3)]  # of the order that goes on for ever
QUERY = bytes.fromhex("0101000000000004")


@pytest.fixture(autouse=True)
def library(request: pytest.FixtureRequest) -> None:
    """Skips a test of the library where it is not built."""
    if "place" in request.node.name:
        return
    try:
        lib.library()
    except NoLibraryError:
        pytest.skip("the library tora is not built (./tora build --lib), and TORA_LIBRARY names none")


def update(destination: int, tau: int, oid: int, r: int, delta: int, node: int) -> bytes:
    """The bytes of an update."""
    parts = (destination, 4), (tau, 8), (oid, 4), (r, 1), (0, 3), (delta % 2**32, 4), (node, 4)
    return bytes([1, 2, 0, 0]) + b"".join(number.to_bytes(size, "big") for number, size in parts)


def test_first_route() -> None:
    with Core(3, [2, 4], [4]) as core:
        assert core.link_up(2, now=1) == [] and core.link_up(4, now=1) == []
        assert core.height(4) is None and core.entry(4, 4) == Height(0, 0, 0, 0, 4)
        sent = core.packet(2, QUERY, now=2)
        assert sent == core.sent() == [update(4, 0, 0, 0, 1, 3)]
        assert core.height(4) == (0, 0, 0, 1, 3) and str(core.height(4)) == "(0,0,0,1,3)"
        assert core.next_hop(4) == 4 and not core.flag(4) and core.is_up(2) and not core.is_up(9)
        assert core.show() == "to 4 height (0,0,0,1,3) flag 0 hop 4\nvia 2 - none\nvia 4 (0,0,0,0,4) down\n"
    with pytest.raises(ClosedError):
        core.height(4)


def test_clones_go_their_own_ways() -> None:
    with Core(1, range(2, 200), range(1, 65), Erasure.REMEMBERED) as core:
        core.link_up(2, now=1)
        core.need(7, now=1)
        second = core.clone()
        assert second.show() == core.show() and second.sent() == core.sent() and len(core.show()) > 512
        second.link_down(2, now=2)
        assert core.is_up(2) and not second.is_up(2)
    second.close()
    second.close()


@pytest.mark.parametrize(
    ("me", "neighbours", "destinations", "code"),
    [
        (0, [1], [1], 6), (1, [0], [1], 6), (1, [2], [0], 6), (1, range(2, 258), [1], 2), (1, [2], range(1, 66), 2),
        (1, [2, 2], [1], 3), (1, [1], [1], 4),
    ],
)
def test_cores_that_are_refused(me: int, neighbours: list[int], destinations: list[int], code: int) -> None:
    with pytest.raises(LibraryError) as caught:
        Core(me, neighbours, destinations)
    assert caught.value.code == code


def test_inputs_that_are_refused() -> None:
    with Core(3, [2], [4]) as core:
        core.link_up(2, now=1)
        shown = core.show()
        for code, call in (
            (11, lambda: core.link_up(9, now=1)),
            (12, lambda: core.link_up(2, now=1)),
            (13, lambda: Core(3, [2], [4]).link_down(2, now=1)),
            (14, lambda: core.packet(2, update(4, 0, 0, 0, 1, 5), now=1)),
            (15, lambda: core.need(5, now=1)),
        ):
            with pytest.raises(RefusedError) as caught:
                call()
            assert caught.value.code == code and str(caught.value) == lib.WORDS[code]
        for wrong in (b"", QUERY[:-1], QUERY + b"\0", b"\2" + QUERY[1:]):
            with pytest.raises(PacketError):
                core.packet(2, wrong, now=1)
        with pytest.raises(LibraryError):
            core.height(5)
        for number in (-1, 2**32):
            with pytest.raises(ValueError):
                core.need(number, now=1)
        assert core.show() == shown


def test_versions() -> None:
    assert lib.version() == (EXAMPLES.parent / "VERSION").read_text().strip()


def test_place_without_a_library(tmp_path: pathlib.Path, monkeypatch: pytest.MonkeyPatch) -> None:
    monkeypatch.setenv("TORA_LIBRARY", str(tmp_path / "none.so"))
    with pytest.raises(NoLibraryError, match="none.so"):
        Core(1, [2], [2])


def test_two_libraries_in_one_process(tmp_path: pathlib.Path, monkeypatch: pytest.MonkeyPatch) -> None:
    first = Core(1, [2], [2])
    copy = shutil.copyfile(lib.library()._name, tmp_path / "second.so")
    monkeypatch.setenv("TORA_LIBRARY", str(copy))
    with first, Core(1, [2], [2]) as second:
        assert first._library is not second._library
        first.link_up(2, now=1)
        assert first.is_up(2) and not second.is_up(2) and second.height(2) is None


def test_a_handle_of_null_is_answered() -> None:
    library, handle, height = lib.library(), lib._Handle(), lib._Height()
    size, number = ctypes.c_size_t(), ctypes.c_uint32()
    calls = [
        library.tora_core_clone(handle, lib._Handle()), library.tora_core_link_up(handle, 1, 1),
        library.tora_core_link_down(handle, 1, 1), library.tora_core_need(handle, 1, 1),
        library.tora_core_packet(handle, 1, None, 0, 1), library.tora_core_sent_count(handle, size),
        library.tora_core_sent(handle, 0, None, 0, size), library.tora_core_height(handle, 1, height),
        library.tora_core_entry(handle, 1, 1, height), library.tora_core_next_hop(handle, 1, number),
        library.tora_core_flag(handle, 1, number),
        library.tora_core_is_up(handle, 1, number), library.tora_core_show(handle, None, 0, size),
    ]
    library.tora_core_free(handle)
    assert calls == [lib.NULL] * len(calls)


@pytest.mark.parametrize(
    "words", [["line.py"], ["two_nodes.py"], ["explore.py", "3", "1-2,2-3", "1", "need 3; cut 1 2"]]
)
def test_examples(words: list[str]) -> None:
    environment = {**os.environ, "TORA_LIBRARY": lib.library()._name}
    command = [sys.executable, EXAMPLES / "embed" / words[0], *words[1:]]
    ran = subprocess.run(command, capture_output=True, text=True, env=environment, check=True)
    assert ran.stdout == (EXAMPLES / "embed" / f"{pathlib.Path(words[0]).stem}.expected").read_text()


def explored(*words: object) -> subprocess.CompletedProcess[str]:
    """Runs the example that explores the world of the order that goes on for ever, along that order."""
    links = ",".join(f"{a}-{b}" for a, b in LINKS)
    order = ["--order", EXAMPLES / "embed" / "storm.order", "4", links, "4"]
    command = [sys.executable, EXAMPLES / "embed" / "explore.py", *map(str, [*words, *order])]
    environment = {**os.environ, "TORA_LIBRARY": lib.library()._name}
    return subprocess.run(command, capture_output=True, text=True, env=environment)


@pytest.mark.parametrize("erasure", ["plain", "remembered"])
def test_an_order_that_goes_on_for_ever(erasure: str) -> None:
    ran = explored("--erasure", erasure)
    if erasure == "plain":
        assert ran.stdout.splitlines()[1] == "an order goes on for ever: after 50 steps, 18 that repeat"
    else:  # the update of the erased level is ignored, so that the packets of the order are not sent
        assert "step 39 is not possible: deliver 2 1" in ran.stderr and ran.returncode == 1


def test_the_simulation_file_of_an_order(program: Program, tmp_path: pathlib.Path) -> None:
    told = explored("--sim", tmp_path / "order.sim").stdout.partition("after 100 times:\n")[2]
    command = [*program.words, "sim", "--notice", "--trace", tmp_path / "trace", tmp_path / "order.sim"]
    ran = subprocess.run(command, capture_output=True, text=True, check=True)
    assert re.sub(" hop .*", "", ran.stdout) == told
    assert "1 upd 1 4 2 (1,1,1,102,1)" in (tmp_path / "trace").read_text()


def random_step(draw: random.Random, world: Any) -> str:
    """A step that is possible in a small world: often a delivery."""
    waiting = [f"deliver {a} {b}" for (a, b), queue in world.queues.items() if queue]
    if waiting and draw.random() < 0.7:
        return draw.choice(waiting)
    a, b = draw.choice(LINKS)
    return draw.choice([f"{'cut' if (a, b) in world.links else 'mend'} {a} {b}", f"need {draw.choice([a, b])}"])


@pytest.mark.parametrize("erasure", list(Erasure))
def test_simulation_files_of_random_orders(
    program: Program, tmp_path: pathlib.Path, monkeypatch: pytest.MonkeyPatch, erasure: Erasure
) -> None:
    monkeypatch.syspath_prepend(str(EXAMPLES / "embed"))
    small_world, simulation_file = (importlib.import_module(it) for it in ("small_world", "simulation_file"))
    draw, path = random.Random(f"order {erasure}"), tmp_path / "order.sim"
    for _ in range(20):
        file, told = simulation_file.SimulationFile(small_world.first_world(4, LINKS, 4, erasure), LINKS), ""
        for _ in range(100):
            file.follow(random_step(draw, file.world))
            file.lines.append("heights 4")
            cores = {n: it.core for n, it in file.world.nodes.items()}
            told += "".join(f"node {n} {it.height(4) or '-'} hop {it.next_hop(4) or '-'}\n" for n, it in cores.items())
        path.write_text("\n".join([*file.lines, ""]))
        command = [*program.words, "sim", "--notice", path]
        assert subprocess.run(command, capture_output=True, text=True, check=True).stdout == told


def replay_file(draw: random.Random) -> list[str]:
    """The lines of a random replay file."""
    nodes = range(1, draw.randint(3, 7))
    me = draw.choice(nodes)
    neighbours = draw.sample([it for it in nodes if it != me], draw.randint(1, len(nodes) - 1))
    destinations = draw.sample(range(1, 9), draw.randint(1, 3))
    lines, now = [f"node {me} links {','.join(map(str, neighbours))} dests {','.join(map(str, destinations))}"], 0
    for _ in range(draw.randint(5, 60)):
        now += draw.choice([0, 0, 1, 5])
        k, d = draw.choice([*neighbours, *neighbours, *neighbours, 9]), draw.choice([*destinations, *destinations, 9])
        level = draw.choice([(0, 0, 0), (now, k, 0), (now, k, 1), (3, me, 1), (3, me, 0), (4, 5, 1)])
        packet = draw.choice([
            bytes([1, 1, 0, 0]) + d.to_bytes(4, "big"), update(d, *level, draw.randint(-2, 4), k),
            update(d, *level, draw.randint(0, 4), draw.choice(nodes)),
            bytes([1, 3, 0, 0]) + d.to_bytes(4, "big") + level[0].to_bytes(8, "big") + level[1].to_bytes(4, "big"),
            draw.randbytes(draw.randint(1, 40)),
        ])
        others = [f"{now} down {k}", f"{now} need {d}", f"{now} show"]
        lines.append(draw.choice([f"{now} up {k}"] * 3 + others + [f"{now} from {k} {packet.hex()}"] * 6))
    return [*lines, f"{now} show"]


def answers(lines: list[str], erasure: Erasure) -> str:
    """What the program prints for a replay file, by the library."""
    node, neighbours, destinations = lines[0].split()[1::2]
    told = []
    with Core(int(node), map(int, neighbours.split(",")), map(int, destinations.split(",")), erasure) as core:
        calls = {"up": core.link_up, "down": core.link_down, "need": core.need}
        for line in lines[1:]:
            now, word, *rest = line.split()
            try:
                if word == "show":
                    told.append(core.show())
                    continue
                if word == "from":
                    sent = core.packet(int(rest[0]), bytes.fromhex(rest[1]), int(now))
                else:
                    sent = calls[word](int(rest[0]), int(now))
                told += [f"send {it.hex()}\n" for it in sent]
            except RefusedError as error:
                told.append(f"refused {error.code - 10}\n")
            except PacketError as error:
                told.append(f"bad {error.code - 20}\n")
    return "".join(told)


@pytest.mark.parametrize("erasure", list(Erasure))
def test_random_replays(program: Program, erasure: Erasure) -> None:
    draw = random.Random(f"replay {erasure}")
    kinds = set()
    for _ in range(500):
        lines = replay_file(draw)
        command = [*program.words, "replay", "--erasure", erasure.name.lower()]
        ran = subprocess.run(command, input="\n".join([*lines, ""]), capture_output=True, text=True, check=True)
        assert answers(lines, erasure) == ran.stdout, "\n".join(lines)
        kinds |= {" ".join(it.split()[:2]) if it[0] in "rb" else it[:8] for it in ran.stdout.splitlines()}
    assert {"refused 1", "refused 2", "refused 3", "refused 4", "refused 5", "bad 1", "send 010", "bad 6"} <= kinds
