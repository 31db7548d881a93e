"""Traces against what was printed, and random networks against the laws of worlds at rest."""
from __future__ import annotations

import hashlib
import pathlib
import random
from collections.abc import Callable

import pytest
from conftest import refusal

from tora import laws, oracle
from tora.driving import drive
from tora.laws import Broken, RestingWorld, Told
from tora.networks import Network
from tora.oracle import Rested, agree, rest
from tora.program import Program
from tora.scenario import Scenario
from tora.trace import Trace

Write = Callable[..., str]
SIMULATION = "dests 3\nlink 1 2\nlink 2 3\nneed 1 3\nrounds 2\nheights 3\ntick\nheights 3\n"
PRINTED = "node 1 - hop -\nnode 2 (0,0,0,1,2) hop 3\nnode 3 (0,0,0,0,3) hop -\nnode 1 (0,0,0,2,1) hop 2\nnode 2 (0,0,0,1,2) hop 3\nnode 3 (0,0,0,0,3) hop -\n"
TRACE = "0 need 1 3\n2 route 2 3 (0,0,0,1,2) 3\n3 route 1 3 (0,0,0,2,1) 2\n"


def test_agreement(written: Write) -> None:
    """Each printed line is what the trace tells."""
    for text in (SIMULATION, SIMULATION.replace("need", "erasure 1 remembered\nneed")):
        found = agree(written(text, "s"), written(PRINTED, "p"), written(TRACE, "t"))
        assert (found.lines, found.routes) == (6, 2)


@pytest.mark.parametrize(
    ("what", "old", "new", "told"),
    [
        (
            "p", "(0,0,0,2,1) hop 2", "(0,0,0,2,1) hop -",
            "p:4: the trace tells another height or next hop of node 1 at 3"
        ),
        ("t", "3 route 1 3 (0,0,0,2,1)", "3 route 1 3 (0,0,0,3,1)", "p:4: the trace tells"),
        ("t", "2 route 2", "3 route 2", "p:2: the trace tells another height or next hop of node 2 at 2"),
        ("p", "node 2 (0,0,0,1,2) hop 3\nnode 3 (0,0,0,0,3) hop -\n", "", "p:2: no height of node 2"),
        ("p", "node 1 - hop -\n", "", "p:1: no height of node 1, which"),
        ("p", "(0,0,0,2,1)", "(0,0,0,2)", "p:4: `(0,0,0,2)` is no height"),
        ("p", "hop 2", "hop x", "p:4: `x` is no id"),
        ("s", "heights 3\n", "", "s: no line `heights`, so nothing is compared"),
        ("s", "rounds 2", "rounds x", "s:5: `x` is no number"), ("s", "heights 3", "heights", "s:6: `` is no number"),
        ("s", "tick", "walk 1 3", "s:7: a line `walk` is not looked at here"),
        ("s", "link 1 2", "link 1 x", "s:2: `x` is no id"), ("t", "0 need", "x need", "t:1: `x` is no number"),
    ],
)
def test_disagreement(what: str, old: str, new: str, told: str, written: Write) -> None:
    """The first line that differs is told, and so is a file that is none."""
    texts = {"s": SIMULATION, "p": PRINTED, "t": TRACE}
    texts[what] = texts[what].replace(old, new)
    paths = [written(text, name) for name, text in texts.items()]
    assert told in refusal(lambda: agree(*paths))


def test_networks() -> None:
    """One seed makes one network: the texts of fifty, by their SHA-256."""
    texts = "".join(Network(random.Random(f"1 {number}")).text(["rest"]) for number in range(1, 51))
    assert hashlib.sha256(texts.encode()).hexdigest()[:16] == "61f7c04a6b207945"


def test_laws_hold(program: Program, tmp_path: pathlib.Path) -> None:
    """Random networks of the program come to rest as the laws say; their files stay where that is asked for."""
    found = rest(6, 1, keep=tmp_path, program=program)
    assert found.lines()[0] == "6 networks of seed 1 came to rest, and the laws hold in each"
    assert sorted(it.name for it in tmp_path.iterdir()) == list("123456") and (
        tmp_path / "6" / "network.trace"
    ).is_file()
    assert found.seen["height"] + found.seen["null"] > 0


class Stand(Network):
    """A line of three nodes at rest."""

    def __init__(self) -> None:
        self.nodes, self.links, self.destinations, self.restarts = [1, 2, 3], [(1, 2), (2, 3)], [3], {}


RESTING = [
    "node 1 (0,0,0,2,1) hop 2", "node 2 (0,0,0,1,2) hop 3", "node 3 (0,0,0,0,3) hop -", "exact 1", "walk 1,2,3",
    "walk 2,3", "walk 3"
]
UP = "1 up 1 2 1 1\n1 up 2 1 1 1\n1 up 2 3 1 1\n1 up 3 2 1 1\n"
TOLD = UP + "2 upd 2 3 2 (0,0,0,1,2)\n3 upd 1 3 1 (0,0,0,2,1)\n"


def checked(printed: list[str], trace: str, written: Write) -> None:
    """Compares a line of three nodes with the laws."""
    seen: laws.collections.Counter[str] = laws.collections.Counter()
    RestingWorld(Stand(), printed, Told(Stand(), pathlib.Path(written(trace)))).check(seen)


def test_line_at_rest(written: Write) -> None:
    """A line of three nodes is as the laws say."""
    checked(RESTING, TOLD, written)


@pytest.mark.parametrize(
    ("at", "line", "trace", "law"),
    [
        (0, "node 1 (0,0,0,2,1) hop -", TOLD, "the next hop of 1 is the lowest"),
        (0, "node 1 (0,0,0,3,1) hop 2", TOLD, "the entry (0, 0, 0, 2, 1) of 1 at 2 is its height"),
        (1, "node 2 (0,0,0,3,2) hop 3", TOLD, "the entry (0, 0, 0, 1, 2) of 2 at 1 is its height"),
        (3, "exact 0", TOLD, "entries for 3 are exact where none is stale"),
        (4, "walk 1,2", TOLD, "the walk from 1 is printed"), (4, "walk -", TOLD, "the walk from 1 is printed"),
        (0, "node 1 - hop 2", TOLD, "entries for 3 are exact only where none is stale"),
        (3, "exact 1", TOLD.replace("1 up 2 1 1 1\n", "1 up 2 1 1 2\n"), "the link of 1 to 2 is up in one life"),
        (3, "exact 1", TOLD.replace("1 up 2 1 1 1\n", ""), "the link of 1 to 2 is up in one life"),
        (1, "node 2 (0,0,0,1,2) hop 1", TOLD, "the next hop of 2 is the lowest"),
        (1, "node 2 (0,0,0,1,2) hop 9", TOLD, "the next hop 9 of 2 has an entry"),
    ],
)
def test_broken_laws(at: int, line: str, trace: str, law: str, written: Write) -> None:
    """Each law is refused where it does not hold."""
    printed = [*RESTING[:at], line, *RESTING[at + 1:]]
    with pytest.raises(Broken) as caught:
        checked(printed, trace, written)
    assert law in str(caught.value)


@pytest.mark.parametrize(
    ("text", "told"),
    [
        ("exit 0", "the program prints 0 lines"), ("exit 3", "the program ends with status 3"),
        ("sleep 60", "is not done within 1 seconds"),
        (
            "echo 1 frames 1 0 0 0 >$3; for n in $(seq 500); do echo 'node x'; done; echo 'rest yes'",
            "`node x` is no line `node`"
        ),
        ("for n in $(seq 500); do echo 'rest no'; done", "it does not hold that it is at rest after"),
    ],
)
def test_other_programs(text: str, told: str, script: Callable[..., Program]) -> None:
    """A program that says nothing, something else, or never that it is at rest."""
    assert told in refusal(lambda: rest(1, 1, program=script(text), time_limit=1))


@pytest.mark.parametrize(
    ("networks", "seed", "name"),
    [(0, 1, "networks"), (1_000_001, 1, "networks"), (1, -1, "seed"), (1, 2**64, "seed"), (1.5, 1, "networks")]
)
def test_bounds(networks: int, seed: int, name: str) -> None:
    """Numbers beyond their bounds."""
    assert refusal(lambda: rest(networks, seed)).startswith(f"{name}: ")


def test_lines() -> None:
    """What is told."""
    assert Rested(2, 7, {"height": 3, "walks that arrive": 4}).lines()[:2] == [
        "2 networks of seed 7 came to rest, and the laws hold in each", "entries:      3 the neighbour's height"
    ]
    assert Rested(2, 7, {"walks that arrive": 4}).lines()[-1] == "4 walks that arrive" and oracle.MOST_NETWORKS == 10**6


SPOILED: dict[str, str | bytes] = {
    "empty": "", "letters": "hello world\n", "binary": bytes(range(256)) * 40, "zeros": bytes(1000), "nested": "[" * 100_000,
    "digits": "9" * 5000 + "\n", "huge": "1e400 " * 29 + "\n", "cut": "0 1", "empty lines": "\n\n\n",
}


@pytest.mark.parametrize("what", SPOILED)
def test_spoiled_files(what: str, written: Callable[..., str]) -> None:
    """Files in which something else stands are refused, each by its name."""
    good = {"s": written(SIMULATION, "s"), "p": written(PRINTED, "p"), "t": written(TRACE, "t")}
    for name in good:
        paths = good | {name: written(SPOILED[what], "spoiled")}
        assert f"{paths[name]}" in refusal(lambda paths=paths: agree(*paths.values()))
    path = written(SPOILED[what], "spoiled")
    for call in (lambda: drive(path, program="true"), lambda: Scenario.from_simulation(path), lambda: Trace.read(path), lambda: Scenario.read(path)):
        assert refusal(call).startswith(path)
