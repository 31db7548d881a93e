"""Checks of runs against their laws: a trace against what was printed, and random networks at rest.

The laws of worlds at rest are those of `docs/explanation/tora.md`, "What a route is worth": each entry is NULL, the
neighbour's height, or of a neighbour that has no height; next hops go down; and routes arrive if no node lacks a height.
"""
from __future__ import annotations

import collections
import dataclasses
import os
import pathlib
import random
import tempfile
from collections.abc import Iterator

from tora.bounds import MOST_TICKS, check_whole
from tora.errors import StudyError, shown
from tora.files import Path, naming, reading
from tora.laws import KINDS, Broken, RestingWorld, Told, check_taken
from tora.networks import Network, at_rest
from tora.program import Program
from tora.records import Height, Record, Value, field
from tora.trace import Trace

MOST_NETWORKS = 1_000_000
NETWORK_LIMIT = 600.0  # seconds of a run of a random network without a limit of its own
# Lines of a simulation file that print nothing, where nothing is refused, and leave the clock
NO_LINE: tuple[int, list[str]] = (0, [])
QUIET = (
    "dests", "link", "old", "erasure", "need", "part", "mend", "open", "pull", "transmit", "pump", "deliver", "turn", "arm",
    "restart"
)


@dataclasses.dataclass(frozen=True)
class Agreement:
    """How many printed lines agree with a trace, and how many `route` records it has.

    Attributes
    ----------
    lines, routes : int
    """

    lines: int
    routes: int


@dataclasses.dataclass(frozen=True)
class Rested:
    """What was seen of random networks in each of which the laws of worlds at rest hold.

    Attributes
    ----------
    networks, seed : int
    seen : dict
        By what was seen how often.
    """

    networks: int
    seed: int
    seen: dict[str, int]

    def lines(self) -> list[str]:
        """The messages, line by line."""
        told = [f"{self.networks} networks of seed {self.seed} came to rest, and the laws hold in each"]
        told += [f"entries: {self.seen.get(kind, 0):6} {said}" for kind, said in KINDS.items()]
        return told + [f"{count} {what}" for what, count in sorted(self.seen.items()) if what not in KINDS]


def agree(simulation: Path, output: Path, trace: Path) -> Agreement:
    """Compares printed heights and next hops with those of a trace.

    Parameters
    ----------
    simulation : path
        A simulation file with `heights` lines.
    output : path
        What `tora sim` printed for it.
    trace : path
        The trace of the same run.

    Raises
    ------
    StudyError
        With the first printed line that differs from the trace.
    """
    fold, lines = _Fold(Trace.read(trace)), 0
    for line, clock, node, destination, height, hop in _printed_heights(os.fspath(simulation), os.fspath(output)):
        if fold.until(clock).of(node, destination) != (height, hop):
            raise StudyError(
                f"the trace tells another height or next hop of node {node} at {clock}", file=output, line=line
            )
        lines += 1
    if not lines:
        raise StudyError("no line `heights`, so nothing is compared", file=simulation)
    return Agreement(lines, len(fold.routes))


def rest(
    networks: int = 200, seed: int = 1, *, keep: Path | None = None, program: Path | Program | None = None,
    time_limit: float = NETWORK_LIMIT
) -> Rested:
    """Runs random networks until they are at rest, and compares what is printed with the laws of worlds at rest.

    Each network has 3 to 10 nodes, one or two destinations, needs, links that are parted and mended, nodes that begin
    anew and datagrams that are lost; then it is left alone until `rest` prints ``rest yes``.

    Parameters
    ----------
    networks : int
        1 to 1,000,000.
    seed : int
    keep : path, optional
        A folder in which the files of the networks stay.
    program : path, optional
        As of `tora.program.Program.find`.
    time_limit : float
        Seconds of each run of a network.

    Raises
    ------
    StudyError
        With the first network that breaks a law.
    """
    check_whole("networks", networks, 1, MOST_NETWORKS)
    check_whole("seed", seed, 0, MOST_TICKS)
    found = program if isinstance(program, Program) else Program.find(program)
    seen: collections.Counter[str] = collections.Counter()
    with tempfile.TemporaryDirectory(prefix="tora-") as work:
        for number in range(1, networks + 1):
            folder = pathlib.Path(work) if keep is None else pathlib.Path(keep, str(number))
            with naming(folder):
                folder.mkdir(parents=True, exist_ok=True)
            _check_network(number, seed, folder, found, time_limit, seen)
    return Rested(networks, seed, dict(seen))


class _Fold:
    """Heights and next hops at any moment: the `route` records of a trace, taken one after the other."""

    def __init__(self, trace: Trace) -> None:
        """Before the first record."""
        self.routes = [record for record in trace.records() if record.kind == "route"]
        self.now: dict[tuple[object, object], tuple[object, ...]] = {}
        self.at = 0

    def until(self, clock: int) -> _Fold:
        """Takes the records up to a clock."""
        while self.at < len(self.routes) and self.routes[self.at].clock <= clock:
            record: Record = self.routes[self.at]
            self.now[record.words[0], record.words[1]] = record.words[2:]
            self.at += 1
        return self

    def of(self, node: int, destination: int) -> tuple[object, ...]:
        """Height and next hop of a node for a destination."""
        return self.now.get(
            (node, destination), ((0, 0, 0, 0, destination), None) if node == destination else (None, None)
        )


def _simulation_words(path: str) -> tuple[list[list[str]], list[int]]:
    """The words of the lines of a simulation file, and its nodes, ascending."""
    with reading(path) as source:
        lines = [line.split() or [""] for line in source]
    nodes: set[Value] = set()
    for at, words in enumerate(lines, 1):
        nodes.update(field(path, at, "i", word) for word in words[1:] if words[0] == "link")
        if words[0] in ("rounds", "heights"):
            field(path, at, "n", words[1] if len(words) == 2 else "")
    return lines, sorted(node for node in nodes if isinstance(node, int))


def _printed_heights(simulation: str, output: str) -> Iterator[tuple[int, int, int, int, Height | None, int | None]]:
    """Yields (line of the output, clock, node, destination, height, next hop) of each printed line of a `heights`."""
    (lines, nodes), clock = _simulation_words(simulation), 0
    with reading(output) as source:
        told: Iterator[tuple[int, list[str]]] = enumerate((line.split() for line in source), 1)
        for number, words in enumerate(lines, 1):
            if words[0] in ("rounds", "tick"):
                clock += int(words[1]) if words[0] == "rounds" else 1
            elif words[0] == "heights":
                for node in nodes:
                    line, text = next(told, NO_LINE)
                    height, hop = _printed_height(output, line, text, node, f"{simulation}:{number}")
                    yield line, clock, node, int(words[1]), height, hop
            elif words[0] not in QUIET:
                raise StudyError(f"a line `{shown(words[0])}` is not looked at here", file=simulation, line=number)


def _printed_height(
    output: str, line: int, words: list[str], node: int, asked: str
) -> tuple[Height | None, int | None]:
    """The height and the next hop of a node, by the words of a printed line; `asked` is the line that prints it."""
    if len(words) != 5 or words[:2] != ["node", str(node)]:
        raise StudyError(f"no height of node {node}, which {asked} prints", file=output, line=line or None)
    height, hop = field(output, line, "h", words[2]), field(output, line, "k", words[4])
    assert not isinstance(height, int) and not isinstance(hop, tuple)
    return height, hop


def _check_network(
    number: int, seed: int, folder: pathlib.Path, program: Program, time_limit: float, seen: collections.Counter[str]
) -> None:
    """Compares one network with the laws."""
    network = Network(random.Random(f"{seed} {number}"))
    try:
        printed, trace = at_rest(network, folder, program, time_limit)
        told = Told(network, trace)
        world = RestingWorld(network, printed, told)
        world.check(seen)
        check_taken(network, told, folder, program, time_limit)
    except Broken as cause:
        raise StudyError(f"network {number} of seed {seed}: it does not hold that {cause}") from None
    lacking = [(node, d) for (node, d), height in world.heights.items() if height is None]
    joined = any(d in world.component(node) for node, d in lacking)
    seen["networks in which a node without a height is joined to the destination"] += joined
