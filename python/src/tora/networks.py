"""Random networks that are run until they are at rest."""
from __future__ import annotations

import collections
import pathlib
import random

from tora.errors import StudyError
from tora.files import write_file
from tora.program import Program

MOST_ROUNDS = 4000  # a network that isn't at rest then is told
CALLS = ("send-lost", "send-gone", "receive")


class Broken(StudyError):
    """A law that does not hold."""


class Network:
    """A random network: the lines of its simulation file, and where its nodes restart."""

    def __init__(self, draw: random.Random) -> None:
        """A connected network, and what happens in it until it is left alone."""
        self.nodes = list(range(1, draw.randint(3, 10) + 1))
        pairs = {(draw.choice(self.nodes[:at]), node) for at, node in enumerate(self.nodes) if at}
        for _ in range(draw.randint(0, len(self.nodes))):
            a, b = sorted(draw.sample(self.nodes, 2))
            pairs.add((a, b))
        self.links = sorted(pairs)
        self.destinations = sorted(draw.sample(self.nodes, draw.randint(1, 2)))
        self.restarts: dict[int, list[int]] = collections.defaultdict(list)
        self.lines = [f"dests {','.join(map(str, self.destinations))}"] + [f"link {a} {b}" for a, b in self.links]
        self.clock = 0
        self.happens(draw)

    def rounds(self, count: int) -> None:
        """So many rounds."""
        self.lines.append(f"rounds {count}")
        self.clock += count

    def happens(self, draw: random.Random) -> None:
        """Needs first, and then anything."""
        parted: set[tuple[int, int]] = set()
        for _ in range(draw.randint(4, 16)):
            what = draw.random()
            if what < 0.4:
                self.lines.append(f"need {draw.choice(self.nodes)} {draw.choice(self.destinations)}")
            elif what < 0.65:
                parted.add(draw.choice(self.links))
                self.lines += [f"part {a} {b}" for a, b in sorted(parted)]
            elif what < 0.8 and parted:
                link = draw.choice(sorted(parted))
                parted.discard(link)
                self.lines.append("mend {} {}".format(*link))
            elif what < 0.88:
                node = draw.choice(self.nodes)
                self.restarts[node].append(self.clock)
                self.lines.append(f"restart {node} -")
            else:
                self.lines.append(f"arm {draw.choice(self.nodes)} {draw.choice(CALLS)}")
            self.rounds(draw.choice((0, 1, 2, 3, 5, 20, 60, 80)))

    def asked(self) -> list[str]:
        """The lines that ask for all that is printed of a network at rest."""
        lines = []
        for destination in self.destinations:
            lines += [f"heights {destination}", f"exact {destination}"]
            lines += [f"walk {node} {destination}" for node in self.nodes]
        return lines

    def text(self, asked: list[str]) -> str:
        """The simulation file, with these lines at its end."""
        return "\n".join(self.lines + asked) + "\n"


def simulated(
    network: Network, asked: list[str], folder: pathlib.Path, least: int, program: Program, time_limit: float
) -> tuple[list[str], pathlib.Path]:
    """The lines that a network prints with these lines at its end, at least this many, and the path of its trace."""
    path, trace = folder / "network.sim", folder / "network.trace"
    write_file(path, network.text(asked), overwrite=True)
    lines = program.run("sim", "--trace", trace, path, time_limit=time_limit).output.splitlines()
    if len(lines) < least:
        raise StudyError(f"the program prints {len(lines)} lines, and {least} or more are asked for", file=path)
    return lines, trace


def at_rest(
    network: Network, folder: pathlib.Path, program: Program, time_limit: float
) -> tuple[list[str], pathlib.Path]:
    """Lets a network run until it is at rest, and answers what it prints then, and its trace."""
    count = len(network.destinations) * (2 * len(network.nodes) + 1)
    while network.clock < MOST_ROUNDS:
        network.rounds(60)
        printed, trace = simulated(network, [*network.asked(), "rest"], folder, count + 1, program, time_limit)
        if printed[-1] == "rest yes":
            return printed[-count - 1 : -1], trace
    raise Broken(f"it is at rest after {network.clock} rounds")
