"""Drives a world by `tora drive`, and compares it with `tora sim` of the same events.

Each datagram that is not lost is delivered directly after the step that put it under way. A step is a round in which
every link is parted: so the same events are a simulation file of `part` lines, `rounds 1` and `deliver` lines.
"""
from __future__ import annotations

import dataclasses
import os
import pathlib
import random
import re
import select
import subprocess
import tempfile
import time
from collections.abc import Sequence
from types import TracebackType

from tora.bounds import MOST_ID, MOST_TICKS, check_number, check_whole
from tora.errors import StudyError, UsageError, shown
from tora.files import Path, naming, reading, write_files
from tora.program import Program, end_group

ANSWER_LIMIT = 60.0  # seconds of an answer without a limit of its own
PIECE = 1 << 16  # bytes that are read at once
LEAST_WORDS = {"hop": 4, "sent": 5, "node": 5}  # of lines of an answer


@dataclasses.dataclass(frozen=True)
class Driven:
    """What a drive that is the same as its simulation was.

    Attributes
    ----------
    steps, sent, delivered : int
        Steps, and datagrams.
    """

    steps: int
    sent: int
    delivered: int

    def lines(self) -> list[str]:
        """The messages, line by line."""
        return [
            f"{self.steps} steps, {self.sent} datagrams, {self.delivered} delivered, status 0",
            "heights of `tora sim`: the same, and of the record: the same; next hops as told: the same",
        ]


class Drive:
    """A running `tora drive`, the lines sent to it, and the next hops that it reported.

    Attributes
    ----------
    said : list of str
        The lines that were taken.
    hops : dict
        By the words of a node and of a destination the word of the next hop.
    """

    def __init__(self, program: Program, *words: Path, time_limit: float = ANSWER_LIMIT) -> None:
        """Starts a drive with these words; `time_limit` are the seconds that an answer may take.

        Raises
        ------
        StudyError
            Where the program does not begin as a drive does.
        """
        self.name, self.time_limit = program.words[0], time_limit
        command = [*program.words, "drive", *(os.fspath(word) for word in words)]
        try:
            self.process = subprocess.Popen(
                command, stdin=subprocess.PIPE, stdout=subprocess.PIPE, start_new_session=True
            )
        except OSError as cause:
            raise UsageError(cause.strerror or str(cause), file=self.name) from None
        self.said: list[str] = []
        self.hops: dict[tuple[str, str], str] = {}
        self._left = b""
        try:
            greeting = self._line(time.monotonic() + time_limit)
        except StudyError:
            end_group(self.process)
            raise
        if greeting != "tora drive 1":
            end_group(self.process)
            raise StudyError(f"it begins with {shown(greeting)!r}", file=self.name)

    def __enter__(self) -> Drive:
        """The drive itself."""
        return self

    def __exit__(
        self, kind: type[BaseException] | None, value: BaseException | None, trace: TracebackType | None
    ) -> None:
        """Ends the program, if it has not ended."""
        end_group(self.process)

    def say(self, line: str) -> list[list[str]]:
        """The words of the lines of the answer to a line, except the last one.

        Raises
        ------
        StudyError
            Where the line is refused or a fault, the answer is none, or it does not come in time.
        """
        assert self.process.stdin is not None
        try:
            self.process.stdin.write(f"{line}\n".encode())
            self.process.stdin.flush()
        except BrokenPipeError:
            raise StudyError(f"the program ended before {shown(line)!r}", file=self.name) from None
        self.said.append(line)
        answer: list[list[str]] = []
        until = time.monotonic() + self.time_limit
        while (text := self._line(until)) != "ok":
            words = text.split(" ")
            if not text or words[0] in ("refused", "fault"):
                raise StudyError(f"the answer to {shown(line)!r} ends with {text!r}", file=self.name)
            if len(words) < LEAST_WORDS.get(words[0], 2):
                raise StudyError(f"the answer to {shown(line)!r} has the line {shown(text)!r}", file=self.name)
            if words[0] == "hop":
                self.hops[words[1], words[2]] = words[3]
            answer.append(words)
        return answer

    def end(self) -> int:
        """Ends the input; answers the status of the program."""
        assert self.process.stdin is not None
        try:
            self.process.stdin.close()
        except BrokenPipeError:
            pass  # what was said last, to a program that has ended
        try:
            return self.process.wait(self.time_limit)
        except subprocess.TimeoutExpired:
            raise StudyError(f"the program does not end within {self.time_limit:g} seconds", file=self.name) from None

    def _line(self, until: float) -> str:
        """The next line that the program prints, without its end, up to a moment; empty where there is none."""
        assert self.process.stdout is not None
        while b"\n" not in self._left:
            ready, _, _ = select.select([self.process.stdout], [], [], max(until - time.monotonic(), 0))
            if not ready:
                raise StudyError(f"the program says nothing within {self.time_limit:g} seconds", file=self.name)
            piece = os.read(self.process.stdout.fileno(), PIECE)
            if not piece:
                return ""
            self._left += piece
        line, _, self._left = self._left.partition(b"\n")
        return line.decode(errors="replace")


def drive(
    path: Path, *, ticks: int = 100, loss: float = 0.0, seed: int = 1, needs: Sequence[tuple[int, int]] = (),
    large: bool = False, keep: Path | None = None, program: Path | Program | None = None,
    time_limit: float = ANSWER_LIMIT,
) -> Driven:
    """Drives a world, and compares it with the simulation of the same events.

    Parameters
    ----------
    path : path
        A simulation file, of which the `dests`, `link`, `old` and `erasure` lines are taken.
    ticks : int
        Steps, from 1.
    loss : float
        The share of datagrams that is lost, from 0 to 1.
    seed : int
        Of the losses.
    needs : pairs of a node and a destination
        That are put before the first step.
    large : bool
        Whether the world may have up to 1,024 nodes with up to 255 neighbours each.
    keep : path, optional
        A folder that gets ``driven.txt``, the lines that were said, ``driven.sim``, the simulation file of the same
        events, and ``record.sim``.
    program : path, optional
        As of `tora.program.Program.find`.
    time_limit : float
        Seconds of each answer, and of each simulation.

    Raises
    ------
    StudyError
        Where heights or next hops differ, the file is none, or the program is silent, fails, or answers something else.
    """
    check_whole("ticks", ticks, 1, MOST_TICKS)
    check_whole("seed", seed, 0, MOST_TICKS)
    check_number("loss", loss, 0, 1)
    for node, destination in needs:
        check_whole("needs", node, 1, MOST_ID)
        check_whole("needs", destination, 1, MOST_ID)
    first = _first_lines(os.fspath(path))
    found = program if isinstance(program, Program) else Program.find(program)
    with tempfile.TemporaryDirectory(prefix="tora-") as work:
        folder = pathlib.Path(work if keep is None else keep)
        with naming(folder):
            folder.mkdir(parents=True, exist_ok=True)
        limits = ["--large"] if large else []
        with Drive(found, *limits, "--record", folder / "record.sim", time_limit=time_limit) as running:
            lines = first + [f"need {node} {destination}" for node, destination in needs]
            return _compare(running, lines, len(first), Driven(ticks, 0, 0), loss, seed, limits, folder, found)


def _compare(
    running: Drive, lines: list[str], declared: int, driven: Driven, loss: float, seed: int, limits: list[str],
    folder: pathlib.Path, program: Program
) -> Driven:
    """Says all lines, and compares what comes with the simulation.

    `declared` of the first lines are in the simulation file unchanged.
    """
    first = lines[:declared]
    destinations = [word for word in first[0].split(" ")[1].split(",") if word != "-"]
    driven = _say_all(running, lines, driven, loss, seed)
    heights = {destination: running.say(f"heights {destination}") for destination in destinations}
    ends = {(words[1], destination): words[4] for destination, some in heights.items() for words in some}
    status = running.end()
    parts = [f"part{line[4:]}" for line in first if line.startswith("link ")]
    script = first + parts + ["rounds 1" if line == "step" else line for line in running.said[declared:]]
    names = {"driven.txt": running.said, "driven.sim": script}
    write_files({str(folder / name): "\n".join(some) + "\n" for name, some in names.items()}, overwrite=True)
    wanted = [" ".join(words) for some in heights.values() for words in some]
    for name, what in (("driven.sim", "the simulation of the same events"), ("record.sim", "the record")):
        if program.run("sim", *limits, folder / name, time_limit=running.time_limit).output.splitlines() != wanted:
            raise StudyError(f"{what} has other heights than the drive", file=folder / name)
    if any(running.hops.get(key, "-") != hop for key, hop in ends.items()):
        raise StudyError("the next hops that were told are not those at the end", file=running.name)
    if status:
        raise StudyError(f"the drive ends with status {status}", file=running.name)
    return driven


def _say_all(running: Drive, lines: list[str], driven: Driven, loss: float, seed: int) -> Driven:
    """Says the lines, and then steps, each with the deliveries after it; counts datagrams."""
    chance, sent, delivered = random.Random(seed), 0, 0
    for line in lines:
        running.say(line)
    for _ in range(driven.steps):
        for words in [words for words in running.say("step") if words[0] == "sent"]:
            sent += 1
            if chance.random() >= loss:
                delivered += 1
                running.say(f"deliver {words[3]}")  # what a delivery leads to comes in the next step
    return dataclasses.replace(driven, sent=sent, delivered=delivered)


def _first_lines(path: str) -> list[str]:
    """The `dests`, `link`, `old` and `erasure` lines of a simulation file, the first line among them."""
    with reading(path) as source:
        lines = source.read().splitlines()
    if not lines or not re.fullmatch("dests [0-9,-]+", lines[0]):
        raise StudyError("no line `dests LIST`", file=path, line=1)
    return [line for line in lines if line.split(" ")[0] in ("dests", "link", "old", "erasure")]
