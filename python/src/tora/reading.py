"""Reads a trace, block by block, into arrays; every line is checked, and a fault is reported with its line."""
from __future__ import annotations

import contextlib
import gc
import re
from collections.abc import Iterator, Sequence

import numpy as np
import numpy.typing as npt

from tora.errors import StudyError
from tora.files import reading
from tora.records import CODES, FIRST, GRAMMAR, KINDS, SPELLINGS, Header, Value, read_end, read_record

BLOCK = 1 << 18  # characters that are read at once
HEIGHT_PARTS = 5
Numbers = npt.NDArray[np.int64]
Kinds = npt.NDArray[np.uint8]
Parts = tuple[Header | None, str | None, int, Numbers, Kinds, dict[str, Numbers]]
Rows = dict[str, Numbers]  # by kind of record an array (records, 1 + fields), the tick first

# How many numbers the fields of a record are: a height is five, all of them 0 for `-`.
WIDTHS = {kind: sum(HEIGHT_PARTS if letter == "h" else 1 for letter in letters) for kind, letters in GRAMMAR.items()}
# Lines of one kind of record; no match is tried in two ways.
LINES = {
    kind: re.compile(f"(?>(?:{' '.join([SPELLINGS['n'], kind, *(SPELLINGS[letter] for letter in letters)])}\n)*+)")
    for kind, letters in GRAMMAR.items()
}
NULL = " 0 0 0 0 0"
MARKS = str.maketrans("(),", "   ")  # of heights
BOUNDS = np.iinfo(np.int64)


class Reader:
    """What was read of a trace until now."""

    def __init__(self, path: str) -> None:
        """Before the first line."""
        self.path, self.number, self.clock = path, 0, 0
        self.header: Header | None = None
        self.digest: str | None = None
        self.end_line = 0
        self.clocks: list[Numbers] = []
        self.kinds: list[Kinds] = []
        self.rows: dict[str, list[Numbers]] = {kind: [np.zeros((0, 1 + WIDTHS[kind]), np.int64)] for kind in KINDS}

    def take(self, lines: list[str]) -> None:
        """Takes the next lines of the trace."""
        first, self.number = self.number + 1, self.number + len(lines)
        if self.digest is not None:
            raise StudyError("the trace goes on after its last record", file=self.path, line=first)
        if first == 1 and lines[0].startswith(FIRST):
            self.header = Header.of_line(self.path, lines[0])
            lines, first = lines[1:], 2
        is_last = bool(lines) and self.is_end(lines[-1])
        self.take_records(lines[:-1] if is_last else lines, first)
        if is_last:
            self.finish(lines[-1], self.number)

    def take_records(self, lines: list[str], first: int) -> None:
        """Takes lines that are records, the first one of this number; refuses the first that is none."""
        found = read_quickly(lines)
        if found is None or (len(found[0]) and (found[0][0] < self.clock or np.any(np.diff(found[0]) < 0))):
            found = self.read_by_line(lines, first)
        clocks, kinds, rows = found
        self.clock = int(clocks[-1]) if len(clocks) else self.clock
        self.clocks.append(clocks)
        self.kinds.append(kinds)
        for kind, some in rows.items():
            self.rows[kind].append(some)

    def read_by_line(self, lines: Sequence[str], first: int) -> tuple[Numbers, Kinds, Rows]:
        """The same line by line, for lines among which one is refused, or has a number that is nearly too large."""
        rows: dict[str, list[list[int]]] = {kind: [] for kind in KINDS}
        records, clock = [], self.clock
        for number, text in enumerate(lines, first):
            if self.digest is not None:
                raise StudyError("the trace goes on after its last record", file=self.path, line=number)
            if self.is_end(text):
                self.clock = clock
                self.finish(text, number)
                continue
            record = read_record(self.path, number, text, clock)
            clock = record.clock
            records.append(record)
            rows[record.kind].append([clock, *_flat(record.kind, record.words)])
        if self.digest is not None:
            raise StudyError("the trace goes on after its last record", file=self.path, line=first + len(lines))
        arrays = {kind: np.array(some, np.int64) for kind, some in rows.items() if some}
        kinds = np.array([CODES[record.kind] for record in records], np.uint8)
        return np.array([record.clock for record in records], np.int64), kinds, arrays

    def is_end(self, text: str) -> bool:
        """Whether a line is to be the last record."""
        return self.header is not None and text.partition(" ")[2].startswith("end ")

    def finish(self, text: str, number: int) -> None:
        """Takes the last record."""
        if not text.endswith("\n"):
            raise StudyError("the line is cut: it does not end", file=self.path, line=number)
        self.digest, self.end_line = read_end(self.path, number, text, self.clock), number

    def parts(self) -> Parts:
        """All that was read; refuses a trace that is empty, or that has a first record and not the last."""
        if self.number == 0:
            raise StudyError("the trace is empty", file=self.path, line=1)
        if self.header is not None and self.digest is None:
            raise StudyError("the trace is cut: its last record `end` is missing", file=self.path, line=self.number)
        columns = {kind: _columns(kind, self.rows.pop(kind)) for kind in KINDS}
        clocks = np.concatenate([np.zeros(0, np.int64), *self.clocks])
        kinds = np.concatenate([np.zeros(0, np.uint8), *self.kinds])
        return self.header, self.digest, self.end_line, clocks, kinds, columns


def _columns(kind: str, parts: Sequence[Numbers]) -> Numbers:
    """The fields of all records of a kind, shape (fields, records), without their ticks."""
    found = np.empty((WIDTHS[kind], sum(map(len, parts))), np.int64)
    np.concatenate([part[:, 1:].T for part in parts], axis=1, out=found)
    return found


def read_parts(path: str) -> Parts:
    """Reads a trace once, which may be a pipe.

    Returns
    -------
    tuple
        What its first and last records say, the line of the last one, and the ticks, kinds and fields of all others, as
        `tora.trace.Trace` has them.
    """
    reader = Reader(path)
    with reading(path, newline="\n") as source, without_collection():
        while lines := source.readlines(BLOCK):
            reader.take(lines)
    return reader.parts()


def read_quickly(lines: list[str]) -> tuple[Numbers, Kinds, Rows] | None:
    """The ticks, kinds and rows of lines; None where one is no record, or has a number that is nearly too large."""
    if not lines or not lines[-1].endswith("\n"):
        return None if lines else (np.zeros(0, np.int64), np.zeros(0, np.uint8), {})
    try:
        kinds = np.fromiter([CODES[text.split(" ", 2)[1]] for text in lines], np.uint8, len(lines))
    except LookupError:
        return None
    clocks, rows = np.zeros(len(lines), np.int64), {}
    for code in np.unique(kinds).tolist():
        places = np.flatnonzero(kinds == code)
        found = _numbers_of(KINDS[code], "".join([lines[at] for at in places.tolist()]))
        if found is None:
            return None
        rows[KINDS[code]] = found
        clocks[places] = found[:, 0]
    return clocks, kinds, rows


@contextlib.contextmanager
def without_collection() -> Iterator[None]:
    """Without a search for objects that refer to themselves, which takes as long as the reading and finds none."""
    was_on = gc.isenabled()
    gc.disable()
    try:
        yield
    finally:
        if was_on:
            gc.enable()


def _numbers_of(kind: str, text: str) -> Numbers | None:
    """The rows of lines of one kind of record; None where a line is none, or a number is nearly too large."""
    if not LINES[kind].fullmatch(text):
        return None
    text = text.replace(f" {kind} ", " ")
    if "h" in GRAMMAR[kind]:
        text = text.replace(" - ", f"{NULL} ")
        text = text.replace(" -\n", f"{NULL}\n" if kind == "upd" else " 0\n")
    found = np.fromstring(text.translate(MARKS), np.int64, sep=" ").reshape(-1, 1 + WIDTHS[kind])
    return None if found.max() == BOUNDS.max or found.min() == BOUNDS.min else found


def _flat(kind: str, words: Sequence[Value]) -> Iterator[int]:
    """Yields the numbers of the fields of a record."""
    for letter, word in zip(GRAMMAR[kind], words):
        if letter == "h":
            yield from word if isinstance(word, tuple) else [0] * HEIGHT_PARTS
        else:
            yield word if isinstance(word, int) else 0
