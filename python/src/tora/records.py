"""The grammar of a trace's records, as `docs/formats.md` ("Traces") has them, and how one line is read."""
from __future__ import annotations

import dataclasses
import re
from typing import NamedTuple

from tora.errors import StudyError, shown

Height = tuple[int, int, int, int, int]
Value = int | Height | None

# The fields after the word of each kind of record: i an id, n a number, h a height or `-`, k an id or `-`.
GRAMMAR = {
    "need": "ii", "part": "ii", "mend": "ii", "up": "iinn", "down": "iinn", "qry": "iin", "upd": "iinh",
    "clr": "iinni", "route": "iihk", "frames": "nnnn",
}
KINDS = tuple(GRAMMAR)
CODES = {kind: code for code, kind in enumerate(KINDS)}
FIRST = "0 trace "  # what the first record of a trace begins with
BETWEEN = ("need", "part", "mend")  # records that stand between rounds, with the tick of the round that has ended
OF_LINKS = ("part", "mend", "up", "down")  # records of a link; all others but `frames` are of a node and a destination
PARTS = (
    "hello_ticks", "silence_ticks", "retry_ticks", "tries", "loss", "delay_least", "delay_most", "repeat",
    "channel_seed", "notice"
)
MOST = 2**63 - 1  # of a number that is read
DIGEST = re.compile(r"[0-9a-f]{64}")
NUMBER = re.compile(r"0|[1-9][0-9]{0,18}")
HEIGHT = re.compile(r"\((0|[1-9][0-9]{0,18}),(0|[1-9][0-9]{0,18}),([01]),(0|-?[1-9][0-9]{0,18}),([1-9][0-9]{0,18})\)")
# How the fields are spelled, by their letters.
SPELLINGS = {
    "i": "[1-9][0-9]{0,18}", "n": "(?:0|[1-9][0-9]{0,18})", "k": "(?:-|[1-9][0-9]{0,18})",
    "h": "(?:-|" + re.sub(r"(?<!\\)\(", "(?:", HEIGHT.pattern) + ")",
}


class Record(NamedTuple):
    """One record: its line from 1, its tick, its word, and what follows (numbers, heights, None for ``-``)."""

    line: int
    clock: int
    kind: str
    words: tuple[Value, ...]


@dataclasses.dataclass(frozen=True)
class Header:
    """What the first record of a trace says.

    Attributes
    ----------
    times : tuple of int
        Of a link end: HELLO, silence and retry in ticks, and tries.
    loss, repeat : int
        Parts in a million of the datagrams that are lost, and of the others that come twice.
    delay_least, delay_most : int
        Rounds.
    channel_seed : int
    notice : int
        1 with ``--notice``, else 0.
    until : int or None
        The last round of ``--until``.
    channel_file : str or None
        SHA-256 of the channel file.
    erasure : str
        How nodes treat erased levels, unless the simulation file says it: ``plain`` or ``remembered``.
    """

    times: tuple[int, int, int, int]
    loss: int
    delay_least: int
    delay_most: int
    repeat: int
    channel_seed: int
    notice: int
    until: int | None = None
    channel_file: str | None = None
    erasure: str = "plain"

    @classmethod
    def of_line(cls, path: str, text: str) -> Header:
        """The header of the first line of a trace.

        Raises
        ------
        StudyError
            Where the line is cut, of another version, or has other fields.
        """
        words = text.rstrip("\n").split(" ")
        if not text.endswith("\n"):
            raise StudyError("the line is cut: it does not end", file=path, line=1)
        if words[2] != "1":
            raise StudyError(f"a trace of version {shown(words[2])}; 1 is read here", file=path, line=1)
        erasure = "plain"
        if len(words) == 6 + len(PARTS) and words[-1] == "remembered":
            erasure = words.pop()
        if len(words) not in (3 + len(PARTS), 5 + len(PARTS)):
            raise StudyError(f"`trace` has {1 + len(PARTS)} fields, not {len(words) - 2}", file=path, line=1)
        parts = [_number(path, 1, "n", word) for word in words[3 : 3 + len(PARTS)]]
        until, channel_file = [None if word == "-" else word for word in words[3 + len(PARTS) :] or "--"]
        if channel_file is not None and not DIGEST.fullmatch(channel_file):
            raise StudyError(f"`{shown(channel_file)}` is no digest", file=path, line=1)
        last = None if until is None else _number(path, 1, "n", until)
        hello, silence, retry, tries, loss, least, most, repeat, seed, notice = parts
        return cls((hello, silence, retry, tries), loss, least, most, repeat, seed, notice, last, channel_file, erasure)


def field(path: str, line: int | None, kind: str, word: str) -> Value:
    """One field of a record as a value; `kind` is a letter of `GRAMMAR`."""
    if kind in "hk" and word == "-":
        return None
    if kind != "h":
        return _number(path, line, kind, word)
    found = HEIGHT.fullmatch(word)
    if not found or max(abs(int(part)) for part in found.groups()) > MOST:
        raise StudyError(f"`{shown(word)}` is no height", file=path, line=line)
    tau, oid, r, delta, node = map(int, found.groups())
    return tau, oid, r, delta, node


def read_record(path: str, number: int, text: str, before: int) -> Record:
    """One line of a trace as a record.

    Parameters
    ----------
    path, number : str, int
        The file and the number of the line, for errors.
    text : str
        The line with its end.
    before : int
        The tick of the record before.

    Raises
    ------
    StudyError
        Where the line is cut, is not of the grammar, or its tick is less than the one before.
    """
    if not text.endswith("\n"):
        raise StudyError("the line is cut: it does not end", file=path, line=number)
    words = text[:-1].split(" ")
    if len(words) < 2 or words[1] not in GRAMMAR:
        raise StudyError("no record of a trace", file=path, line=number)
    kinds = GRAMMAR[words[1]]
    if len(words) != 2 + len(kinds):
        raise StudyError(f"`{words[1]}` has {len(kinds)} fields, not {len(words) - 2}", file=path, line=number)
    clock = _number(path, number, "n", words[0])
    if clock < before:
        raise StudyError(f"the clock goes back from {before} to {clock}", file=path, line=number)
    return Record(
        number, clock, words[1], tuple([field(path, number, kind, word) for kind, word in zip(kinds, words[2:])])
    )


def read_end(path: str, number: int, text: str, before: int) -> str:
    """The digest that the last line of a trace has."""
    words = text.rstrip("\n").split(" ")
    if len(words) != 3 or words[1] != "end" or not DIGEST.fullmatch(words[2]):
        raise StudyError("no record of a trace", file=path, line=number)
    if _number(path, number, "n", words[0]) < before:
        raise StudyError(f"the clock goes back from {before} to {words[0]}", file=path, line=number)
    return words[2]


def record_text(record: Record) -> str:
    """A record as a line of a trace, without its end."""
    words = ["-" if word is None else str(word).replace(" ", "") for word in record.words]
    return " ".join([str(record.clock), record.kind, *words])


def _number(path: str, line: int | None, kind: str, word: str) -> int:
    """A number, or an id, which is not 0."""
    if not NUMBER.fullmatch(word) or (kind != "n" and word == "0") or int(word) > MOST:
        raise StudyError(f"`{shown(word)}` is no {'number' if kind == 'n' else 'id'}", file=path, line=line)
    return int(word)
