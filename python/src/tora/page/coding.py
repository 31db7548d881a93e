"""The data in a page: a run and the records of its trace, coded so that each says only what is new.

A page holds two scripts that are no program: `run`, a JSON object, and `trace`, bytes in base 64. All numbers in the bytes
are varints: seven bits a byte, the low ones first, the highest bit set in all bytes but the last; z stands for a number of
either sign, 2n or -2n-1. First come the places (x and y of each node, z, in tenths of a metre, for each sample less those of
the sample before), and then the records, each one

  kind + 16 * min(ticks since the last record, 15), the rest of these ticks where that is 15, and then its fields:

  i id    n number    k id, or 0 for `-`
  h height: 0 for `-`, 1 for that of the last update of the same node and destination, else 2, tau, oid, r, z delta, id
"""
from __future__ import annotations

import base64
import dataclasses
import json
import re
from collections.abc import Iterable, Sequence
from typing import Any

import numpy as np
import numpy.typing as npt

from tora.bounds import GREATEST_NODES
from tora.errors import StudyError
from tora.files import Path, reading
from tora.records import CODES, GRAMMAR, KINDS, Height, Record, Value
from tora.scenario import Scenario

MOST_TICKS = 15
MOST_BITS = 70  # of a varint: numbers of traces have up to twenty digits, and those of either sign one bit more
MOST_ROUNDS = 10_000_000  # the page keeps a few numbers for each
MOST_ID = 2**32 - 1
SCRIPT = '<script id="{}" type="application/octet-stream">'
Places = npt.NDArray[np.float64]


@dataclasses.dataclass(frozen=True)
class Page:
    """What a page holds.

    Attributes
    ----------
    run : dict
        Title, nodes, links, destinations, flows, rounds, and how many samples and records there are.
    places : array of float, shape (samples, nodes, 2)
        Metres, in tenths.
    records : list of Record
    """

    run: dict[str, Any]
    places: Places
    records: list[Record]


def signed(number: int) -> int:
    """A number of either sign as one that is not negative."""
    return 2 * number if number >= 0 else -2 * number - 1


def unsigned(number: int) -> int:
    """The number of either sign that `signed` made."""
    return -(number + 1) // 2 if number % 2 else number // 2


def put(sink: bytearray, number: int) -> None:
    """Appends a number as a varint."""
    while number > 127:
        sink.append(number & 127 | 128)
        number >>= 7
    sink.append(number)


class Coder:
    """Codes records, one after the other."""

    def __init__(self) -> None:
        """No record yet."""
        self.bytes, self.clock = bytearray(), 0
        self.told: dict[tuple[Value, ...], Value] = {}

    def take(self, record: Record) -> None:
        """Appends a record."""
        ticks = record.clock - self.clock
        self.clock = record.clock
        put(self.bytes, CODES[record.kind] + 16 * min(ticks, MOST_TICKS))
        if ticks >= MOST_TICKS:
            put(self.bytes, ticks - MOST_TICKS)
        for value in record.words:
            if isinstance(value, int):
                put(self.bytes, value)
            elif value is None:
                put(self.bytes, 0)
            else:
                self.height(record, value)
        if record.kind == "upd":
            self.told[record.words[:2]] = record.words[3]

    def height(self, record: Record, height: Height) -> None:
        """Appends a height."""
        if self.told.get(record.words[:2]) == height:
            put(self.bytes, 1)
            return
        tau, oid, r, delta, node = height
        for number in (2, tau, oid, r, signed(delta), node):
            put(self.bytes, number)


def page_data(title: str, scenario: Scenario, places: Places, records: Iterable[Record]) -> tuple[str, str]:
    """The two scripts of a page: the run, and its bytes.

    Parameters
    ----------
    title : str
    scenario : Scenario
        As far as the run goes.
    places : array of float, shape (samples, nodes with links, 2)
        Metres.
    records : records of the trace
    """
    sink, coder, count = bytearray(), Coder(), 0
    tenths = np.rint(places * 10).astype(np.int64).reshape(len(places), -1)
    for value in np.diff(tenths, axis=0, prepend=np.zeros((1, tenths.shape[1]), np.int64)).ravel().tolist():
        put(sink, signed(value))
    for record in records:
        coder.take(record)
        count += 1
    run = {
        "title": title, "nodes": list(scenario.linked), "samples": len(places), "records": count, "destinations": list(scenario.destinations),
        "links": [list(link) for link in scenario.links], "flows": [list(flow) for flow in scenario.flows], "rounds": scenario.rounds,
        "times": list(scenario.times) if scenario.times else None, "sample": scenario.sample if len(places) > 1 else None, "seed": scenario.seed,
        "kinds": list(GRAMMAR.items()),
    }
    text = json.dumps(run, separators=(",", ":")).replace("<", "\\u003c")
    return text, base64.encodebytes(bytes(sink + coder.bytes)).decode()


class Decoder:
    """Reads the bytes of a page again."""

    def __init__(self, path: str, data: bytes) -> None:
        """Before the first byte."""
        self.path, self.data, self.at, self.clock = path, data, 0, 0
        self.told: dict[tuple[Value, ...], Value] = {}

    def number(self) -> int:
        """The next varint."""
        value = shift = 0
        while True:
            if self.at >= len(self.data):
                raise StudyError("the bytes of the page are cut", file=self.path)
            byte = self.data[self.at]
            self.at += 1
            value |= (byte & 127) << shift
            shift += 7
            if byte < 128:
                return value
            if shift >= MOST_BITS:
                raise ValueError("a number is too large")

    def height(self, words: Sequence[Value]) -> Value:
        """The next height; `words` are the fields before it."""
        kind = self.number()
        if kind < 2:
            return self.told[tuple(words[:2])] if kind else None
        tau, oid, r, delta, node = (self.number() for _ in range(5))
        return tau, oid, r, unsigned(delta), node

    def record(self, line: int) -> Record:
        """The next record."""
        head = self.number()
        ticks = head >> 4
        self.clock += ticks if ticks < MOST_TICKS else ticks + self.number()
        words: list[Value] = []
        for kind in GRAMMAR[KINDS[head & 15]]:
            words.append(self.height(words) if kind == "h" else self.number() or (None if kind == "k" else 0))
        if KINDS[head & 15] == "upd":
            self.told[tuple(words[:2])] = words[3]
        return Record(line, self.clock, KINDS[head & 15], tuple(words))


def read_page(path: Path) -> Page:
    """What a page holds.

    Raises
    ------
    StudyError
        Where the file is no page, or its data are cut or damaged.
    """
    with reading(path, "utf-8") as source:
        text = source.read()
    try:
        return _read_scripts(str(path), text)
    except (ValueError, KeyError, IndexError, TypeError, RecursionError):
        raise StudyError("the data of this page are damaged", file=path) from None


def _script_of(path: str, text: str, name: str) -> str:
    """The text of one of the two scripts of a page."""
    found = re.search(re.escape(SCRIPT.format(name)) + "(.*?)</script>", text, re.DOTALL)
    if not found:
        raise StudyError("this is no page that plays a run", file=path)
    return found[1]


def _check_run(run: dict[str, Any]) -> None:
    """Refuses, as a ValueError, the run of a page that is none of a page."""
    for key, most in (("rounds", MOST_ROUNDS), ("samples", MOST_ROUNDS), ("records", MOST_ID)):
        if type(run[key]) is not int or not 0 <= run[key] <= most:
            raise ValueError(key)
    for key in ("nodes", "destinations"):
        if not run[key] or len(run[key]) > GREATEST_NODES or not all(type(it) is int and 1 <= it <= MOST_ID for it in run[key]):
            raise ValueError(key)


def _read_scripts(path: str, text: str) -> Page:
    """What the two scripts of a page hold."""
    run = json.loads(_script_of(path, text, "run"))
    _check_run(run)
    decoder = Decoder(path, base64.b64decode(_script_of(path, text, "trace")))
    width, samples = 2 * len(run["nodes"]), []
    for _ in range(run["samples"]):
        samples.append([unsigned(decoder.number()) for _ in range(width)])
    places = np.cumsum(np.array(samples, np.int64).reshape(run["samples"], width), axis=0).reshape(-1, len(run["nodes"]), 2) / 10
    held = [decoder.record(line) for line in range(1, run["records"] + 1)]
    if held and held[-1].clock > run["rounds"]:
        raise ValueError("a record after the last round")
    return Page(run, places, held)
