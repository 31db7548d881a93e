"""A trace of `tora sim --trace` as DataFrames; one that is cut, foreign or wrong is refused with the line at fault.

All times are ticks of 100 ms. Every DataFrame has its rows in the order of the trace, and `line` is the line of the
trace, from 1.
"""
from __future__ import annotations

import dataclasses
import functools
import os
from collections.abc import Iterator, Sequence
from typing import TYPE_CHECKING, Any

import numpy as np
import numpy.typing as npt
import pandas as pd

from tora.errors import StudyError
from tora.files import Path
from tora.reading import read_parts
from tora.records import BETWEEN, CODES, KINDS, OF_LINKS, Header, Height, Record, Value

if TYPE_CHECKING:
    from tora.scenario import Scenario

Numbers = npt.NDArray[np.int64]
HEIGHT_PARTS = ("tau", "oid", "r", "delta", "id")
HEIGHT = slice(2, 7)  # of the fields of a `route` record
EVENTS = ("part", "mend", "up", "down")
PACKETS = {"qry": "QRY", "upd": "UPD", "clr": "CLR"}
BLOCK = 1 << 16  # records that are numbers of Python at once


class Trace:
    """The records of a trace.

    Attributes
    ----------
    path : str
    header : Header or None
        The first record; None for a trace of another simulator, which has no such record.
    digest : str or None
        SHA-256 of the simulation file, from the last record; None if there is no header.
    clocks : array of int64, shape (records,)
        The tick of each record, in the order of the trace.
    kinds : array of uint8, shape (records,)
        The kind of each record, as an index into `tora.records.KINDS`.
    columns : dict
        By kind of record its fields, an array of int64, shape (fields, records of the kind). 0 means ``-`` in the
        place of an id; a height is five fields, tau, oid, r, delta and id, which are all 0 for ``-``.
    """

    def __init__(
        self, path: str, header: Header | None, digest: str | None, end_line: int, clocks: Numbers,
        kinds: npt.NDArray[np.uint8], columns: dict[str, Numbers],
    ) -> None:
        """The trace of what `tora.reading.read_parts` answers."""
        self.path, self.header, self.digest, self._end_line = path, header, digest, end_line
        self.clocks, self.kinds, self.columns = clocks, kinds, columns

    @classmethod
    def read(cls, path: Path) -> Trace:
        """Reads a trace once, so that it may be a pipe.

        Raises
        ------
        StudyError
            If the trace is empty or incomplete, a line is no record, the clock goes back, or the trace continues after
            its last record; with the line.
        """
        return cls(os.fspath(path), *read_parts(os.fspath(path)))

    def __len__(self) -> int:
        """The number of records, without the first and the last one of the trace."""
        return len(self.clocks)

    @property
    def first_line(self) -> int:
        """The line of the first record: 2 if there is a header, else 1."""
        return 1 if self.header is None else 2

    def places(self, *kinds: str) -> Numbers:
        """The indexes, from 0, of the records of these kinds."""
        found = [self._places[kind] for kind in kinds]
        return found[0] if len(found) == 1 else np.sort(np.concatenate(found))

    def rounds(self) -> Numbers:
        """The round of each record, shape (records,).

        A record between rounds has the clock of the round that has ended, and belongs to the next round. Any other
        record belongs to the round that ends at its clock, or to the next one if it follows a record between rounds.
        """
        between = np.isin(self.kinds, [CODES[kind] for kind in BETWEEN])
        return np.maximum.accumulate(np.maximum(self.clocks + between, 1))

    @functools.cached_property
    def _places(self) -> dict[str, Numbers]:
        """By kind the indexes of its records."""
        return {kind: np.flatnonzero(self.kinds == code) for kind, code in CODES.items()}

    def height(self, place: int) -> Height | None:
        """The height of a `route` record, by its index among these, from 0; None for NULL, and for the index -1."""
        if place < 0:
            return None
        tau, oid, r, delta, node = self.columns["route"][HEIGHT, place].tolist()
        return (tau, oid, r, delta, node) if node else None

    def route_changes(self) -> Iterator[tuple[int, int, int, int | None]]:
        """Yields for each `route` record the node, the destination, an index, and the next hop.

        The index is the record's among the `route` records, or -1 if the height is NULL.
        """
        node, destination, *_, own, hop = self.columns["route"]
        places = np.where(own == 0, -1, np.arange(len(own)))
        for one, to, place, by in rows_of(node, destination, places, hop):
            yield one, to, place, by or None

    def records(self) -> Iterator[Record]:
        """Yields the records in order, without the first and the last one of the trace."""
        rows = [self._rows(kind) for kind in KINDS]
        for line, (clock, code) in enumerate(zip(self.clocks.tolist(), self.kinds.tolist()), self.first_line):
            yield Record(line, clock, KINDS[code], next(rows[code]))

    def check(self, scenario: Scenario) -> Scenario:
        """Refuses a trace of another scenario, or one that ends before the scenario does.

        Returns
        -------
        Scenario
            The scenario up to the last round of the run, which may be earlier than the scenario's last round.

        Raises
        ------
        StudyError
            With the line of the trace.
        """
        covered = self._covered(scenario)
        self._check_names(covered)
        if not len(self):
            raise StudyError("the trace is empty", file=self.path, line=1)
        last = int(self.clocks[-1])
        # every link end says HELLO in each interval, so that there are records up to the end
        if covered.times and last <= covered.rounds - covered.times[0]:
            line = self.first_line + len(self) - 1
            raise StudyError(
                f"the trace ends in round {last} of {covered.rounds}: it is cut", file=self.path, line=line
            )
        if self.header is not None and covered.times and self.header.times != tuple(covered.times):
            told = f"the times are {list(self.header.times)}, and those of the scenario are {list(covered.times)}"
            raise StudyError(told, file=self.path, line=1)
        if self.header is not None and covered.digest not in (None, self.digest):
            raise StudyError(
                "the trace is of another simulation file than that of the scenario", file=self.path, line=self._end_line
            )
        return covered

    def heights(self) -> pd.DataFrame:
        """Changes of heights.

        Returns
        -------
        DataFrame
            A row for each change. `tick`, `node`, `destination` (int64); `tau`, `oid`, `r`, `delta`, `id` (Int64, all
            missing if the height is NULL from then on); `line` (int64). At first every height is NULL, except (0, 0,
            0, 0, D) of a destination D for itself.
        """
        node, destination, *parts, _ = self.columns["route"]
        first = np.zeros_like(parts)
        first[-1] = np.where(node == destination, destination, 0)
        changed = _changes(node, destination, np.array(parts), first)
        table = self._table("route", node=node, destination=destination, **_height_columns(parts))
        return table[["tick", "node", "destination", *HEIGHT_PARTS, "line"]][changed].reset_index(drop=True)

    def routes(self) -> pd.DataFrame:
        """Changes of next hops.

        Returns
        -------
        DataFrame
            A row for each change. `tick`, `node`, `destination` (int64); `hop` (Int64, missing if there is no next
            hop from then on); `line` (int64). At first there is no next hop.
        """
        node, destination, *_, hop = self.columns["route"]
        table = self._table("route", node=node, destination=destination, hop=_nullable(hop, hop == 0))
        changed = _changes(node, destination, hop[None], np.zeros((1, len(hop)), np.int64))
        return table[["tick", "node", "destination", "hop", "line"]][changed].reset_index(drop=True)

    def links(self) -> pd.DataFrame:
        """Changes of links.

        Returns
        -------
        DataFrame
            A row for each record. `tick` (int64); `event` (category: part, mend, up, down); `node`, `neighbour`
            (int64); `own_life`, `peer_life` (Int64, missing for part and mend); `line` (int64).
        """
        parts = []
        for kind in EVENTS:
            fields = self.columns[kind]
            lives = fields[2:] if len(fields) == 4 else np.zeros((2, fields.shape[1]), np.int64)
            own, peer = (_nullable(it, np.full(it.shape, len(fields) != 4)) for it in lives)
            parts.append(
                self._table(kind, event=kind, node=fields[0], neighbour=fields[1], own_life=own, peer_life=peer)
            )
        found = _merged(parts)
        found["event"] = pd.Categorical(found["event"], EVENTS)
        return found[["tick", "event", "node", "neighbour", "own_life", "peer_life", "line"]]

    def packets(self) -> pd.DataFrame:
        """Control packets that were broadcast.

        Returns
        -------
        DataFrame
            A row for each broadcast. `tick` (int64); `kind` (category: QRY, UPD, CLR); `node`, `destination`, `copies`
            (int64: neighbours whose links were up); `tau`, `oid`, `r`, `delta`, `id` (Int64: of an UPD the height, of a
            CLR the level with `r` 1, else missing); `line` (int64).
        """
        parts = []
        for kind, word in PACKETS.items():
            node, destination, copies, *more = self.columns[kind]
            none = np.zeros_like(node)
            heights = _height_columns(more if kind == "upd" else [none] * len(HEIGHT_PARTS))
            if kind == "clr":
                told = [*more, np.ones_like(node)]
                heights |= {part: _nullable(value, none > 0) for part, value in zip(HEIGHT_PARTS, told)}
            parts.append(self._table(kind, kind=word, node=node, destination=destination, copies=copies, **heights))
        found = _merged(parts)
        found["kind"] = pd.Categorical(found["kind"], PACKETS.values())
        return found[["tick", "kind", "node", "destination", "copies", *HEIGHT_PARTS, "line"]]

    def needs(self) -> pd.DataFrame:
        """Needs: `tick` of the round that has ended, `node`, `destination`, `line` (all int64)."""
        node, destination = self.columns["need"]
        return self._table("need", node=node, destination=destination)[["tick", "node", "destination", "line"]]

    def datagrams(self) -> pd.DataFrame:
        """Datagrams that were sent since the row before.

        Returns
        -------
        DataFrame
            `tick`, `hello`, `data`, `acknowledgement`, `undelivered` (those of the others that went over a parted
            link), `line` (all int64).
        """
        names = ("hello", "data", "acknowledgement", "undelivered")
        return self._table("frames", **dict(zip(names, self.columns["frames"])))[["tick", *names, "line"]]

    def _table(self, of: str, /, **columns: Any) -> pd.DataFrame:
        """The records of a kind with their ticks and lines."""
        places = self.places(of)
        return pd.DataFrame({"tick": self.clocks[places], **columns, "line": places + self.first_line})

    def _rows(self, kind: str) -> Iterator[tuple[Value, ...]]:
        """Yields the fields of the records of a kind."""
        for row in zip(*self.columns[kind].tolist()):
            if kind == "route":
                yield row[0], row[1], row[HEIGHT] if row[-2] else None, row[-1] or None
            elif kind == "upd":
                yield (*row[:3], row[3:] if row[-1] else None)
            else:
                yield row

    def _covered(self, scenario: Scenario) -> Scenario:
        """The scenario as far as the run goes."""
        last = None if self.header is None else self.header.until
        if last == 0 or scenario.rounds == 0:
            raise StudyError("the run has no round", file=self.path, line=1)
        if last is None or last >= scenario.rounds:
            return scenario
        return dataclasses.replace(scenario, rounds=last)

    def _check_names(self, scenario: Scenario) -> None:
        """Refuses the first record of a link, a node or a destination that the scenario has not.

        A need may be of any destination.
        """
        told: list[tuple[int, str]] = []
        for kind in KINDS:
            if kind == "frames":
                continue
            a, b, *more = self.columns[kind]
            if kind in OF_LINKS:
                wrong, cause = ~_are_links(scenario, a, b), "no link of the scenario"
            else:
                wrong, cause = ~np.isin(a, scenario.linked), "no node or no destination of the scenario"
                wrong |= False if kind == "need" else ~np.isin(b, scenario.destinations)
            told += self._first_wrong(kind, wrong, scenario.rounds, cause)
            if kind == "route":
                hop = more[-1]
                wrong = (hop != 0) & ~_are_links(scenario, a, hop)
                cause = "the next hop {1} is no neighbour of {0}"
                told += self._first_wrong(kind, wrong, scenario.rounds, cause, a, hop)
        if told:
            line, cause = min(told, key=lambda it: it[0])
            raise StudyError(cause, file=self.path, line=line)

    def _first_wrong(
        self, kind: str, wrong: npt.NDArray[np.bool_], last: int, cause: str, *fields: Numbers
    ) -> list[tuple[int, str]]:
        """The line of the first wrong record of a kind up to a round, and its cause with fields, if there is one."""
        places = self.places(kind)
        found = np.flatnonzero(wrong & (self.clocks[places] <= last))
        if not len(found):
            return []
        return [(int(places[found[0]]) + self.first_line, cause.format(*(field[found[0]] for field in fields)))]


def rows_of(*arrays: npt.NDArray[Any]) -> Iterator[tuple[int, ...]]:
    """Yields the values at each place of arrays of one length, as numbers of Python: block by block, since these take much memory."""
    for start in range(0, len(arrays[0]), BLOCK):
        yield from zip(*(array[start:start + BLOCK].tolist() for array in arrays))


def _are_links(scenario: Scenario, a: Numbers, b: Numbers) -> npt.NDArray[np.bool_]:
    """Which pairs are links of a scenario, either way round."""
    declared = np.asarray(scenario.links, np.int64).reshape(-1, 2)
    size = int(declared.max(initial=0)) + 1
    low, high = np.minimum(a, b), np.maximum(a, b)
    keys = np.where((low >= 0) & (high < size), low * size + high, -1)
    found: npt.NDArray[np.bool_] = np.isin(keys, declared[:, 0] * size + declared[:, 1])
    return found


def _order(node: Numbers, destination: Numbers) -> Numbers:
    """The order of records by node and destination, and then by their place."""
    order: Numbers = np.lexsort((destination, node))
    return order


def _firsts(node: Numbers, destination: Numbers) -> npt.NDArray[np.bool_]:
    """Which records are the first ones of their node and destination."""
    order, found = _order(node, destination), np.ones(len(node), bool)
    found[order[1:]] = (np.diff(node[order]) != 0) | (np.diff(destination[order]) != 0)
    return found


def _changes(node: Numbers, destination: Numbers, values: Numbers, first: Numbers) -> npt.NDArray[np.bool_]:
    """Which records have other values than the record before of the same node and destination.

    Where there is none before, the values are compared with `first`.

    `values` and `first` have the shape (values of a record, records).
    """
    order, is_first = _order(node, destination), _firsts(node, destination)
    found: npt.NDArray[np.bool_] = np.any(values != first, axis=0)
    other = np.any(np.diff(values[:, order], axis=1) != 0, axis=0)
    found[order[1:]] = np.where(is_first[order[1:]], found[order[1:]], other)
    return found


def _nullable(values: Numbers, missing: npt.NDArray[np.bool_]) -> Any:
    """Numbers as an array of Int64, some of them missing."""
    return pd.arrays.IntegerArray(np.where(missing, 0, values), np.asarray(missing, bool))


def _height_columns(parts: Sequence[Numbers]) -> dict[str, Any]:
    """The parts of heights as columns, all of them missing where the last one, the id, is 0."""
    return {name: _nullable(part, parts[-1] == 0) for name, part in zip(HEIGHT_PARTS, parts)}


def _merged(parts: list[pd.DataFrame]) -> pd.DataFrame:
    """Tables as one in the order of the trace."""
    return pd.concat(parts, ignore_index=True).sort_values("line", kind="stable", ignore_index=True)
