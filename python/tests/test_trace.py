"""How traces are read, what is refused, and what the DataFrames tell."""
from __future__ import annotations

import collections
import os
import pathlib
import random
import threading
from collections.abc import Callable

import numpy as np
import pandas as pd
import pytest
from conftest import RUNS, STORED, description, refusal, scenario_of
from traces import FLOWS, LINKS, ROUNDS, plain_records, random_trace

from tora import reading
from tora.errors import StudyError
from tora.records import Record, record_text
from tora.scenario import Scenario
from tora.trace import Trace

Write = Callable[..., str]
FIRST = "0 trace 1 10 50 5 8 100000 1 3 0 7 1\n"
LAST = f"2 end {'0' * 64}\n"
REFUSED = {
    "1 need 1 2": "1: the line is cut",
    "1 need 1 2\n1 need 1 3": "2: the line is cut",
    "1 need 1 2\n1  need 1 2\n": "2: no record of a trace",
    "1 need 1 2\n1 need 1\n": "2: `need` has 2 fields, not 1",
    "1 need 1 2\n1 need 1 2 3\n": "2: `need` has 2 fields, not 3",
    "1 need 1 2\n1 need 1 02\n": "2: `02` is no id",
    "1 need 1 2\n1 need 1 0\n": "2: `0` is no id",
    "1 need 1 2\n1 need 1 +2\n": "2: `+2` is no id",
    "1 need 1 2\n1 need 1 2\r\n": "2: `2\\r` is no id",
    "1 need 1 2\n1 need 1 ٣\n": "2: `",
    "1 need 1 2\n1 need 1 9223372036854775808\n": "2: `9223372036854775808` is no id",
    "01 need 1 2\n": "1: `01` is no number",
    "2 need 1 2\n1 need 1 2\n": "2: the clock goes back from 2 to 1",
    "1 upd 1 2 3 (0,0,0,1)\n": "1: `(0,0,0,1)` is no height",
    "1 upd 1 2 3 (0,0,2,1,1)\n": "1: `(0,0,2,1,1)` is no height",
    "1 upd 1 2 3 (00,0,0,1,1)\n": "1: `(00,0,0,1,1)` is no height",
    "1 upd 1 2 3 (0,0,0,-9999999999999999999,1)\n": "1: `(0,0,0,-9999999999999999999,1)` is no height",
    "1 need 1 " + "9" * 5000 + "\n": "1: `9999",
    "\n": "1: no record of a trace",
    "1\n": "1: no record of a trace",
    "hello world\n": "1: no record of a trace",
    "": "1: the trace is empty",
    FIRST: "1: the trace is cut: its last record `end` is missing",
    FIRST + "1 need 1 2\n": "2: the trace is cut: its last record `end` is missing",
    FIRST + "1 need 1 2\n" + LAST + "2 need 1 2\n": "4: the trace goes on after its last record",
    FIRST + "1 need 1 2\n" + LAST + LAST: "4: the trace goes on after its last record",
    FIRST + "3 need 1 2\n" + LAST: "3: the clock goes back from 3 to 2",
    FIRST + "1 need 1 2\n" + LAST.rstrip("\n"): "3: the line is cut",
    "1 need 1 2\n" + LAST: "2: no record of a trace",
    FIRST + "2 end 12\n": "2: no record of a trace",
    FIRST.rstrip("\n"): "1: the line is cut",
    FIRST.replace(" 1 ", " 2 ", 1): "1: a trace of version 2",
    FIRST.replace(" 8 ", " ", 1): "1: `trace` has 11 fields, not 10",
    FIRST.replace(" 1\n", " 1 300\n"): "1: `trace` has 11 fields, not 12",
    FIRST.replace(" 1\n", " 1 - - plain\n"): "1: `trace` has 11 fields, not 14",
    FIRST.replace(" 1\n", " 1 300 12\n"): "1: `12` is no digest",
    FIRST.replace(" 1\n", f" 1 x {'0' * 64}\n"): "1: `x` is no number",
    "\x00" * 1000: "1: the line is cut",
    bytes(range(256)).decode("latin-1") * 40: "1: no record",
}


@pytest.mark.parametrize("text", REFUSED)
@pytest.mark.parametrize("block", [1, 20, 1 << 16])
def test_refusals(text: str, block: int, written: Write, monkeypatch: pytest.MonkeyPatch) -> None:
    """Each is told with its line, whatever is read at once."""
    monkeypatch.setattr(reading, "BLOCK", block)
    path = written(text)
    assert refusal(lambda: Trace.read(path)).startswith(f"{path}:{REFUSED[text]}")


def test_records(written: Write) -> None:
    """The same line at the same clock, at a later one, and heights and `-`."""
    text = "1 need 1 2\n1 need 1 2\n2 need 1 2\n2 route 1 2 (0,0,0,-1,1) -\n2 route 1 2 - 2\n2 route 1 2 - -\n"
    found = list(Trace.read(written(text)).records())
    assert found[:3] == [Record(1, 1, "need", (1, 2)), Record(2, 1, "need", (1, 2)), Record(3, 2, "need", (1, 2))]
    assert [record.words for record in found[3:]] == [
        (1, 2, (0, 0, 0, -1, 1), None), (1, 2, None, 2), (1, 2, None, None)
    ]
    assert "".join(record_text(record) + "\n" for record in found) == text


def test_ends(written: Write) -> None:
    """The first and the last record are told apart from the others."""
    trace = Trace.read(written(FIRST + "1 need 1 2\n" + LAST))
    assert list(trace.records()) == [Record(2, 1, "need", (1, 2))]
    assert trace.header is not None and trace.digest == "0" * 64
    assert trace.header.times == (10, 50, 5, 8)
    assert [
        getattr(trace.header, name) for name in (
            "loss", "delay_least", "delay_most", "repeat", "channel_seed", "notice"
        )
    ] == [100000, 1, 3, 0, 7, 1]


@pytest.mark.parametrize(
    ("more", "wanted"),
    [
        ("", (None, None)), (" 300 -", (300, None)), (f" - {'a' * 64}", (None, "a" * 64)),
        (f" 0 {'a' * 64}", (0, "a" * 64))
    ]
)
def test_more(more: str, wanted: tuple[int | None, str | None], written: Write) -> None:
    """The last round and the digest of a channel file, which may be missing."""
    trace = Trace.read(written(FIRST.replace("\n", more + "\n") + "1 need 1 2\n" + LAST))
    assert trace.header is not None and (trace.header.until, trace.header.channel_file) == wanted


@pytest.mark.parametrize("run", RUNS)
def test_stored(run: str) -> None:
    """The records of stored traces are those line by line, and their texts are the trace."""
    path = STORED / f"{run}.trace"
    found = list(Trace.read(path).records())
    assert found == plain_records(str(path))
    assert "".join(record_text(record) + "\n" for record in found) == path.read_text()


def test_large_numbers(written: Write) -> None:
    """Numbers up to 2^63 - 1 are read as they are."""
    most = 2**63 - 1
    text = f"1 up 1 2 {2**62} {most}\n1 upd 1 2 3 ({2**62},1,0,{-most},1)\n{most} frames 1 1 1 {most}\n"
    trace = Trace.read(written(text))
    assert [record.words for record in trace.records()] == [
        (1, 2, 2**62, most), (1, 2, 3, (2**62, 1, 0, -most, 1)), (1, 1, 1, most)
    ]
    assert trace.clocks.tolist() == [1, 1, most]
    for number in (f"-{2**63}", f"-{2**64}"):
        path = written(text.replace(f"-{most}", number))
        assert refusal(lambda path=path: Trace.read(path)).startswith(f"{path}:2: ")


@pytest.mark.parametrize("seed", range(30))
def test_as_line_by_line(seed: int, written: Write) -> None:
    """A trace whose characters are spoiled at random is read, or refused, as line by line."""
    source = random.Random(seed)
    for _ in range(20):
        text = list(random_trace(source)[:400])
        for _ in range(source.randint(0, 2)):
            text[source.randrange(len(text))] = source.choice("0159 -(),\nnrx")
        lines = "".join(text).splitlines(True)
        quick = reading.read_quickly(lines)
        try:
            clocks, kinds, rows = reading.Reader("x").read_by_line(lines, 1)
        except StudyError:
            assert quick is None or np.any(np.diff(quick[0]) < 0)
            continue
        assert quick is not None and quick[0].tolist() == clocks.tolist() and quick[1].tolist() == kinds.tolist()
        assert {kind: some.tolist() for kind, some in quick[2].items()} == {
            kind: some.tolist() for kind, some in rows.items()
        }


def test_pipe(tmp_path: pathlib.Path) -> None:
    """A trace may be a pipe, which is read once."""
    pipe, text = tmp_path / "pipe", (STORED / "6-1.trace").read_text()
    os.mkfifo(pipe)
    writer = threading.Thread(target=pipe.write_text, args=(text,))
    writer.start()
    assert len(Trace.read(pipe)) == text.count("\n")
    writer.join()


def test_missing(tmp_path: pathlib.Path) -> None:
    """A trace that is not there, and a folder in its place, are named."""
    assert refusal(lambda: Trace.read(tmp_path / "none")) == f"{tmp_path}/none: No such file or directory"
    assert refusal(lambda: Trace.read(tmp_path)) == f"{tmp_path}: Is a directory"


@pytest.mark.parametrize("seed", range(20))
@pytest.mark.parametrize("block", [7, 100, 1 << 16])
def test_random(seed: int, block: int, written: Write, monkeypatch: pytest.MonkeyPatch) -> None:
    """Random traces are read as line by line, whatever is read at once."""
    monkeypatch.setattr(reading, "BLOCK", block)
    path = written(random_trace(random.Random(seed)))
    trace = Trace.read(path)
    assert list(trace.records()) == plain_records(path)
    trace.check(scenario_of(LINKS, FLOWS, ROUNDS))


def test_tables(written: Write) -> None:
    """Each table has the rows of its records, in their order, with their lines."""
    for seed in range(10):
        trace = Trace.read(written(random_trace(random.Random(seed))))
        records = list(trace.records())
        kinds = collections.Counter(record.kind for record in records)
        assert len(trace.needs()) == kinds["need"] and len(trace.datagrams()) == kinds["frames"]
        links, packets = trace.links(), trace.packets()
        assert links["line"].tolist() == [it.line for it in records if it.kind in ("part", "mend", "up", "down")]
        assert packets["line"].tolist() == [it.line for it in records if it.kind in ("qry", "upd", "clr")]
        for table in (links, packets, trace.needs(), trace.datagrams(), trace.routes(), trace.heights()):
            lines = dict(zip(table["line"], table["tick"]))
            assert all(records[line - 1].clock == tick for line, tick in lines.items())


def test_changes(written: Write) -> None:
    """Heights and routes have a row where the height, or the next hop, is another than before; folded they are those of
    the records.
    """
    for seed in range(10):
        trace = Trace.read(written(random_trace(random.Random(seed))))
        hops: dict[tuple[int, int], int | None] = {}
        heights: dict[tuple[int, int], object] = {}
        moved, lifted = [], []
        for record in trace.records():
            if record.kind == "route":
                node, destination, height, hop = record.words
                key = node, destination
                if hops.get(key) != hop:
                    moved.append((record.line, hop))
                if heights.get(key, (0, 0, 0, 0, destination) if node == destination else None) != height:
                    lifted.append((record.line, height))
                hops[key], heights[key] = hop, height
        routes, table = trace.routes(), trace.heights()
        assert [(line, None if hop is pd.NA else hop) for line, hop in zip(routes["line"], routes["hop"])] == moved
        parts = table[["tau", "oid", "r", "delta", "id"]].to_numpy(object, na_value=None)
        assert [(line, None if row[0] is None else tuple(row)) for line, row in zip(table["line"], parts)] == lifted


def test_types() -> None:
    """The columns and their types, of a trace with and without records."""
    wanted = {
        "heights": {
            "tick": "int64", "node": "int64", "destination": "int64", "tau": "Int64", "oid": "Int64", "r": "Int64",
            "delta": "Int64", "id": "Int64", "line": "int64"
        },
        "routes": {"tick": "int64", "node": "int64", "destination": "int64", "hop": "Int64", "line": "int64"},
        "links": {
            "tick": "int64", "event": "category", "node": "int64", "neighbour": "int64", "own_life": "Int64",
            "peer_life": "Int64", "line": "int64"
        },
        "packets": {
            "tick": "int64", "kind": "category", "node": "int64", "destination": "int64", "copies": "int64",
            "tau": "Int64", "oid": "Int64", "r": "Int64",
            "delta": "Int64", "id": "Int64", "line": "int64",
        },
        "needs": {"tick": "int64", "node": "int64", "destination": "int64", "line": "int64"},
        "datagrams": {
            "tick": "int64", "hello": "int64", "data": "int64", "acknowledgement": "int64", "undelivered": "int64",
            "line": "int64"
        },
    }
    for trace in (Trace.read(STORED / "7-9.trace"), Trace.read(STORED / "6-1.trace")):
        for name, types in wanted.items():
            assert {column: str(kind) for column, kind in getattr(trace, name)().dtypes.items()} == types


def test_types_of_few_records(written: Write) -> None:
    """A trace of one record has tables of the same columns, that are empty."""
    trace = Trace.read(written("1 need 1 2\n"))
    for name in ("heights", "routes", "links", "packets", "datagrams"):
        table, full = getattr(trace, name)(), getattr(Trace.read(STORED / "7-9.trace"), name)()
        assert len(table) == 0 and list(table.columns) == list(full.columns)
        assert table.dtypes.astype(str).to_dict() == full.dtypes.astype(str).to_dict()


def test_packets(written: Write) -> None:
    """A query has no height, an update all of it, and a clear its level."""
    trace = Trace.read(written("1 qry 1 3 2\n1 upd 2 3 4 (7,3,1,-1,2)\n2 upd 2 3 4 -\n2 clr 2 3 0 7 3\n"))
    table = trace.packets().astype(object).where(trace.packets().notna(), None)
    assert table.drop(columns="line").values.tolist() == [
        [1, "QRY", 1, 3, 2, None, None, None, None, None], [1, "UPD", 2, 3, 4, 7, 3, 1, -1, 2],
        [2, "UPD", 2, 3, 4, None, None, None, None, None],
        [2, "CLR", 2, 3, 0, 7, 3, 1, None, None],
    ]


def test_rounds(written: Write) -> None:
    """Records between rounds are of the next one, and so is all that stands after them at their clock."""
    trace = Trace.read(written("0 need 1 2\n1 qry 1 2 1\n1 part 1 2\n1 frames 1 0 0 0\n2 frames 1 0 0 0\n"))
    assert trace.rounds().tolist() == [1, 1, 2, 2, 2]


@pytest.mark.parametrize(
    ("line", "cause"),
    [
        ("60 part 1 6", "no link of the scenario"), ("60 up 1 6 1 1", "no link of the scenario"),
        ("60 up 6 1 1 1", "no link of the scenario"),
        ("60 need 9 5", "no node or no destination"), ("60 qry 1 4 2", "no node or no destination"),
        ("60 upd 9 5 2 -", "no node or no destination"),
        ("60 route 1 5 - 4", "the next hop 4 is no neighbour of 1"),
        ("60 route 1 5 - 9999999999", "the next hop 9999999999 is no neighbour of 1"),
        ("60 clr 9999999999 5 1 1 1", "no node or no destination"), ("60 mend 9999999999 1", "no link of the scenario"),
    ],
)
def test_foreign(line: str, cause: str, written: Write) -> None:
    """A record of what the scenario has not is told with its line, the first of several; after the last round it does
    not count.
    """
    text, scenario = random_trace(random.Random(1)), scenario_of(LINKS, FLOWS, ROUNDS)
    path = written(f"{text}{line}\n60 part 2 6\n")
    assert refusal(lambda: Trace.read(path).check(scenario)).startswith(f"{path}:{text.count(chr(10)) + 1}: {cause}")
    Trace.read(written(text + line.replace("60", "61", 1) + "\n")).check(scenario)
    Trace.read(written(text + "60 need 1 99\n")).check(scenario)


def test_other_scenario(written: Write) -> None:
    """A trace of other times, of another simulation file, or of another run."""
    text = random_trace(random.Random(1))
    path = written(f"0 trace 1 10 50 5 8 0 0 0 0 0 0\n{text}60 end {'0' * 64}\n")
    lines, trace = text.count("\n"), Trace.read(path)
    trace.check(scenario_of(LINKS, FLOWS, ROUNDS, digest="0" * 64))
    told = refusal(lambda: trace.check(scenario_of(LINKS, FLOWS, ROUNDS, digest="1" * 64)))
    assert told == f"{path}:{lines + 2}: the trace is of another simulation file than that of the scenario"
    told = refusal(lambda: trace.check(scenario_of(LINKS, FLOWS, ROUNDS, times=[10, 50, 5, 7])))
    assert told.startswith(f"{path}:1: the times are [10, 50, 5, 8]")
    for mine, other in (("7-9", "6-1"), ("8-1", "8-2")):
        assert "no link of the scenario" in refusal(
            lambda: Trace.read(STORED / f"{mine}.trace").check(Scenario.read(STORED / f"{other}.json"))
        )


def test_cut(written: Write) -> None:
    """A trace without a header that ends before its run does."""
    path = written("".join((STORED / "6-1.trace").read_text().splitlines(True)[:300]))
    assert refusal(
        lambda: Trace.read(path).check(Scenario.read(STORED / "6-1.json"))
    ) == f"{path}:300: the trace ends in round 230 of 300: it is cut"
    path = written(f"{FIRST}{LAST}")
    assert refusal(lambda: Trace.read(path).check(scenario_of(LINKS, FLOWS, ROUNDS))) == f"{path}:1: the trace is empty"


@pytest.mark.parametrize(("last", "rounds"), [("50", 50), ("60", 60), ("5000", 60), ("0", None)])
def test_until(last: str, rounds: int | None, written: Write) -> None:
    """A run that has ended before the scenario's last round goes as far as it goes."""
    path = written(f"0 trace 1 10 50 5 8 0 0 0 0 0 0 {last} -\n{random_trace(random.Random(1))}60 end {'0' * 64}\n")
    scenario = scenario_of(LINKS, FLOWS, ROUNDS)
    if rounds is None:
        assert refusal(lambda: Trace.read(path).check(scenario)) == f"{path}:1: the run has no round"
    else:
        assert Trace.read(path).check(scenario).rounds == rounds
    assert description(LINKS, FLOWS, ROUNDS)["rounds"] == scenario.rounds == 60
