"""Groups of runs: never pooled in silence; pairs; and what is told."""
from __future__ import annotations

import csv
import io
import math
import re
import statistics
from pathlib import Path

import pytest

from tora.derived import with_derived
from tora.errors import UsageError
from tora.summary import Summary, compare, csv_text, keys_of, markdown_lines, summarize, text_lines
from tora.table import Table, read_table, table_of

STORED = Path(__file__).parents[2] / "docs" / "studies"
RUNS = Path(__file__).parent / "stored"


def comparison(rows: list[str]) -> Table:
    """A table of the ns-3 comparison."""
    return table_of("\n".join(["protocol,nodes,speed,flows,seed,control_rate,delivery", *rows, ""]).encode(), "t.csv")


def grid(seeds: int = 6) -> Table:
    """Two protocols, two sizes, two numbers of flows; delivery is a share that tells the run."""
    return comparison([
        f"{protocol},{nodes},5,{flows},{seed},{seed},{0.5 + nodes / 1000 + flows / 100 + seed / 1000 + (protocol == 'TORA') / 10}"
        for protocol in ("AODV", "TORA") for nodes in (20, 50) for flows in (5, 10) for seed in range(1, seeds + 1)
    ])


def row_of(summary: Summary, **wanted: object) -> dict[str, float]:
    """The one row with these cells."""
    found = [row for row in summary.rows.to_dict("records") if all(row[key] == value for key, value in wanted.items())]
    assert len(found) == 1
    return dict(found[0])


def test_groups_are_what_the_design_makes() -> None:
    """Each protocol, size and number of flows has a row of its own; the speed does not vary."""
    summary = summarize(grid(), ["delivery"])
    assert summary.keys == ["protocol", "nodes", "flows"]
    assert len(summary.rows) == 8 and set(summary.rows["runs"]) == {6}
    assert row_of(summary, protocol="AODV", nodes=20, flows=5)["value"] == pytest.approx(0.5 + 0.02 + 0.05 + 0.0035)


def test_stored_comparison_is_not_pooled() -> None:
    """Our own table of 20 and 50 nodes with 5 and 10 flows: 20 runs of AODV in each group, not 80 in one."""
    summary = summarize(read_table(STORED / "ns3-proved.csv"), ["delivery"])
    assert summary.keys == ["protocol", "nodes", "speed", "flows"]
    assert set(summary.rows[summary.rows["protocol"] == "AODV"]["runs"]) == {20}


def test_pools_are_asked_for_and_told() -> None:
    """Pooled runs of a seed are one value, and the header says what is pooled."""
    summary = summarize(grid(), ["delivery"], pool=["nodes", "flows"])
    assert summary.keys == ["protocol"] and list(summary.rows["runs"]) == [6, 6]
    row = row_of(summary, protocol="AODV")
    assert row["least"] == pytest.approx(statistics.fmean(0.5 + n / 1000 + f / 100 + 0.001 for n in (20, 50) for f in (5, 10)))
    assert any("pooled in one interval: nodes = 20, 50" in line for line in summary.header)
    assert any("pooled in one interval: flows = 5, 10" in line for line in summary.header)


@pytest.mark.parametrize(
    ("pool", "drop", "cause"),
    [
        (["speed"], "", "all runs have one value of speed"),
        (["delivery"], "", "no column of the design"),
        (["nodes"], "AODV,50,5,5,3", "seed 3 has 1 of the 2 runs"),
        (["nodes"], "TORA,50", "no run of nodes=50 with protocol=TORA"),
    ],
)
def test_refused_pools(pool: list[str], drop: str, cause: str) -> None:
    """What does not vary, what is no design, a seed that lacks a run, and groups that can't be compared."""
    frame = grid().frame
    lines = [",".join([str(row[0]), *(f"{it:g}" for it in row[1:])]) for row in frame.itertuples(index=False)]
    table = comparison([line for line in lines if not drop or not line.startswith(drop)])
    with pytest.raises(UsageError, match=cause):
        summarize(table, ["delivery"], pool=pool)


def test_columns_that_vary_together() -> None:
    """Flows that go with nodes make no groups of their own, and are told; to pool nodes alone is refused."""
    table = with_derived(read_table(STORED / "study.csv"))
    assert keys_of(table) == (["nodes"], {"flows": "nodes"})
    with pytest.raises(UsageError, match="flows tells the values of nodes apart"):
        keys_of(table, ["nodes"])
    assert "flows varies with nodes" in summarize(table, ["available"]).header[0]


def test_stored_medians() -> None:
    """The medians of the stored study are those of the standard library's `statistics`."""
    summary = summarize(read_table(STORED / "study.csv"), ["available", "update"], statistic="median")
    with open(STORED / "study.csv", encoding="ascii", newline="") as source:
        rows = list(csv.DictReader(source))
    for nodes in (10, 20, 40):
        for name in ("available", "update"):
            values = sorted(float(row[name]) for row in rows if row["nodes"] == str(nodes))
            row = row_of(summary, nodes=nodes, measure=name)
            assert row["value"] == statistics.median(values)
            assert (row["low"], row["high"]) == (values[5], values[14])
            assert (row["least"], row["greatest"]) == (values[0], values[-1])


def test_stored_summary() -> None:
    """Median, least and greatest of five stored runs are those that a summary of another making had."""
    table = read_table(RUNS / "study.csv")
    for line in (RUNS / "summary").read_text().splitlines():
        name, *cells = line.split(maxsplit=1)[0], *re.findall(r"(\S+) \[(\S+) \.\. (\S+)\]", line)
        summary = summarize(table, [name], statistic="median")
        told = [tuple(f"{row[part]:.4g}" for part in ("value", "least", "greatest")) for row in summary.rows.to_dict("records") if row["runs"] > row["without"]]
        assert told == cells, name


def test_empty_cells_are_counted() -> None:
    """A run without a value of the measure is left out of it, and counted."""
    table = comparison([f"AODV,20,5,5,{seed},{'' if seed == 2 else seed},1" for seed in range(1, 8)])
    row = row_of(summarize(table, ["control_rate"]), measure="control_rate")
    assert (row["runs"], row["without"], row["value"]) == (6, 1, pytest.approx((28 - 2) / 6))


def test_intervals_are_possible() -> None:
    """No end of a stored delivery is above 1, and none of a delay below 0."""
    for name in ("ns3", "ns3-proved"):
        rows = summarize(read_table(STORED / f"{name}.csv"), ["delivery", "delay_95"]).rows
        assert not (rows[rows["measure"] == "delivery"]["high"] > 1).any()
        assert not (rows["low"] < 0).any()


def test_pairs() -> None:
    """TORA delivers 0.1 more in each pair; quotients are of each pair, and not of the means."""
    less = compare(grid(), {"protocol": "AODV"}, ["delivery"])
    assert less.keys == ["protocol", "nodes", "flows"] and set(less.rows["pairs"]) == {6}
    assert less.rows["value"].tolist() == pytest.approx([0.1] * 4)
    assert less.rows["p"].tolist() == pytest.approx([2 / 64] * 4)
    assert less.rows["p_holm"].tolist() == pytest.approx([8 / 64] * 4)
    times = compare(comparison([f"{p},20,5,5,{s},{s * (1 + (p == 'TORA') * s)},1" for p in ("AODV", "TORA") for s in range(1, 7)]), {"protocol": "AODV"}, ["control_rate"], ratio=True)
    assert times.rows["value"].tolist() == pytest.approx([statistics.fmean(1 + s for s in range(1, 7))])


def test_runs_without_a_partner() -> None:
    """They are left out and counted; without any pair there is no comparison, nor by a 0."""
    rows = [f"AODV,20,5,5,{s},1,1" for s in range(1, 6)] + [f"TORA,20,5,5,{s},1,1" for s in range(1, 8)]
    summary = compare(comparison(rows), {"protocol": "AODV"}, ["delivery"])
    assert list(summary.rows["pairs"]) == [5] and any("2 runs have no partner" in line for line in summary.header)
    for changed, baseline, cause in (
        (["AODV,20,5,5,1,1,1", "TORA,20,6,5,1,1,1"], "AODV", "no run has a partner"),
        (["AODV,20,5,5,1,0,1", "TORA,20,5,5,1,1,1"], "AODV", "t.csv:2: control_rate is 0 here"),
        (["AODV,20,5,5,1,0,1"], "OLSR", "no run has protocol=OLSR"),
    ):
        with pytest.raises(UsageError, match=cause):
            compare(comparison(changed), {"protocol": baseline}, ["control_rate"], ratio=True)


def test_a_column_that_is_missing() -> None:
    """`docs/studies/ns3.csv` has no column of losses."""
    with pytest.raises(UsageError, match="there is no column `lost_radio`"):
        summarize(read_table(STORED / "ns3.csv"), ["lost_radio"])


def test_derived_figures() -> None:
    """Of 400 rounds and flows a half has a path, and in a tenth of these the route does not work: 20, by 5 outages, or by none."""
    head = "nodes,seed,rounds,silence_ticks,flows,available,connected,outages,query,update,clear"
    table = with_derived(table_of(f"{head}\n10,1,100,50,4,0.9,0.5,5,1,2,3\n10,2,100,50,4,0.9,0.5,0,1,2,\n".encode(), "t.csv"))
    assert table.frame["rounds_lost_by_outage"].tolist()[0] == pytest.approx(4)
    assert math.isnan(table.frame["rounds_lost_by_outage"].tolist()[1])
    assert table.frame["control"].tolist()[0] == 6 and math.isnan(table.frame["control"].tolist()[1])
    assert table.frame["control_per_node"].tolist()[0] == pytest.approx(0.6)
    assert table.frame["unavailable"].tolist() == [0.1, 0.1]


def test_forms() -> None:
    """Text, Markdown and CSV tell the same, each with what was pooled and how intervals are made."""
    summary = summarize(grid(), ["delivery"], pool=["nodes", "flows"])
    text, markdown = text_lines(summary), markdown_lines(summary)
    assert text[0].startswith("# t.csv: 48 runs; groups by protocol")
    assert any("scipy.stats.bootstrap" in line for line in text) and any("scipy.stats.bootstrap" in line for line in markdown)
    assert text[-1].split()[0] == "TORA" and markdown[-1].startswith("| TORA | delivery | 6 | 0 |")
    rows = list(csv.DictReader(io.StringIO(csv_text(summary))))
    assert [row["protocol"] for row in rows] == ["AODV", "TORA"] and "pooled in one interval" in rows[0]["told"]
    assert float(rows[1]["value"]) == summary.rows["value"].tolist()[1]
