"""Pictures of tables: what is drawn is what the runs have, never pooled unasked, and the same bytes each time."""
from __future__ import annotations

import csv
import statistics
from pathlib import Path

import pytest

from tora import plots
from tora.derived import with_derived
from tora.errors import UsageError
from tora.table import Table, read_table, table_of

STUDIES = Path(__file__).parents[2] / "docs" / "studies"


def stored(name: str) -> Table:
    """A stored table."""
    return with_derived(read_table(STUDIES / f"{name}.csv"))


def rest_table(more: str = "") -> Table:
    """Times to rest of two choices, two sizes and two delays."""
    rows = [f"{e},{n},{d},{s},{n * d * s * (2 if e == 'any' else 1)}" for e in ("any", "remembered") for n in (4, 8) for d in (1, 4) for s in range(1, 8)]
    return table_of("\n".join(["erasure,nodes,delay_most,seed,rest_ticks", *rows, more]).strip().encode(), "t.csv")


def test_lines_are_the_medians_of_the_runs() -> None:
    """The medians that are drawn are those of the standard library, run by run from the file."""
    figure = plots.drawn(stored("notice"), "notice", None, ["available"])
    with open(STUDIES / "notice.csv", encoding="ascii", newline="") as source:
        rows = list(csv.DictReader(source))
    wanted = {}
    for loss in ("0", "100000", "200000"):
        for notice in "01":
            own = [[float(row["available"]) for row in rows if (row["loss"], row["notice"], row["speed_most"]) == (loss, notice, speed)] for speed in ("1.0", "5.0", "10.0", "20.0")]
            wanted[f"loss {int(loss) / 1e6:g}, notice {notice}"] = [statistics.median(values) for values in own]
    drawn = {line.get_label(): line.get_ydata().tolist() for line in figure.axes[0].lines if not line.get_label().startswith("_")}
    assert drawn == {name: pytest.approx(values) for name, values in wanted.items()}


def test_every_table_of_the_documents_is_drawn(tmp_path: Path) -> None:
    """The pictures of docs/studies, each the same bytes each time."""
    comparison = stored("ns3-proved").where({"nodes": "20", "flows": "10"})
    for table, kind, by in ((stored("study"), "overview", None), (stored("large"), "growth", None), (comparison, "comparison", None), (stored("ns3"), "comparison", None)):
        one = plots.picture(plots.drawn(table, kind, by), "svg")
        assert one == plots.picture(plots.drawn(table, kind, by), "svg") and b"<dc:date>" not in one


def test_kinds_of_pictures(tmp_path: Path) -> None:
    """png, svg and pdf, the same bytes each time; another ending is refused."""
    figures = [plots.drawn(rest_table(), "rest") for _ in range(2)]
    for kind, mark in (("png", b"\x89PNG"), ("svg", b"<?xml"), ("pdf", b"%PDF")):
        one, other = (plots.picture(figure, kind) for figure in figures)
        assert one == other and one.startswith(mark)
    for name in ("x.gif", "x", ".png.txt"):
        with pytest.raises(UsageError, match="ends in .png, .svg, .pdf"):
            plots.kind_of(tmp_path / name)


def test_time_to_rest() -> None:
    """Medians for each delay and choice; a run that did not come to rest counts as longer than all, and has no mean."""
    def drawn(table: Table) -> dict[str, list[float]]:
        figure = plots.drawn(table, "rest")
        return {line.get_label(): line.get_ydata().tolist() for line in figure.axes[0].lines if not line.get_label().startswith("_")}

    assert drawn(rest_table()) == {
        "delay 1, any": [4 * 4 * 2, 8 * 4 * 2], "delay 1, remembered": [16, 32], "delay 4, any": [128, 256], "delay 4, remembered": [64, 128]}
    lines = rest_table().frame
    head = "nodes,seed,rounds,silence_ticks,flows,erasure,delay_least,delay_most,rest_ticks"
    rows = [f"{row.nodes:g},{row.seed:g},900,50,{row.nodes:g},{row.erasure},{row.delay_most:g},{row.delay_most:g},{row.rest_ticks:g}" for row in lines.itertuples()]
    assert drawn(table_of("\n".join([head, *rows]).encode(), "s.csv")) == drawn(rest_table())  # as a study has them
    longer = rest_table("any,4,1,8,\nany,4,1,9,\n")
    assert drawn(longer)["delay 1, any"][0] == 5 * 4 * 2
    with pytest.raises(UsageError, match="2 runs did not come to rest"):
        plots.drawn(longer, "rest", statistic="mean")
    title = plots.drawn(longer, "rest")._suptitle.get_text()
    assert "2 of 58 runs did not come to rest" in " ".join(title.split())


@pytest.mark.parametrize(
    ("name", "kind", "by", "more", "cause"),
    [
        ("study", "by", "silence_ticks", {}, "all runs have one value of silence_ticks"),
        ("study", "by", "available", {}, "no column of the design"),
        ("study", "by", "colour", {}, "there is no column `colour`"),
        ("ns3", "by", "protocol", {}, "not every cell of protocol is a number"),
        ("study", "by", "nodes", {"measures": ["lost_radio"]}, "there is no column `lost_radio`"),
        ("notice", "overview", "speed_most", {}, "differ by loss, notice"),
        ("study", "overview", "nodes", {"measures": ["update"]}, "has measures of its own"),
        ("ns3-proved", "by", "seed", {}, "no column of the design"),
    ],
)
def test_refusals(name: str, kind: str, by: str, more: dict[str, list[str]], cause: str) -> None:
    """Columns that are none, or that do not vary, and runs that would be pooled."""
    with pytest.raises(UsageError, match=cause):
        plots.drawn(stored(name), kind, by, **more)


def test_too_many_lines() -> None:
    """Lines that can't be told apart are refused, not pooled."""
    rows = [f"{c},{x},{s},{s}" for c in range(40) for x in (1, 2) for s in (1, 2)]
    table = table_of("\n".join(["c,x,seed,y", *rows]).encode(), "t.csv", ["c", "x"])
    with pytest.raises(UsageError, match="40 lines by c; --where chooses some"):
        plots.drawn(table, "by", "x", ["y"])


def test_growth_in_print() -> None:
    """The exponents of the stored study of 50 to 400 nodes are those that docs/studies/tora.md had by another fit."""
    lines = [line.split() for line in plots.growth_lines(stored("large"), "nodes", ["unavailable", "control", "restore_median"])]
    found = {(line[0], line[2]): line[3:] for line in lines[1:]}
    assert found["unavailable", "0"] == ["0.484", "[0.387", "..", "0.580]", "of", "40"]
    assert found["control", "1"] == ["1.209", "[1.074", "..", "1.344]", "of", "40"]
    assert found["restore_median", "1"] == ["-", "of", "0"]


def test_stored_growth() -> None:
    """The exponents of five stored runs are those of another making."""
    wanted = [line.split() for line in (Path(__file__).parent / "stored" / "growth").read_text().splitlines()[1:]]
    table = with_derived(read_table(Path(__file__).parent / "stored" / "study.csv"))
    found = [line.replace("all runs", "").split() for line in plots.growth_lines(table, "nodes", [line[0] for line in wanted])[1:]]
    assert found == wanted


def test_growth_by_hand() -> None:
    """What grows by n^2, falls by 1/n, has no logarithm, and is not there."""
    head = "nodes,seed,rounds,silence_ticks,notice,available,restore_median,query,update,clear"
    rows = ["10,1,9,50,0,0.5,20,100,150,50", "10,2,9,50,0,0.5,20,100,150,50", "20,1,9,50,0,0.75,10,400,600,200", "20,2,9,50,0,0.75,10,400,600,200",
            "10,1,9,50,1,1,,0,0,0", "20,1,9,50,1,1,,1,0,0"]
    table = with_derived(table_of("\n".join([head, *rows]).encode(), "t.csv"))
    lines = plots.growth_lines(table, "nodes", ["control", "restore_median", "unavailable"])
    found = [" ".join(line.split()) for line in lines[1:]]
    assert found == [
        "control notice 0 2.000 [2.000 .. 2.000] of 4", "control notice 1 - of 1, 1 left out", "restore_median notice 0 -1.000 [-1.000 .. -1.000] of 4",
        "restore_median notice 1 - of 0", "unavailable notice 0 -1.000 [-1.000 .. -1.000] of 4", "unavailable notice 1 - of 0, 2 left out",
    ]
