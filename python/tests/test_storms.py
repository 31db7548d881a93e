"""Random partitions, and what is counted of them."""
from __future__ import annotations

import math
import pathlib
import stat

import pandas as pd
import pytest

from tora import plots, storms
from tora.cli import main
from tora.errors import StudyError, UsageError
from tora.program import Program
from tora.resting import COLUMNS
from tora.storms import Partition, draw_partition, rest_of, storm_counts, storm_table
from tora.table import table_of


def program_that(folder: pathlib.Path, body: str) -> Program:
    """A program of these lines of shell."""
    path = folder / "tora"
    path.write_text(f"#!/bin/sh\n{body}\n")
    path.chmod(path.stat().st_mode | stat.S_IXUSR)
    return Program((str(path),))


def test_a_seed_makes_one_partition() -> None:
    assert draw_partition(7) == draw_partition(7)
    assert draw_partition(7).text != draw_partition(8).text


@pytest.mark.parametrize("seed", range(200))
def test_partitions_are_in_their_bounds(seed: int) -> None:
    partition = draw_partition(seed)
    lines = partition.text.splitlines()
    assert 3 <= partition.nodes <= 8 and partition.delay in (1, 2, 4, 8)
    assert lines[0] == "dests 99" and lines[-2:] == ["rounds 150", "rest"]
    assert lines.count("part 1 99") == 1 and "mend 1 99" not in lines
    links = [line.split()[1:] for line in lines if line.startswith("link ")]
    assert len({frozenset(link) for link in links}) == len(links)
    parted = [line.split()[1:] for line in lines if line.startswith("part ") and line != "part 1 99"]
    mended = [line.split()[1:] for line in lines if line.startswith("mend ")]
    assert parted == mended and all(link in links for link in parted)


def test_negative_seed_is_refused() -> None:
    with pytest.raises(UsageError, match="seed"):
        draw_partition(-1)


# A ring of three nodes whose destination is cut off after round 40; the trace of its 190 rounds that a program writes.
RING = "dests 99\nlink 1 2\nlink 2 3\nlink 3 1\nlink 1 99\nrounds 40\nneed 2 99\npart 1 99\nneed 3 99\nrounds 150\nrest\n"
TRACE = """\
40 need 2 99
40 qry 2 99 2
40 part 1 99
40 need 3 99
41 qry 3 99 2
43 upd 1 99 2 (43,1,0,0,1)
43 route 1 99 (43,1,0,0,1) -
44 clr 1 99 2 43 1
44 route 1 99 - -
44 route 2 99 - 3
44 route 3 99 - 2
190 frames 4 0 0 0
"""


def program_with(folder: pathlib.Path, plain: str, remembered: str = "rest yes") -> Program:
    """A program that writes the trace to the path after `--trace`, and answers so under each choice."""
    (folder / "stored").write_text(TRACE)
    return program_that(folder, f"""\
cp {folder}/stored "$(echo "$*" | sed 's/.*--trace \\([^ ]*\\) .*/\\1/')"
case "$*" in *"--erasure plain "*) echo {plain} ;; *) echo {remembered} ;; esac""")


def ring(seed: int, is_mended: bool = False) -> Partition:
    """The ring in the place of one that is drawn."""
    return Partition(seed, 3, 2, RING)


@pytest.fixture
def rings(monkeypatch: pytest.MonkeyPatch) -> None:
    """Each partition that is drawn is the ring."""
    monkeypatch.setattr(storms, "draw_partition", ring)


def test_mended_partition_has_one_event_more() -> None:
    for seed in range(50):
        lines = draw_partition(seed).text.splitlines()
        assert draw_partition(seed, True).text.splitlines() == [*lines[:-2], "mend 1 99", *lines[-2:]]


def test_measures_of_a_run(tmp_path: pathlib.Path) -> None:
    """The last change is the need after round 40; a QRY, an UPD and a CLR follow, the last one in round 44. Nodes 2 and 3 are a loop."""
    program = program_with(tmp_path, "rest no")
    row = rest_of(ring(1), "remembered", program)
    assert row == {"at_rest": 1, "rest_ticks": 4, "control_after_change": 3, "loops_at_rest": 1, "dead_ends_at_rest": 0}
    row = rest_of(ring(1), "plain", program)
    assert row == {"at_rest": 0, "rest_ticks": None, "control_after_change": 3, "loops_at_rest": None, "dead_ends_at_rest": None}


@pytest.mark.usefixtures("rings")
def test_program_is_told_the_choice(tmp_path: pathlib.Path) -> None:
    table = storm_table(range(3), program_with(tmp_path, "rest no"), jobs=2)
    assert list(table["at_rest"]) == [0, 1, 0, 1, 0, 1]
    counts = storm_counts(table)
    assert counts["runs"].sum() == 6
    assert counts.groupby("erasure")["not_at_rest"].sum().to_dict() == {"plain": 3, "remembered": 0}


def test_other_answers_are_refused(tmp_path: pathlib.Path) -> None:
    for body in ("echo", "echo rest maybe", "exit 3"):
        with pytest.raises(StudyError):
            rest_of(draw_partition(1), "plain", program_that(tmp_path, body))
    with pytest.raises(UsageError, match="plain or remembered"):
        rest_of(draw_partition(1), "none", program_that(tmp_path, "echo rest yes"))


def test_value_that_stands_twice_is_refused(tmp_path: pathlib.Path) -> None:
    program = program_that(tmp_path, "echo rest yes")
    with pytest.raises(UsageError, match="seeds"):
        storm_table([1, 1], program)
    with pytest.raises(UsageError, match="erasures"):
        storm_table([1], program, ["plain", "plain"])


def rows_of(*rows: tuple[object, ...]) -> pd.DataFrame:
    """A table of runs."""
    return pd.DataFrame(rows, columns=["erasure", "nodes", "delay_most", "seed", *COLUMNS]).astype(dict.fromkeys(COLUMNS, "Int64"))


def test_delays_are_not_pooled() -> None:
    rest = (1, 5, 7, 0, 0)
    counts = storm_counts(rows_of(("plain", 3, 1, 1, 0, None, 90, None, None), ("plain", 3, 2, 2, *rest), ("plain", 4, 2, 3, 0, None, 9, None, None)))
    assert counts[["delay_most", "erasure", "runs", "not_at_rest"]].to_dict("list") == {
        "delay_most": [1, 2], "erasure": ["plain"] * 2, "runs": [1, 2], "not_at_rest": [1, 1]}


def test_run_that_did_not_come_to_rest_counts_as_longer_than_all() -> None:
    """Of 1, 2, .. 9 ticks and one that has no end the median is 5.5 and the 95 % point has no end; of 1 to 20 that is 19.05."""
    runs = [("plain", 3, 1, seed, 1, seed, 2 * seed, 1, 0) for seed in range(1, 10)]
    (row,) = storm_counts(rows_of(*runs, ("plain", 3, 1, 10, 0, None, 910, None, None)), "nodes").to_dict("records")
    assert (row["rest_median"], row["rest_95"], row["not_at_rest"]) == (5.5, math.inf, 1)
    assert (row["control_mean"], row["control_most"], row["loops"], row["dead_ends"]) == (100.0, 910, 1.0, 0.0)
    (row,) = storm_counts(rows_of(*(("plain", 3, 1, seed, 1, seed, 0, 0, 0) for seed in range(1, 21)))).to_dict("records")
    assert (row["rest_median"], row["rest_95"]) == (10.5, pytest.approx(19.05))


@pytest.mark.usefixtures("rings")
def test_command_writes_a_table_and_overwrites_none(tmp_path: pathlib.Path, capsys: pytest.CaptureFixture[str]) -> None:
    program = program_with(tmp_path, "rest no")
    words = ["storms", "--runs", "3", "--program", str(program.words[0]), "-o", str(tmp_path / "storms.csv")]
    assert main(words) == 0
    lines = capsys.readouterr().out.splitlines()
    assert lines[0].split()[:4] == ["delay_most", "erasure", "runs", "not_at_rest"] and lines[4].split()[0] == "nodes"
    table = (tmp_path / "storms.csv").read_text()
    assert table.splitlines()[0] == "erasure,nodes,delay_most,seed,at_rest,rest_ticks,control_after_change,loops_at_rest,dead_ends_at_rest"
    assert table.splitlines()[1:3] == ["plain,3,2,0,0,,3,,", "remembered,3,2,0,1,4,3,1,0"] and table.count("\n") == 7
    assert main(words) == 2
    assert "storms.csv" in capsys.readouterr().err and (tmp_path / "storms.csv").read_text() == table
    assert main([*words[:-2], "--plot", str(tmp_path / "storms.gif")]) == 2


def test_picture_has_a_panel_for_each_measure_and_column(tmp_path: pathlib.Path) -> None:
    """The lines are the means of the runs; a measure that is 0 in each run has no panel, and what has no end ends at the top."""
    cells = [(e, n, d, s, e, n, d) for e in ("plain", "remembered") for n in (3, 4) for d in (1, 2) for s in range(6)]
    rows = [
        (e, n, d, 100 * n + 10 * d + s, 0, None, 50, None, None) if (e, d) == ("plain", 2) else (e, n, d, 100 * n + 10 * d + s, 1, n, 10 * d, n, 0)
        for e, n, d, s, *_ in cells
    ]
    figure = plots.drawn(table_of(rows_of(*rows).to_csv(index=False).encode(), "t.csv"), "storms")
    assert len(figure.axes) == 8
    drawn = [{line.get_label(): line.get_ydata().tolist() for line in axes.lines if not line.get_label().startswith("_")} for axes in figure.axes]
    assert drawn[0] == {"plain": [0.5, 0.5], "remembered": [1, 1]} and drawn[1] == {"plain": [1, 0], "remembered": [1, 1]}
    assert drawn[2]["remembered"] == [3, 4] and drawn[2]["plain"] == [figure.axes[2].get_ylim()[1]] * 2
    assert drawn[4] == {"plain": [30, 30], "remembered": [15, 15]} and drawn[5] == {"plain": [10, 50], "remembered": [10, 20]}
    assert drawn[6] == {"plain": [3, 4], "remembered": [3, 4]}
    assert "12 of 48 runs did not come to rest" in " ".join(figure._suptitle.get_text().split())
