"""What the pictures share: their style, the lines of groups, panels, points with intervals, and files that are the same bytes each time."""
from __future__ import annotations

import dataclasses
import functools
import io
import math
import os
import textwrap
from collections.abc import Callable, Iterable, Sequence
from typing import ParamSpec, TypeVar

import matplotlib
import numpy as np
import pandas as pd
from matplotlib.axes import Axes
from matplotlib.figure import Figure

from tora import stats
from tora.columns import UNITS, measure_of
from tora.errors import UsageError
from tora.files import Path, write_file
from tora.summary import Summary, keys_of
from tora.table import Key, Table, text_of

COLOURS = ["#0072b2", "#d55e00", "#009e73", "#cc79a7", "#e69f00", "#56b4e9", "#000000", "#7a5195"]  # Okabe and Ito's, but for yellow
DASHES = ["solid", (0, (5, 2)), (0, (1, 1.5)), (0, (6, 2, 1, 2))]
MARKS = ["o", "s", "^", "D"]
MOST_LINES = len(COLOURS) * len(DASHES)
KINDS = ("png", "svg", "pdf")
SETTINGS = {"svg.hashsalt": "tora", "font.family": "DejaVu Sans", "font.size": 9.0, "axes.grid": True, "grid.alpha": 0.3, "path.simplify": False}
DATES = {"png": {"Software": None}, "svg": {"Date": None, "Creator": None}, "pdf": {"CreationDate": None, "Creator": None, "Producer": None}}

LOGARITHMIC = ("delay_median", "delay_95")

Parameters = ParamSpec("Parameters")
Drawn = TypeVar("Drawn")


def styled(draw: Callable[Parameters, Drawn]) -> Callable[Parameters, Drawn]:
    """Draws in the style of this module, whatever the settings of matplotlib are."""
    @functools.wraps(draw)
    def wrapped(*args: Parameters.args, **more: Parameters.kwargs) -> Drawn:
        with matplotlib.rc_context(matplotlib.rcParamsDefault | SETTINGS):
            return draw(*args, **more)

    return wrapped


@dataclasses.dataclass(frozen=True)
class Line:
    """A line of a plot: its name, and how it is drawn."""

    name: str
    colour: str
    dash: object
    mark: str


def lines_of(table: Table, by: str, pool: Sequence[str] = ()) -> tuple[list[str], dict[Key, Line]]:
    """The columns, beside `by`, that distinguish lines, and the lines by their values.

    Values of the first column have a colour each, those of the others a dash. Refuses a column that is no number or that does not vary, and
    more lines than a reader can distinguish.
    """
    table.need([by])
    if by not in table.design:
        raise UsageError(f"--by: `{by}` is no column of the design", file=table.path)
    if by not in table.varied:
        raise UsageError(f"--by: all runs have one value of {by}", file=table.path)
    if not all(isinstance(value, float) for value in table.frame[by]):
        raise UsageError(f"--by: not every cell of {by} is a number", file=table.path)
    keys = [name for name in keys_of(table, pool)[0] if name != by and not _follows(table, name, by)]
    groups = list(table.groups(keys))
    first = list(dict.fromkeys(key[:1] for key in groups))
    others = list(dict.fromkeys(key[1:] for key in groups))
    if len(first) > len(COLOURS) or len(others) > len(DASHES):
        raise UsageError(f"the plot would have {len(groups)} lines by {', '.join(keys)}; --where chooses some, --pool puts them together", file=table.path)
    return keys, {
        key: Line(_line_name(keys, key), COLOURS[first.index(key[:1])], DASHES[others.index(key[1:])], MARKS[others.index(key[1:])]) for key in groups
    }


def _follows(table: Table, name: str, by: str) -> bool:
    """Whether a column has one value for each value of another."""
    return len(table.groups([by, name])) == len(table.groups([by]))


def _line_name(keys: Sequence[str], key: Key) -> str:
    """What a line is called; a protocol and a choice by its word alone."""
    words = [text_of(value) if name in ("protocol", "erasure") else f"{name} {_short(name, value)}" for name, value in zip(keys, key)]
    return ", ".join(words) or "all runs"


def _short(name: str, value: object) -> str:
    """A value of the design; parts in a million as a share."""
    return f"{value / 1e6:g}" if name in ("loss", "repeat") and isinstance(value, float) else text_of(value)


def with_keys(table: Table, summary: Summary, wanted: Sequence[str], pool: Sequence[str]) -> pd.DataFrame:
    """The rows of a summary with these columns, which follow from its keys."""
    rows = summary.rows.copy()
    first = {key: runs.iloc[0] for key, runs in table.groups(summary.keys).items()}
    keys = list(zip(*(rows[name] for name in summary.keys))) if summary.keys else [()] * len(rows)
    for name in wanted:
        if name not in summary.keys:
            rows[name] = [first[key][name] for key in keys]
    return rows


def panels_of(count: int, title: str, columns: int = 2, legend: bool = False) -> tuple[Figure, list[Axes]]:
    """A figure with this many panels, and one below them for a legend."""
    columns = min(columns, count)
    high = -(-count // columns)
    figure = Figure(figsize=(5.2 * columns, 3.4 * high + 0.8), dpi=110, layout="constrained")
    figure.suptitle("\n".join(part for line in title.split("\n") for part in textwrap.wrap(line, 70 * columns)), fontsize=10)
    grid = figure.add_gridspec(high + legend, columns, height_ratios=[1.0] * high + [0.14] * legend)
    axes = [figure.add_subplot(grid[at // columns, at % columns]) for at in range(count)]
    if legend:
        axes.append(figure.add_subplot(grid[high, :]))
        axes[-1].axis("off")
    return figure, axes


def title_of(summary: Summary) -> str:
    """What is shown, and what was pooled."""
    pooled = [line for line in summary.header if line.startswith("pooled")]
    told = next(line for line in summary.header if line.startswith("value: "))
    return "\n".join([told.removeprefix("value: "), *pooled])


def draw_lines(panel: Axes, rows: pd.DataFrame, by: str, keys: Sequence[str], lines: dict[Key, Line]) -> None:
    """The lines of a measure; each is a little aside, so that intervals at one place do not overlap."""
    places = sorted(set(rows[by]))
    room = min((b - a for a, b in zip(places, places[1:])), default=1.0)
    for at, (key, line) in enumerate(lines.items()):
        own = rows if not keys else rows[[value == key for value in zip(*(rows[name] for name in keys))]]
        own = own[own["value"].notna()].sort_values(by)
        x = own[by].to_numpy(dtype=float) + (at - (len(lines) - 1) / 2) * 0.25 * room / max(len(lines), 4)
        draw_points(panel, x, own, line)


def draw_points(panel: Axes, x: stats.Floats, own: pd.DataFrame, line: Line, name: str | None = None, join: bool = True) -> None:
    """Values, joined by a line, and the intervals of those that have one."""
    y, low, high = (own[column].to_numpy(dtype=float) for column in ("value", "low", "high"))
    panel.plot(x, y, color=line.colour, linestyle=line.dash if join else "none", marker=line.mark, markersize=4, linewidth=1.4, label=name or line.name)
    held = ~np.isnan(low)
    if held.any():
        # an interval need not hold its value where runs are skewed
        panel.vlines(x[held], low[held], high[held], color=line.colour, linewidth=1.2)
        for ends in (low, high):
            panel.plot(x[held], ends[held], color=line.colour, linestyle="none", marker="_", markersize=5)


def limit(panel: Axes, name: str) -> None:
    """The axis of a measure: shares and counts begin at 0, unless that hides all; delays are logarithmic."""
    measure = measure_of(name)
    if name in LOGARITHMIC and panel.dataLim.y0 > 0:
        panel.set_yscale("log")
    elif math.isfinite(measure.low) and measure.low == 0 and panel.dataLim.y0 < 0.6 * panel.dataLim.y1:
        panel.set_ylim(bottom=0)
    if measure.high == 1 and panel.dataLim.y1 > 0.9:
        panel.set_ylim(top=1.02)


def label_of(table: Table, name: str) -> str:
    """The label of a measure; delays are milliseconds in the ns-3 comparison, and ticks in a study."""
    unit = "" if name not in LOGARITHMIC else ", ms" if "protocol" in table.design else ", ticks (100 ms)"
    return measure_of(name).label + unit


def mark_places(panel: Axes, table: Table, by: str) -> None:
    """The axis of the column, with the values of the runs for marks where they are few."""
    places = sorted(set(table.frame[by]))
    if len(places) <= 10:
        panel.set_xticks(places, [f"{place:g}" for place in places])
    panel.set_xlabel(f"{by}, {UNITS[by]}" if by in UNITS else by)


@styled
def picture(figure: Figure, kind: str) -> bytes:
    """The bytes of a figure as png, svg or pdf; the same figure gives the same bytes."""
    if kind not in KINDS:
        raise UsageError(f"`{kind}` is no kind of picture; these are: {', '.join(KINDS)}")
    sink = io.BytesIO()
    figure.savefig(sink, format=kind, metadata=DATES[kind])
    return sink.getvalue()


def kind_of(path: Path) -> str:
    """The kind of picture that a path's ending says; refuses another."""
    kind = os.path.splitext(os.fspath(path))[1].removeprefix(".").lower()
    if kind not in KINDS:
        raise UsageError(f"a picture ends in {', '.join('.' + it for it in KINDS)}", file=path)
    return kind


def write_picture(figure: Figure, path: Path, inputs: Iterable[Path] = (), overwrite: bool = False) -> None:
    """Writes a figure whole, or not at all."""
    write_file(path, picture(figure, kind_of(path)), inputs, overwrite)
