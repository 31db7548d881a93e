"""Pictures of tables of runs, by matplotlib: each figure shows values with their 95 % intervals, and never pools runs unless asked to.

The same table gives the same bytes: no file holds a date or a random name.
"""
from __future__ import annotations

import math
from collections.abc import Sequence

import numpy as np
import pandas as pd
from matplotlib.axes import Axes
from matplotlib.figure import Figure
from matplotlib.ticker import LogFormatter, NullFormatter

from tora import stats
from tora.columns import measure_of
from tora.drawing import (
    COLOURS, DASHES, MARKS, Line, draw_lines, draw_points, kind_of, label_of, limit, lines_of, mark_places, panels_of, picture, styled,
    title_of, with_keys, write_picture,
)
from tora.errors import UsageError
from tora.summary import keys_of, summarize
from tora.table import Key, Table, text_of

__all__ = ["by_column", "drawn", "growth", "growth_lines", "kind_of", "overview", "picture", "points_of", "rest", "storms", "styled", "write_picture"]

OVERVIEW = (
    ("share of rounds and flows", (("connected", "a path stands"), ("available", "of these: the route works"), ("stale", "of these: it is stale"))),
    ("rounds (100 ms)", (("restore_median", "break to route, median"), ("restore_95", "break to route, 95 in 100"))),
    ("broadcasts in a run", (("query", "QRY"), ("update", "UPD"), ("clear", "CLR"))),
    ("hops / shortest", (("stretch_mean", "mean"), ("stretch_95", "95 in 100"))),
)
NOTICE = ("available", "looping", "delivery_ratio", "update")
COMPARISON = ("delivery", "control_rate", "delay_median", "delay_95", "bytes_per_packet", "packets_per_packet", "stretch")
GROWTH = ("unavailable", "restore_median", "restore_95", "control", "control_per_delivered", "hops_mean")
BY = ("available", "restore_median", "stretch_mean", "update")
STORMS = {  # by measure its statistic and its label
    "at_rest": ("mean", "share of runs at rest"),
    "rest_ticks": ("q0.95", "95 of 100 runs are at rest within ticks (100 ms)"),
    "control_after_change": ("mean", "control packets after the last event"),
    "loops_at_rest": ("mean", "loops of next hops at rest, of a run"),
    "dead_ends_at_rest": ("mean", "dead ends at rest, of a run"),
}
STORMS_BY = {"nodes": "nodes of the ring", "delay_most": "greatest delay of a datagram, rounds (100 ms)"}


@styled
def by_column(
    table: Table, by: str, measures: Sequence[str] = (), *, statistic: str = "mean", method: str | None = None, pool: Sequence[str] = (),
) -> Figure:
    """Measures over a column of the design, each in a panel, with a line for each group beside it.

    Parameters
    ----------
    table : Table
    by : str
        A column of the design whose cells are numbers.
    measures : names
        `BY`, or what `tora.summary.usual_measures` says, without it.
    statistic, method, pool
        As of `tora.summary.summarize`.
    """
    chosen = list(measures) or [name for name in BY if name in table.measures] or [name for name in COMPARISON if name in table.measures]
    keys, lines = lines_of(table, by, pool)
    summary = summarize(table, chosen, statistic=statistic, method=method, pool=pool)
    rows = with_keys(table, summary, [by, *keys], pool)
    figure, axes = panels_of(len(chosen), title_of(summary), legend=len(lines) > 1)
    for panel, name in zip(axes, chosen):
        draw_lines(panel, rows[rows["measure"] == name], by, keys, lines)
        limit(panel, name)
        mark_places(panel, table, by)
        panel.set_ylabel(label_of(table, name))
    if len(lines) > 1:
        handles, names = axes[0].get_legend_handles_labels()
        axes[-1].legend(handles, names, loc="center", ncol=min(4, len(lines)), fontsize=8)
    return figure


@styled
def overview(table: Table, by: str = "nodes", *, statistic: str = "mean", pool: Sequence[str] = ()) -> Figure:
    """How routes fare, how long a break lasts, broadcasts and stretch, over a column; for a study in which nothing else varies."""
    keys, lines = lines_of(table, by, pool)
    if len(lines) > 1:
        raise UsageError(f"beside {by} the runs differ by {', '.join(keys)}; `plot by` has a line for each", file=table.path)
    names = [name for _, parts in OVERVIEW for name, _ in parts]
    summary = summarize(table, names, statistic=statistic, pool=pool)
    rows = with_keys(table, summary, [by], pool)
    figure, axes = panels_of(len(OVERVIEW), title_of(summary))
    for panel, (label, parts) in zip(axes, OVERVIEW):
        for at, (name, text) in enumerate(parts):
            own = rows[(rows["measure"] == name) & rows["value"].notna()].sort_values(by)
            draw_points(panel, own[by].to_numpy(dtype=float), own, Line(text, COLOURS[at], DASHES[0], MARKS[at]))
        mark_places(panel, table, by)
        panel.set_ylabel(label)
        panel.legend(fontsize=8)
        limit(panel, parts[-1][0])
    return figure


@styled
def growth(table: Table, by: str = "nodes", measures: Sequence[str] = (), *, statistic: str = "mean", pool: Sequence[str] = ()) -> Figure:
    """How measures grow over a column, on logarithmic axes, and the power law that fits the runs of each line."""
    chosen = list(measures) or [name for name in GROWTH if name in table.measures]
    table.need_measures(chosen)
    keys, lines = lines_of(table, by, pool)
    summary = summarize(table, chosen, statistic=statistic, pool=pool)
    rows = with_keys(table, summary, [by, *keys], pool)
    figure, axes = panels_of(len(chosen), title_of(summary) + "\nand the power law that fits the runs", columns=3)
    for panel, name in zip(axes, chosen):
        for key, line in lines.items():
            own = rows[(rows["measure"] == name) & (rows["value"] > 0)]
            own = own if not keys else own[[value == key for value in zip(*(own[it] for it in keys))]]
            if len(own):
                _draw_growth(panel, table, own.sort_values(by), by, name, key, keys, line)
        _logarithmic(panel, table, by)
        panel.set_ylabel(label_of(table, name))
    return figure


def _draw_growth(panel: Axes, table: Table, own: pd.DataFrame, by: str, name: str, key: Key, keys: Sequence[str], line: Line) -> None:
    """The values of a measure in a line, and its power law."""
    fit = stats.power_law(*points_of(table, by, name, keys, key)[:2])
    x = own[by].to_numpy(dtype=float)
    told = "no power law" if fit is None else f"exponent {fit.exponent:.2f} ({fit.low:.2f} to {fit.high:.2f})"
    draw_points(panel, x, own, line, f"{line.name}: {told}" if keys else told, join=False)
    if fit is not None:
        panel.plot(x, fit.factor * x**fit.exponent, color=line.colour, linestyle=(0, (5, 2)), linewidth=1.2)


def _logarithmic(panel: Axes, table: Table, by: str) -> None:
    """Logarithmic axes, where there is something to show."""
    if panel.has_data():
        panel.set_xscale("log")
        panel.set_yscale("log")
        panel.xaxis.set_minor_formatter(NullFormatter())
        for axis in (panel.yaxis.set_major_formatter, panel.yaxis.set_minor_formatter):
            axis(LogFormatter(minor_thresholds=(1.2, 0.5)))
        panel.legend(fontsize=7)
    mark_places(panel, table, by)


def points_of(table: Table, by: str, name: str, keys: Sequence[str], key: Key) -> tuple[stats.Floats, stats.Floats, int]:
    """The runs of a line that have logarithms, as x and y, and how many have none since a figure is 0 or less."""
    own = table.groups(list(keys))[key]
    own = own[own[name].notna()]
    x, y = own[by].to_numpy(dtype=float), own[name].to_numpy(dtype=float)
    held = (x > 0) & (y > 0)
    return x[held], y[held], int((~held).sum())


def growth_lines(table: Table, by: str, measures: Sequence[str] = (), pool: Sequence[str] = ()) -> list[str]:
    """The exponents of measures over a column, as text: one line for each measure and line of the plot."""
    chosen = list(measures) or [name for name in GROWTH if name in table.measures]
    table.need_measures(chosen)
    keys, lines = lines_of(table, by, pool)
    found = [f"# exponent over {by} by least squares of logarithms (scipy.stats.linregress), its 95 % interval by Student's t, and the runs that it is of"]
    for name in chosen:
        for key, line in lines.items():
            x, y, without = points_of(table, by, name, keys, key)
            fit = stats.power_law(x, y)
            told = "-" if fit is None else f"{fit.exponent:.3f} [{fit.low:.3f} .. {fit.high:.3f}]"
            found.append(f"{name:24}{line.name:28}{told} of {len(x)}" + (f", {without} left out" if without else ""))
    return found


@styled
def rest(table: Table, *, statistic: str = "median", method: str | None = None) -> Figure:
    """Time to rest over the number of nodes: a colour for each delay, a dash for each choice of `erasure`.

    A run that did not come to rest has an empty cell. For a median it counts as longer than all others; a mean of such runs is refused.
    """
    table.need(["erasure", "nodes", "delay_most", "rest_ticks"])
    for name in keys_of(table)[0]:
        if name not in ("erasure", "nodes", "delay_most"):
            raise UsageError(f"the runs differ by {name}, too; --where chooses one value", file=table.path)
    without = int(table.frame["rest_ticks"].isna().sum())
    if without and stats.method_of(statistic, method) != "order":
        raise UsageError(f"{without} runs did not come to rest, so there is no {statistic} with such intervals", file=table.path)
    table = Table(table.path, table.frame.fillna({"rest_ticks": math.inf}), table.design)
    keys, lines = lines_of(table, "nodes")
    if keys == ["erasure", "delay_most"]:
        keys, lines = keys[::-1], _turned(lines)
    summary = summarize(table, ["rest_ticks"], statistic=statistic, method=method)
    rows = with_keys(table, summary, ["nodes", *keys], ())
    finite = rows[["value", "low", "high"]].to_numpy(dtype=float)
    top = 1.15 * float(np.max(finite[np.isfinite(finite)], initial=1.0))
    told = f"\n{without} of {len(table.frame)} runs did not come to rest, and count as longer than all; what ends at the top has no end" if without else ""
    figure, axes = panels_of(1, title_of(summary) + told)
    draw_lines(axes[0], rows.replace(math.inf, top), "nodes", keys, lines)
    mark_places(axes[0], table, "nodes")
    axes[0].set_ylabel(measure_of("rest_ticks").label)
    axes[0].legend(fontsize=8)
    axes[0].set_ylim(0, top)
    return figure


@styled
def storms(table: Table) -> Figure:
    """How partitions came to rest: each measure by the number of nodes, and by the greatest delay, with a line for each choice of `erasure`.

    Runs of other delays are in one interval by nodes, and those of other sizes in one by delay. A run that did not come to rest counts as longer
    than all others. A measure that is 0 in each run has no panel.
    """
    table.need(["erasure", "nodes", "delay_most", *STORMS])
    frame = table.frame
    without = int((frame["at_rest"] == 0).sum())
    chosen = [name for name in STORMS if frame[name].max() > 0]
    table = Table(table.path, frame.fillna({"rest_ticks": math.inf}), table.design)
    told = "means over runs with 95 % intervals (bootstrap, BCa), and the 95 % point of the time to rest (order statistics)"
    lost = f"{without} of {len(frame)} runs did not come to rest; of these the time ends at the top, and packets are those until the end of the run"
    figure, axes = panels_of(2 * len(chosen), f"{told}\n{lost}")
    for at, name in enumerate(chosen):
        for panel, by, pooled in ((axes[2 * at], "nodes", "delay_most"), (axes[2 * at + 1], "delay_most", "nodes")):
            _draw_storms(panel, table, name, by, [pooled] if pooled in table.varied else [])
    return figure


def _draw_storms(panel: Axes, table: Table, name: str, by: str, pool: Sequence[str]) -> None:
    """A panel of `storms`."""
    statistic, label = STORMS[name]
    keys, lines = lines_of(table, by, pool)
    summary = summarize(table, [name], statistic=statistic, pool=pool)
    rows = with_keys(table, summary, [by, *keys], pool)
    finite = rows[["value", "low", "high"]].to_numpy(dtype=float)
    top = 1.15 * float(np.max(finite[np.isfinite(finite)], initial=1.0))
    draw_lines(panel, rows.replace(math.inf, top), by, keys, lines)
    mark_places(panel, table, by)
    panel.set_xlabel(STORMS_BY[by])
    panel.set_ylabel(label)
    panel.legend(fontsize=8)
    if name == "rest_ticks":
        panel.set_ylim(0, top)
    elif name == "control_after_change":
        panel.set_yscale("log")


def drawn(
    table: Table, kind: str, by: str | None = None, measures: Sequence[str] = (), *, statistic: str | None = None, method: str | None = None,
    pool: Sequence[str] = (),
) -> Figure:
    """The picture of a kind: `by`, `overview`, `growth`, `notice`, `comparison`, `rest` or `storms`; `by` is a column, `nodes` by default.

    The statistic is a mean by default, and a median for `notice` and `rest`; `storms` has its own.
    """
    told = statistic or ("median" if kind in ("notice", "rest") else "mean")
    fixed = {"overview": (), "rest": (), "storms": ()}
    if kind in fixed and measures:
        raise UsageError(f"the picture {kind} has measures of its own", key="--measures")
    if kind in ("growth", "overview") and method is not None or kind == "rest" and pool:
        raise UsageError(f"it is not for the picture {kind}", key="--pool" if kind == "rest" else "--interval")
    if kind == "storms":
        if statistic is not None or method is not None or pool:
            raise UsageError("the picture storms has statistics of its own", key="--statistic")
        return storms(table)
    if kind == "overview":
        return overview(table, by or "nodes", statistic=told, pool=pool)
    if kind == "growth":
        return growth(table, by or "nodes", measures, statistic=told, pool=pool)
    if kind == "rest":
        return rest(table, statistic=told, method=method)
    usual = {"notice": ("speed_most", NOTICE), "comparison": ("speed", COMPARISON)}.get(kind, (by or "nodes", ()))
    return by_column(table, usual[0], measures or usual[1], statistic=told, method=method, pool=pool)


def _turned(lines: dict[Key, Line]) -> dict[Key, Line]:
    """The lines of two columns with the columns in the other order: colours by the second, dashes by the first."""
    first = list(dict.fromkeys(key[1] for key in lines))
    others = list(dict.fromkeys(key[0] for key in lines))
    return {
        (delay, erasure): Line(f"delay {text_of(delay)}, {text_of(erasure)}", COLOURS[first.index(delay)], DASHES[others.index(erasure)], MARKS[others.index(erasure)])
        for erasure, delay in sorted(lines, key=str)
    }


