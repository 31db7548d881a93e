"""Tables with intervals and two plots of what the runs measured."""
from __future__ import annotations

import math
import pathlib

import pandas as pd
from matplotlib.axes import Axes
from matplotlib.figure import Figure

from tora import stats
from tora.drawing import COLOURS, DASHES, MARKS, Line, draw_points, panels_of, styled, write_picture
from tora.errors import UsageError
from tora.files import write_file
from tora.live.experiment import DESIGN
from tora.summary import markdown_lines, summarize
from tora.table import Table, read_table, text_of

TABLES = (
    ("the first packet", "start", "start", ("working_ms",)),
    (
        "at rest",
        "rest",
        "rest",
        ("control_bytes_rate", "control_packets_rate", "processor_percent", "memory_mb", "stretch", "routes_left"),
    ),
    (
        "`ip link set down`",
        "down",
        "fault",
        ("working_ms", "gap_ms", "lost", "tcp_stall_ms", "control_bytes_rate", "processor_percent"),
    ),
    ("its repair", "down", "repair", ("working_ms", "gap_ms", "lost", "stretch")),
    (
        "silent loss of 100 %",
        "silent",
        "fault",
        ("working_ms", "gap_ms", "lost", "tcp_stall_ms", "control_bytes_rate", "processor_percent"),
    ),
    ("its repair", "silent", "repair", ("working_ms", "gap_ms", "lost", "stretch")),
    (
        "silent loss of 20 %",
        "lossy",
        "fault",
        ("gap_ms", "lost", "sent", "tcp_stall_ms", "control_bytes_rate", "processor_percent"),
    ),
    ("its repair", "lossy", "repair", ("lost", "stretch")),
    ("a host's daemons killed", "killed", "fault", ("working_ms", "gap_ms", "lost", "tcp_stall_ms")),
    ("the daemons started again", "killed", "repair", ("working_ms", "gap_ms", "lost", "stretch")),
)
MENDED = (
    ("down", "fault", "a cable loses its carrier (down)"),
    ("silent", "fault", "a cable loses all frames (silent)"),
    ("killed", "fault", "a daemon is killed"),
    ("killed", "repair", "the daemon is started again"),
)
COST = (
    ("control_bytes_rate", "control, B/s a host"),
    ("control_packets_rate", "control, packets/s a host"),
    ("processor_percent", "processor, % a host"),
    ("memory_mb", "memory, MB a host"),
)
SMALLEST, GREATEST = 0.1, 1e5  # ms, for 0 and for what does not end
DRAWN = "each run, their median, and its 95 % interval by order statistics"
MOST_STOLEN = 0.05  # of the time of the processors in a phase that counts


def read(path: pathlib.Path) -> Table:
    """The table of the runs, without phases in which a host of virtual machines took much of the processors' time.

    A time to a working route is infinite where none came.
    """
    table = read_table(path, DESIGN)
    frame = table.frame[~(table.frame["stolen"] > MOST_STOLEN)].copy()
    is_lossy = (frame["fault"] == "lossy") & (frame["phase"] == "fault")
    frame.loc[frame["working_ms"].isna() & (frame["lost"] > 0) & ~is_lossy, "working_ms"] = math.inf
    return Table(table.path, frame, table.design)


def chosen(table: Table, fault: str, phase: str) -> Table | None:
    """The rows of a phase; None where there are none. A fault that leaves no other way has none of the fault itself."""
    frame = table.frame[(table.frame["fault"] == fault) & (table.frame["phase"] == phase)]
    if phase == "fault":
        frame = frame[frame["spare"] == 1]
    return None if frame.empty else Table(table.path, frame, table.design)


def tables(table: Table, statistic: str = "median") -> list[str]:
    """The tables, as Markdown."""
    lines = []
    for title, fault, phase, measures in TABLES:
        part = chosen(table, fault, phase)
        if part is not None:
            told = [name for name in measures if part.frame[name].notna().any()]
            lines += [
                f"## {title[0].upper()}{title[1:]}",
                "",
                *markdown_lines(summarize(part, told, statistic=statistic)),
                "",
            ]
    return lines


@styled
def mended(table: Table) -> Figure:
    """How long no route works after each fault, by protocol."""
    figure, axes = panels_of(len(MENDED), f"time until a route works again (bottom: no loss; top: none works): {DRAWN}")
    for panel, (fault, phase, title) in zip(axes, MENDED):
        part = chosen(table, fault, phase)
        if part is not None:
            _draw(panel, table, part, "working_ms", SMALLEST)
            panel.set_yscale("log")
            panel.set_ylim(SMALLEST / 2, 2 * GREATEST)
        panel.set_title(title, fontsize=9)
        panel.set_ylabel("ms")
    return figure


@styled
def cost(table: Table) -> Figure:
    """What a protocol takes at rest."""
    figure, axes = panels_of(len(COST), f"at rest: {DRAWN}")
    part = chosen(table, "rest", "rest")
    if part is None:
        raise UsageError("there is no phase at rest", file=table.path)
    for panel, (name, label) in zip(axes, COST):
        _draw(panel, table, part, name, 0.0)
        panel.set_ylabel(label)
        panel.set_ylim(bottom=0)
    return figure


def _draw(panel: Axes, table: Table, part: Table, measure: str, least: float) -> None:
    """A mark for each protocol and timing, and each size, with a point for each run, which is a topology and a seed."""
    held = part.frame[part.frame[measure].notna()]
    # the same places and colours in each panel
    kinds = sorted(set(zip(table.frame["protocol"], table.frame["timing"])), key=lambda it: ("tora" not in it[0], it))
    sizes = sorted(set(table.frame["nodes"]))
    for at, size in enumerate(sizes):
        line = Line(f"{text_of(size)} hosts", COLOURS[at % len(COLOURS)], DASHES[0], MARKS[at % len(MARKS)])
        rows = []
        for place, (protocol, timing) in enumerate(kinds):
            own = held[(held["protocol"] == protocol) & (held["timing"] == timing) & (held["nodes"] == size)]
            values = own[measure].clip(least, GREATEST).to_numpy(dtype=float)
            if len(values):
                panel.plot([place + 0.16 * at + 0.08] * len(values), values, ".", color=line.colour, alpha=0.3, ms=4)
                rows.append([place + 0.16 * at, *stats.order_interval(values)])
        points = pd.DataFrame(rows, columns=["place", "value", "low", "high"])
        draw_points(panel, points["place"].to_numpy(), points, line, join=False)
    panel.set_xticks(
        range(len(kinds)),
        [name if timing == "default" else f"{name}\n{timing}" for name, timing in kinds],
        fontsize=7,
        rotation=20,
    )
    panel.set_xlim(-0.5, len(kinds) - 0.2)
    if len(sizes) > 1:
        panel.legend(fontsize=7)


def write(folder: pathlib.Path) -> list[str]:
    """Writes the tables and the plots of a folder; answers their names."""
    table = read(folder / "live.csv")
    write_file(folder / "tables.md", "\n".join(tables(table)) + "\n", overwrite=True)
    write_picture(mended(table), folder / "mended.svg", overwrite=True)
    write_picture(cost(table), folder / "cost.svg", overwrite=True)
    return ["tables.md", "mended.svg", "cost.svg"]
