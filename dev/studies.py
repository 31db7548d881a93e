#!/usr/bin/python3
"""Makes every picture and table of measured figures in docs/ from the stored rows.

usage: dev/studies.py [--check] [NAME..]

  --check   compares the tables in docs/ with those that are made, and writes nothing
  NAME..    only these pictures and tables

A table is in a document under a line `<!-- made: NAME -->`. Its cells are made; the document itself has the words of its header and of
its first column. The tables of `tora-study summary --report` are made whole. The pictures of a break show a run that is made for
them, by the program of TORA or else of the repository. A browser draws the picture of a page, which needs the packages chromium,
chromium-driver and python3-selenium. Exit status: 0 if all is made or agrees; 1 if a table differs or a picture cannot be made; 2 for
wrong usage.
"""
import argparse
import csv
import os
import pathlib
import re
import subprocess
import sys
import tempfile

import pandas as pd

TOP = pathlib.Path(__file__).resolve().parents[1]
DOCS = TOP / "docs"
sys.path.insert(0, str(TOP / "python" / "src"))

from tora import Scenario, heights, plots, stats  # noqa: E402
from tora.comparison import report  # noqa: E402
from tora.derived import with_derived  # noqa: E402
from tora.errors import StudyError  # noqa: E402
from tora.live import report as live  # noqa: E402
from tora.summary import compare  # noqa: E402
from tora.table import Table, read_table  # noqa: E402

STORED = DOCS / "studies"
MARK = re.compile(r"<!-- made: (\S+) -->")
SIZES = {"20-5": (20, 5), "20-10": (20, 10), "50-5": (50, 5), "50-10": (50, 10)}  # of the comparison: nodes and flows
NOTICE, WAITS = "TORA:notice=1", "TORA:notice=1,waits=1"
GROWTH = ("unavailable", "rounds_lost_by_outage", "restore_median", "control", "control_per_delivered", "hops_mean")


def table(name, **wanted):
    """The stored rows of a study with these values."""
    held = with_derived(read_table(STORED / f"{name}.csv"))
    return held.where({key: str(value) for key, value in wanted.items()}) if wanted else held


def cells(label, *some):
    """A line of a table."""
    return f"| {' | '.join([label, *some])} |"


# ---- numbers

def number(value, digits):
    """A number with so many decimal places, and none if it is 0 or 1."""
    return f"{value:.0f}" if value in (0, 1) else f"{value:,.{digits}f}"


def count(value):
    """A number that is whole, or half of one."""
    return f"{value:,.1f}".removesuffix(".0")


def thousands(value, like):
    """Thousands with some three digits, as many as `like` has."""
    return f"{value / 1000:.{0 if like >= 1e5 else 1 if like >= 1e3 else 2}f}"


def shares(value):
    """A share to three digits."""
    return number(value, 3)


def fixed(digits):
    """Numbers with so many decimal places."""
    return lambda value: f"{value:,.{digits}f}"


# ---- tables of the comparison

def whole(kind, size):
    """A table that the package makes whole."""
    nodes, flows = SIZES[size]
    return report(table("ns3-whole", nodes=nodes, flows=flows), kind)[2:]


def beside(tora, other):
    """One choice of TORA beside another, in pairs of runs of 20 nodes and 5 flows."""
    rows = {}
    for measure, ratio in (("delivery", False), ("control_rate", True)):
        held = compare(table("ns3-proved", nodes=20, flows=5), {"protocol": other.replace(",", ";")}, [measure], ratio=ratio)
        for row in held.rows.to_dict("records"):
            if row["protocol"] == tora.replace(",", ";"):
                scale = 1 if ratio else 100
                told = f"{scale * row['value']:.2f}"
                if row["low"] == row["low"]:
                    told += f" [{scale * row['low']:.2f} .. {scale * row['high']:.2f}]"
                rows.setdefault(row["speed"], [str(row["pairs"])]).append(told)
    return [rows[speed] for speed in sorted(rows)]


def across(nodes, flows, measure, digits, of="ns3-whole"):
    """A measure of the comparison: a line for each protocol, a column for each greatest speed."""
    held = table(of, nodes=nodes, flows=flows).frame
    speeds = sorted(held["speed"].unique())
    lines = [cells("protocol", *(f"{speed:g} m/s" for speed in speeds)), "|" + "---|" * (len(speeds) + 1)]
    for protocol, rows in sorted(held.groupby("protocol")):
        found = [stats.bca_interval(rows[rows["speed"] == speed][measure].to_numpy(float)) for speed in speeds]
        lines.append(cells(protocol, *(interval(it, digits) for it in found)))
    return lines


def times():
    """The processor time and the greatest memory of a run: means by nodes, greatest speed and protocol, and times by OLSR's."""
    with open(STORED / "ns3-times.csv", encoding="utf-8") as text:
        rows = list(csv.DictReader(text))
    lines = [cells("nodes", "greatest speed", "protocol", "runs", "processor time, s", "by OLSR's", "memory, MB"), "|" + "---|" * 7]
    means = {}
    for row in rows:
        means.setdefault((int(row["nodes"]), float(row["speed"]), row["protocol"]), []).append((float(row["seconds"]), float(row["megabytes"])))
    for (nodes, speed, protocol), held in sorted(means.items()):
        seconds, megabytes = (sum(it[at] for it in held) / len(held) for at in (0, 1))
        other = means[nodes, speed, "OLSR"]
        ratio = seconds / (sum(it[0] for it in other) / len(other))
        lines.append(cells(str(nodes), f"{speed:g} m/s", protocol, str(len(held)), f"{seconds:.1f}", f"{ratio:.2f}", f"{megabytes:.0f}"))
    return lines


def older():
    """The module beside the older one, in pairs of runs: a line for each size, number of flows and greatest speed."""
    whole, before = table("ns3-whole"), table("ns3-proved", protocol=WAITS.replace(",", ";"))
    both = Table(whole.path, pd.concat([whole.frame[whole.frame["protocol"] == "TORA"], before.frame], ignore_index=True), whole.design)
    lines = [cells("nodes", "flows", "greatest speed", "pairs", "delivery, points", "control bytes, ratio"), "|" + "---|" * 6]
    found = {}
    for measure, ratio in (("delivery", False), ("control_bytes", True)):
        for row in compare(both, {"protocol": WAITS.replace(",", ";")}, [measure], ratio=ratio).rows.to_dict("records"):
            if row["protocol"] == "TORA":
                scale = 1 if ratio else 100
                told = interval(stats.Interval(*(scale * row[name] for name in ("value", "low", "high"))), 2)
                found.setdefault((row["nodes"], row["flows"], row["speed"]), [str(row["pairs"])]).append(told)
    return lines + [cells(f"{nodes:g}", f"{flows:g}", f"{speed:g} m/s", *found[nodes, flows, speed]) for nodes, flows, speed in sorted(found)]


# ---- tables of sparse networks

PLAIN, REMEMBERED = "TORA:erasure=plain", "TORA"
SHORT = {PLAIN: "TORA, plain", REMEMBERED: "TORA, remembered"}


def sparse(measure, scale, digits):
    """A measure of the sparse networks: a line for each protocol, a column for each size and greatest speed."""
    held = table("sparse").frame
    kinds = sorted(set(zip(held["nodes"], held["speed"])))
    lines = [cells("protocol", *(f"{nodes:g}, {speed:g} m/s" for nodes, speed in kinds)), "|" + "---|" * (len(kinds) + 1)]
    for protocol, rows in sorted(held.groupby("protocol")):
        found = [rows[(rows["nodes"] == nodes) & (rows["speed"] == speed)][measure].dropna().to_numpy(float) / scale for nodes, speed in kinds]
        lines.append(cells(SHORT.get(protocol, protocol), *(interval(stats.bca_interval(values), digits) for values in found)))
    return lines


def erasures():
    """Remembered erasure beside plain erasure in the sparse networks, in pairs of runs: a line for each size and greatest speed."""
    held = table("sparse")
    held = Table(held.path, held.frame[held.frame["protocol"].isin((PLAIN, REMEMBERED))], held.design)
    lines = [cells("", "pairs", "delivery, difference", "p, Holm", "bytes, ratio", "p, Holm", "busiest second, ratio", "p, Holm"),
             "|" + "---|" * 8]
    found = {}
    for measure, ratio in (("delivery_reachable", False), ("control_bytes", True), ("control_most", True)):
        for row in compare(held, {"protocol": PLAIN}, [measure], ratio=ratio).rows.to_dict("records"):
            if row["protocol"] == REMEMBERED:
                p = row["p_holm"]
                found.setdefault((row["nodes"], row["speed"]), [str(row["pairs"])]).extend([interval(stats.Interval(row["value"], row["low"], row["high"]), 3), "-" if p != p else f"{p:.3f}"])
    return lines + [cells(f"{nodes:g}, {speed:g} m/s", *found[nodes, speed]) for nodes, speed in sorted(found)]


def interval(found, digits):
    """A mean with its interval, where it has one."""
    told = f"{found.value:.{digits}f}"
    return f"{told} [{found.low:.{digits}f} .. {found.high:.{digits}f}]" if found.low == found.low else told


def salvage():
    """The runs of TORA with salvage, of the first runs."""
    held = table("ns3", protocol="TORA:salvage=1").frame
    digits = {"delivery": 3, "control_rate": 2, "delay_95": 1, "stretch": 3}
    groups = sorted(held.groupby("speed"))
    return [[f"{speed:g} m/s", str(len(rows)), *(f"{rows[name].mean():.{some}f}" for name, some in digits.items())] for speed, rows in groups]


# ---- tables of hosts

PHASES = {"down": ("down", "fault"), "silent": ("silent", "fault"), "lossy": ("lossy", "fault"), "killed": ("killed", "fault"),
          "plugged in": ("down", "repair"), "started again": ("killed", "repair"), "rest": ("rest", "rest")}


def told(values, digits):
    """A median with its interval by order statistics, or with the least and the greatest of fewer values than that takes."""
    if not len(values):
        return "-"
    found = stats.order_interval(values)
    shown = lambda it: "none" if it == float("inf") else f"{it:,.{digits if it < 100 else 0}f}"  # noqa: E731
    if found.low == found.low:
        return f"{shown(found.value)} [{shown(found.low)} .. {shown(found.high)}]"
    return f"{shown(found.value)} ({shown(values.min())} to {shown(values.max())})"


def hosts(measure, digits, *phases):
    """A measure of the comparison of hosts: a line for each protocol and its hello times, a column for each phase."""
    held = live.read(STORED / "live.csv")
    lines = [cells("protocol", "hello times", "runs", *phases), "|" + "---|" * (len(phases) + 3)]
    for (protocol, timing), rows in sorted(held.groups(["protocol", "timing"]).items()):
        parts = [live.chosen(Table(held.path, rows, held.design), *PHASES[name]) for name in phases]
        found = [[] if part is None else part.frame[measure].dropna().to_numpy(float) for part in parts]
        lines.append(cells(protocol, timing, str(len(rows.groupby(["topology", "nodes", "seed"]))), *(told(values, digits) for values in found)))
    return lines


def at_rest(**measures):
    """Measures of hosts at rest: a line for each protocol and its hello times."""
    parts = [hosts(name, digits, "rest") for name, digits in measures.items()]
    lines = [[line.split(" | ")[-1].rstrip(" |") for line in part[2:]] for part in parts]
    heads = [line.split(" | ")[:3] for line in parts[0][2:]]
    first = [cells("protocol", "hello times", "runs", *measures), "|" + "---|" * (len(measures) + 3)]
    return first + [cells(head[0].removeprefix("| "), *head[1:], *some) for head, *some in zip(heads, *lines)]


# ---- tables of TORA

def study():
    """Medians, least and greatest of the study of 10, 20 and 40 nodes."""
    groups = [rows for _, rows in sorted(table("study").frame.groupby("nodes"))]
    two, three = (lambda value: number(value, 2)), shares
    kinds = {"breaks": count, "connected": three, "available": three, "stale": three, "restore_median": count, "restore_95": count, "stretch_mean": two,
             "query": count, "update": count, "clear": count, "hello": None, "data": None}
    lines = []
    for name, shown in kinds.items():
        line = []
        for rows in groups:
            middle = stats.quantile(rows[name].dropna().to_numpy(float), 0.5)
            own = shown or (lambda value, middle=middle: thousands(value, middle))
            line.append(f"{own(middle)} ({own(rows[name].min())} to {own(rows[name].max())})")
        lines.append(line)
    return [*lines, [str(int((rows["loops"] > 0).sum())) for rows in groups]]


def noticed(measures, speeds):
    """Medians of the study of speed, loss and notice: a line for each notice and loss, a column for each measure and speed."""
    held = table("notice").frame
    lines = []
    for notice, loss in ((0, 0), (0, 200000), (1, 0), (1, 100000), (1, 200000)):
        rows = held[(held["notice"] == notice) & (held["loss"] == loss)]
        lines.append([shares(stats.quantile(rows[rows["speed_most"] == speed][name].to_numpy(float), 0.5)) for name in measures for speed in speeds])
    return lines


def mean(values, shown):
    """A mean with its interval."""
    found = stats.bca_interval(values.dropna().to_numpy(float))
    return f"{shown(found.value)} ({shown(found.low)} to {shown(found.high)})"


def large(notice, kinds):
    """Means of the study of 50 to 400 nodes: a line for each measure, a column for each size."""
    groups = [rows for _, rows in sorted(table("large", notice=notice).frame.groupby("nodes"))]
    return [[mean(rows[name], fixed(digits)) for rows in groups] for name, digits in kinds.items()]


def motion():
    """The motion of the study of 50 to 400 nodes."""
    groups = [rows for _, rows in sorted(table("large", notice=0).frame.groupby("nodes"))]
    means = [[mean(rows[name], fixed(digits)) for rows in groups] for name, digits in {"degree_mean": 1, "links_declared": 0, "breaks": 0}.items()]
    return [[f"{rows['width'].iloc[0]:,.0f}" for rows in groups], *means, [f"{rows['most_met'].max():.0f}" for rows in groups]]


def growth():
    """Exponents over the number of nodes: a line for each measure, a column for each notice."""
    lines = []
    for name in GROWTH:
        line = []
        for notice in (0, 1):
            rows = table("large", notice=notice).frame[["nodes", name]].dropna()
            rows = rows[rows[name] > 0]
            fit = stats.power_law(rows["nodes"].to_numpy(float), rows[name].to_numpy(float)) if len(rows) else None
            line.append("" if fit is None else f"{fit.exponent:.2f} ({fit.low:.2f} to {fit.high:.2f})")
        lines.append(line)
    return lines


SILENCE = {"available": 3, "stale": 3, "restore_median": 0, "restore_95": 0, "rounds_lost_by_outage": 0, "control_per_node": 1, "control_per_delivered": 2,
           "hops_mean": 1}
WITH_NOTICE = {"available": 3, "no_hop": 3, "looping": 3, "rounds_lost_by_outage": 0, "control_per_node": 1, "control_per_delivered": 2, "hops_mean": 1}
WHOLE = {f"ns3-{size}-{kind}": (lambda kind=kind, size=size: whole(kind, size)) for size in SIZES for kind in ("runs", "aims", "losses")}
WHOLE |= {f"ns3-{size}-delivery": (lambda of=of: across(*of, "delivery", 3)) for size, of in SIZES.items()}
WHOLE |= {f"ns3-{size}-control_rate": (lambda size=size: across(*SIZES[size], "control_rate", 2)) for size in ("20-5", "50-10")}
WHOLE |= {f"ns3-100-{measure}": (lambda measure=measure, digits=digits: across(100, 5, measure, digits, of="ns3-100"))
          for measure, digits in (("delivery", 3), ("control_rate", 1))}
WHOLE |= {"ns3-times": times, "ns3-older": older}
WHOLE |= {"sparse-delivery": lambda: sparse("delivery_reachable", 1, 3), "sparse-bytes": lambda: sparse("control_bytes", 1000, 0),
          "sparse-most": lambda: sparse("control_most", 1000, 1), "sparse-erasures": erasures}
WHOLE |= {"live-working": lambda: hosts("working_ms", 1, "down", "silent", "killed", "started again"),
          "live-gap": lambda: hosts("gap_ms", 0, "down", "silent", "lossy", "killed", "started again"),
          "live-lost": lambda: hosts("lost", 0, "down", "silent", "lossy", "killed", "started again"),
          "live-tcp": lambda: hosts("tcp_stall_ms", 0, "down", "silent", "lossy", "killed", "started again"),
          "live-bytes": lambda: hosts("control_bytes_rate", 0, "rest", "down", "silent", "lossy", "killed"),
          "live-processor": lambda: hosts("processor_percent", 3, "rest", "down", "silent", "lossy", "started again"),
          "live-rest": lambda: at_rest(control_packets_rate=2, memory_mb=1, stretch=2, routes_left=0)}
TABLES = {
    "ns3-notice": lambda: beside(NOTICE, "TORA"),
    "ns3-waits": lambda: beside(WAITS, NOTICE),
    "ns3-salvage": salvage,
    "study": study,
    "notice-available": lambda: noticed(["available"], [1, 5, 10, 20]),
    "notice-others": lambda: noticed(["stale", "no_hop", "looping"], [10]),
    "large-silence": lambda: large(0, SILENCE),
    "large-notice": lambda: large(1, WITH_NOTICE),
    "large-growth": growth,
    "large-motion": motion,
}


def made(name, old):
    """The lines of a table, by those that stand."""
    if name in WHOLE:
        return WHOLE[name]()
    if name not in TABLES:
        raise StudyError(f"there is no table {name}", file="dev/studies.py")
    found, labels = TABLES[name](), [line.split(" | ")[0].removeprefix("|").strip() for line in old[2:]]
    if len(labels) != len(found):
        raise StudyError(f"table {name}: {len(labels)} lines stand, and {len(found)} are made", file="dev/studies.py")
    return old[:2] + [cells(label, *some).replace("|  |", "| |") for label, some in zip(labels, found)]


def tables_of(lines):
    """Yields the name, the place and the lines of each table of a document that is made."""
    for at, line in enumerate(lines):
        mark = MARK.fullmatch(line.strip())
        if mark:
            start = next((it for it in range(at + 1, min(at + 3, len(lines))) if lines[it].lstrip().startswith("|")), None)
            if start is None:
                raise StudyError(f"no table stands under the line of {mark[1]}", line=at + 1)
            end = start
            while end < len(lines) and lines[end].lstrip().startswith("|"):
                end += 1
            yield mark[1], start, lines[start:end]


def documents():
    """The documents that have tables that are made."""
    return [path for path in sorted(DOCS.rglob("*.md")) if MARK.search(path.read_text(encoding="utf-8"))]


def make_tables(path, wanted, is_check):
    """Makes the tables of a document; answers what differs."""
    lines = path.read_text(encoding="utf-8").split("\n")
    differ = []
    for name, start, old in list(tables_of(lines)):
        if not wanted or name in wanted:
            indent = old[0][:len(old[0]) - len(old[0].lstrip())]
            new = [indent + line for line in made(name, [line.strip() for line in old])]
            if new != old:
                differ.append(f"{path.relative_to(TOP)}: table {name}")
                lines[start:start + len(old)] = new + [None] * (len(old) - len(new)) if len(new) <= len(old) else new
                if len(new) > len(old):
                    raise StudyError(f"table {name}: {len(new) - len(old)} lines are missing; add them, empty", file=str(path))
    if differ and not is_check:
        path.write_text("\n".join(line for line in lines if line is not None), encoding="utf-8")
    return differ


# ---- pictures

def draw(name, kind, *, of=None, measures=(), **wanted):
    """A picture of a stored table."""
    plots.write_picture(plots.drawn(table(of or name, **wanted), kind, None, measures), STORED / f"{name}.png", overwrite=True)


def draw_break():
    """Heights around a break of a route."""
    run = Scenario.waypoint(nodes=20, seed=2).run()
    for clock, figure in heights.heights(run, 7, heights.rounds_around(run, 7, 5)).items():
        plots.write_picture(figure, STORED / f"break-{clock}.png", overwrite=True)


STORM = ["sim", "--notice", "--channel", "delay=1-2", "--seed", "538", "--until", "400", "--trace", "storm.trace", str(TOP / "examples/storm/storm.sim")]


def run_all(work, name, *commands):
    """Runs commands in a folder; the picture of this name is not made where one fails."""
    for words in commands:
        done = subprocess.run(words, cwd=work, capture_output=True, text=True)
        if done.returncode:
            raise StudyError(f"no picture: {(done.stderr.strip().splitlines() or [words[0]])[-1]}", file=f"docs/studies/{name}")


def draw_storm():
    """The packets of a recorded storm, over time."""
    with tempfile.TemporaryDirectory() as work:
        plot = ["plot", "packets", "storm.trace", "--destination", "4", "--rounds", "46-70", "-o", "storm.png"]
        run_all(work, "storm.png", [os.environ.get("TORA", str(TOP / "tora")), *STORM], [str(TOP / "python/tora-study"), *plot])
        (STORED / "storm.png").write_bytes(pathlib.Path(work, "storm.png").read_bytes())


def draw_storm_page():
    """A round of the recorded storm, in the page that plays its trace."""
    with tempfile.TemporaryDirectory() as work:
        page = ["page", "storm.trace", "-o", "storm.html"]
        shot = [str(TOP / "dev/check-page.sh"), "--shot", "storm.html#round=59&destination=4", "--picture", "storm-page.png"]
        run_all(work, "storm-page.png", [os.environ.get("TORA", str(TOP / "tora")), *STORM], [str(TOP / "python/tora-study"), *page], shot)
        (STORED / "storm-page.png").write_bytes(pathlib.Path(work, "storm-page.png").read_bytes())


def draw_page():
    """A page in a browser."""
    with tempfile.TemporaryDirectory() as work:
        done = subprocess.run([str(TOP / "dev" / "check-page.sh"), "--picture", f"{work}/page.png"], capture_output=True, text=True)
        path = pathlib.Path(work, "page.png")
        if not path.exists():
            raise StudyError(f"no picture of a page: {(done.stderr.strip().splitlines() or ['dev/check-page.sh fails'])[-1]}", file="docs/studies/page.png")
        (STORED / "page.png").write_bytes(path.read_bytes())


PICTURES = {
    "study.png": lambda: draw("study", "overview"),
    "notice.png": lambda: draw("notice", "notice"),
    "large.png": lambda: draw("large", "growth", measures=GROWTH),
    "ns3.png": lambda: draw("ns3", "comparison"),
    **{f"ns3-{size}.png": (lambda size=size: draw(f"ns3-{size}", "comparison", of="ns3-whole", nodes=SIZES[size][0], flows=SIZES[size][1])) for size in SIZES},
    "ns3-delivery.png": lambda: draw("ns3-delivery", "comparison", of="ns3-whole", measures=("delivery", "control_rate"), nodes=50, flows=5),
    "live-mended.png": lambda: plots.write_picture(live.mended(live.read(STORED / "live.csv")), STORED / "live-mended.png", overwrite=True),
    "live-cost.png": lambda: plots.write_picture(live.cost(live.read(STORED / "live.csv")), STORED / "live-cost.png", overwrite=True),
    "storms.png": lambda: draw("storms", "storms"),
    "storms-mended.png": lambda: draw("storms-mended", "storms"),
    "storm.png": draw_storm,
    "storm-page.png": draw_storm_page,
    "break.png": draw_break,
    "page.png": draw_page,
}


def main():
    parser = argparse.ArgumentParser(description=__doc__, formatter_class=argparse.RawDescriptionHelpFormatter)
    parser.add_argument("--check", action="store_true", help="compare the tables, and write nothing")
    parser.add_argument("names", metavar="NAME", nargs="*", help="a table or a picture")
    words = parser.parse_args()
    for name in words.names:
        if name not in {*TABLES, *WHOLE, *PICTURES}:
            parser.error(f"there is no table or picture {name}: {', '.join([*TABLES, *WHOLE, *PICTURES])}")
    status = 0
    try:
        for path in documents():
            for told in make_tables(path, words.names, words.check):
                print(f"{told} {'differs' if words.check else 'is made anew'}")
                status = int(words.check)
    except StudyError as cause:
        print(f"studies.py: {cause}", file=sys.stderr)
        return 1
    for name, make in {} if words.check else PICTURES.items():
        if not words.names or name in words.names:
            try:
                make()
                print(f"docs/studies/{name.replace('break.png', 'break-*.png')}")
            except StudyError as cause:
                print(f"studies.py: {cause}", file=sys.stderr)
                status = 1
    return status


if __name__ == "__main__":
    sys.exit(main())
