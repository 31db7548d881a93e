"""The tables of the ns-3 comparison: what each protocol did at each greatest speed, TORA beside AODV and OLSR, and how packets were lost.

Each is of one number of nodes and one of flows. Means are over seeds, with BCa intervals of 95 %. TORA is compared in pairs of runs of the same motion.
"""
from __future__ import annotations

from collections.abc import Iterator, Sequence

import numpy as np

from tora import stats
from tora.columns import SEED
from tora.errors import UsageError
from tora.stats import Floats
from tora.summary import METHODS
from tora.table import Table

ORDER = ("AODV", "OLSR", "DSDV")
MEASURES = (("delivery", 3), ("control_rate", 2), ("packets_per_packet", 2), ("delay_95", 1), ("stretch", 3))
LOST = (
    ("the radio gave it up", "lost_radio"),
    ("ARP dropped it", "lost_arp"),
    ("IP dropped it", "lost_no_route"),
    ("TORA: it came back to a node", "lost_came_back"),
    ("TORA: it waited too long", "lost_late"),
    ("it waits at the end, or was dropped without a word", "lost_other"),
)
TORA = "TORA"  # the protocol beside AODV and OLSR, where none is told
POINTS = -2.0  # of delivery below AODV's at most
TIMES = {20.0: 3.0, 50.0: 5.0}  # by nodes: control bytes by AODV's at most
TOLD = f"means over seeds and their 95 % intervals: {METHODS['bca']}; none for fewer than {stats.FEWEST} runs, or where all are equal"


def report(table: Table, kind: str, tora: str = TORA) -> list[str]:
    """The lines of a table in Markdown: `runs`, `aims` or `losses`.

    Parameters
    ----------
    table : Table
        Of the ns-3 comparison, with one number of nodes and one of flows.
    kind : str
    tora : str
        For `aims`, the protocol to compare with AODV and OLSR, as the row names it, but with commas.
    """
    if table.design != ["protocol", "nodes", "speed", "flows"]:
        raise UsageError(f"--report {kind}: this is no table of the ns-3 comparison", file=table.path)
    for name in ("nodes", "flows"):
        if name in table.varied:
            raise UsageError(f"--report {kind}: the table has several values of {name}; --where {name}=NUMBER chooses one", file=table.path)
    rows_of = {"runs": _runs, "losses": _losses}.get(kind)
    head, *rows = _aims(table, tora.replace(",", ";")) if rows_of is None else rows_of(table)
    return [f"{table.path}: {len(table.frame)} runs of {table.frame['nodes'].iloc[0]:g} nodes and {table.frame['flows'].iloc[0]:g} flows; {TOLD}", "",
            _line(head), "|" + "---|" * len(head), *map(_line, rows)]


def _line(cells: Sequence[str]) -> str:
    """A row of a table in Markdown."""
    return "| " + " | ".join(cells) + " |"


def _protocols(table: Table) -> list[str]:
    """The protocols, TORA's last."""
    return sorted(set(table.frame["protocol"]), key=lambda it: (ORDER.index(it) if it in ORDER else len(ORDER), it))


def _values(table: Table, protocol: str, speed: float, column: str) -> Floats:
    """The values of a column by a protocol at a speed, without empty cells."""
    rows = table.frame[(table.frame["protocol"] == protocol) & (table.frame["speed"] == speed)]
    found: Floats = rows[column].dropna().to_numpy(dtype=float)
    return found


def _shown(values: Floats, digits: int) -> str:
    """A mean with its interval; the mean alone where there is none."""
    if not len(values):
        return "-"
    mean, low, high = stats.bca_interval(values)
    return f"{mean:.{digits}f}" + (f" [{low:.{digits}f} .. {high:.{digits}f}]" if np.isfinite(low) else "")


def _runs(table: Table) -> Iterator[list[str]]:
    """A line for each speed and protocol."""
    table.need(name for name, _ in MEASURES)
    yield [
        "protocol", "greatest speed", "runs", "delivery", "least of a run", "control, KB/s", "control packets / packet", "95 % of delays below, ms",
        "hops / shortest",
    ]
    for speed in sorted(set(table.frame["speed"])):
        for protocol in _protocols(table):
            delivery = _values(table, protocol, speed, "delivery")
            if len(delivery):
                shown = [_shown(_values(table, protocol, speed, name), digits) for name, digits in MEASURES]
                yield [protocol.replace(";", ","), f"{speed:g} m/s", str(len(delivery)), shown[0], f"{delivery.min():.3f}", *shown[1:]]


def _pairs(table: Table, tora: str, other: str) -> dict[tuple[float, float], tuple[float, float]]:
    """By speed and seed how much more TORA delivered than the other, in points, and its control bytes by the other's."""
    rows = {(row.protocol, row.speed, getattr(row, SEED)): row for row in table.frame.itertuples()}
    found = {}
    for (protocol, speed, seed), row in rows.items():
        beside = rows.get((other, speed, seed))
        if protocol == tora and beside is not None:
            found[speed, seed] = 100 * (row.delivery - beside.delivery), row.control_rate / beside.control_rate
    return found


def _mean_pairs(pairs: dict[tuple[float, float], tuple[float, float]], speeds: Sequence[float]) -> list[tuple[float, float]]:
    """By seed the mean of all speeds, of the seeds that have them all."""
    whole = [seed for seed in sorted({seed for _, seed in pairs}) if all((speed, seed) in pairs for speed in speeds)]
    return [(float(np.mean([pairs[it, seed][0] for it in speeds])), float(np.mean([pairs[it, seed][1] for it in speeds]))) for seed in whole]


def judged(values: Floats, bound: float, is_least: bool) -> str:
    """Whether the interval of values meets a bound, which is the least that they may be, or the most.

    `met` where the whole interval does, `missed` where no part of it does, else `open`. Below `stats.FEW` values nothing is said, since their intervals are too
    narrow, and where there is no interval.
    """
    interval = stats.bca_interval(values)
    if len(values) < stats.FEW or not interval.is_there:
        return "-"
    inside, outside = (interval.low >= bound, interval.high < bound) if is_least else (interval.high <= bound, interval.low > bound)
    return "met" if inside else "missed" if outside else "open"


def _aims(table: Table, tora: str) -> Iterator[list[str]]:
    """A line for each speed, and one of the mean of all speeds."""
    table.need(["delivery", "control_rate"])
    for protocol in (tora, "AODV", "OLSR"):
        if protocol not in set(table.frame["protocol"]):
            raise UsageError(f"--report aims: there is no run of {protocol.replace(';', ',')}", file=table.path)
    most = TIMES.get(float(table.frame["nodes"].iloc[0]))
    if most is None:
        raise UsageError("--report aims: the aims are of 20 and of 50 nodes", file=table.path)
    aodv, olsr, speeds = _pairs(table, tora, "AODV"), _pairs(table, tora, "OLSR"), sorted(set(table.frame["speed"]))
    cases = [(f"{speed:g} m/s", [it for (at, _), it in aodv.items() if at == speed], [it for (at, _), it in olsr.items() if at == speed]) for speed in speeds]
    cases.append((f"mean of the {len(speeds)} speeds", _mean_pairs(aodv, speeds), _mean_pairs(olsr, speeds)))
    yield [
        "TORA", "greatest speed", "pairs", "delivery less AODV's, points", f"aim: {POINTS:g} or more", "control bytes by AODV's", f"aim: {most:g} or less",
        "pairs", "delivery less OLSR's, points", "aim: 0 or more",
    ]
    for name, first, second in cases:
        more, times, beside = (np.array([pair[at] for pair in pairs]) for pairs, at in ((first, 0), (first, 1), (second, 0)))
        if len(more) and len(beside):
            yield [
                tora.replace(";", ","), name, str(len(more)), _shown(more, 2), judged(more, POINTS, True), _shown(times, 2),
                judged(times, most, False), str(len(beside)), _shown(beside, 2), judged(beside, 0, True),
            ]


def _losses(table: Table) -> Iterator[list[str]]:
    """A line for each way in which packets were lost, and one of all."""
    table.need([*(column for _, column in LOST), "sent", "received"])
    protocols = _protocols(table)
    own = {protocol: table.frame[table.frame["protocol"] == protocol] for protocol in protocols}
    yield ["lost by", *(protocol.replace(";", ",") for protocol in protocols)]
    for text, column in LOST:
        yield [text, *(str(int(own[protocol][column].sum())) for protocol in protocols)]
    totals = []
    for rows in own.values():
        sent, received = int(rows["sent"].sum()), int(rows["received"].sum())
        totals.append(f"{sent - received} of {sent} in {len(rows)} runs")
    yield ["of all that were sent", *totals]
