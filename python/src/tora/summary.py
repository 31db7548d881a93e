"""Summaries of a table of runs: a row for each group and measure, with intervals; and comparisons in pairs of runs.

Groups are what *all* columns of the design make. Runs of groups are put into one interval only where that is asked for, and the header
tells it.
"""
from __future__ import annotations

import dataclasses
import math
from collections.abc import Iterator, Sequence

import numpy as np
import numpy.typing as npt
import pandas as pd

from tora import stats
from tora.columns import SEED, measure_of
from tora.errors import UsageError
from tora.table import Key, Table, text_of

Floats = npt.NDArray[np.float64]

PREFERRED = "protocol erasure nodes speed_most speed loss notice silence_ticks delay_most".split()  # columns that are shown first
USUAL = (
    "available stale no_hop looping restore_median restore_95 stretch_mean query update clear delivery_ratio delivery delay_median "
    "delay_95 control_rate bytes_per_packet packets_per_packet stretch rest_ticks"
).split()
RESULTS = "value low high least greatest p p_holm".split()
METHODS = {
    "bca": f"bootstrap, BCa (scipy.stats.bootstrap, {stats.RESAMPLES} resamples, seed {stats.SEED})",
    "order": "order statistics (scipy.stats.binom)",
    "student": "Student's t (scipy.stats.t)",
}


@dataclasses.dataclass(frozen=True)
class Summary:
    """A summary.

    Attributes
    ----------
    header : list of str
        What the rows are: groups, pools, the statistic, its intervals.
    keys : list of str
        The columns that distinguish groups.
    rows : DataFrame
        The keys; `measure`; `runs` and `without` (those with a cell, and without); `value`, `low` and `high`, NaN for none; `least` and
        `greatest` of a run. Of a comparison `pairs` and `alone` in place of runs, and `p`, `p_holm` in place of the least and the greatest.
    """

    header: list[str]
    keys: list[str]
    rows: pd.DataFrame


def usual_measures(table: Table) -> list[str]:
    """The measures that are shown if none are named: the usual ones that some run has, or all of a table that has none of these."""
    return [name for name in USUAL if name in table.measures and table.frame[name].notna().any()] or table.measures


def keys_of(table: Table, pool: Sequence[str] = ()) -> tuple[list[str], dict[str, str]]:
    """The fewest columns that distinguish the groups, and for each other column that varies those that it varies with.

    Raises
    ------
    UsageError
        Where a column that is to be pooled is none of the design, does not vary, or is told by one that is not pooled.
    """
    for name in pool:
        if name not in table.design:
            raise UsageError(f"--pool: `{name}` is no column of the design", file=table.path)
        if name not in table.varied:
            raise UsageError(f"--pool: all runs have one value of {name}", file=table.path)
    left = sorted((name for name in table.varied if name not in pool), key=lambda it: PREFERRED.index(it) if it in PREFERRED else len(PREFERRED))
    for name in pool:
        if left and _count(table, [*left, name]) == _count(table, left):
            partner = next((it for it in left if _count(table, [it, name]) == _count(table, [it])), left[0])
            raise UsageError(f"--pool: {partner} tells the values of {name} apart, so it has to be pooled, too", file=table.path)
    keys: list[str] = []
    for name in left:
        if _count(table, [*keys, name]) > _count(table, keys):
            keys.append(name)
    for name in list(keys):  # a later column may tell what an earlier one does
        rest = [it for it in keys if it != name]
        if _count(table, rest) == _count(table, keys):
            keys = rest
    told = {name: next((it for it in keys if _count(table, [it, name]) == _count(table, [it])), ", ".join(keys)) for name in left if name not in keys}
    return keys, told


def _count(table: Table, names: Sequence[str]) -> int:
    """How many groups columns make."""
    return len(table.groups(list(names)))


def _refuse_uneven(table: Table, keys: Sequence[str], pool: Sequence[str]) -> None:
    """Refuses to pool where one group has other values of the pooled columns than another: they could not be compared."""
    if not pool:
        return
    parts = {key: set(zip(*(runs[name] for name in pool))) for key, runs in table.groups(keys).items()}
    whole = set().union(*parts.values())
    for key, held in parts.items():
        if held != whole:
            missing = min(whole - held, key=str)
            told = " and ".join(f"{name}={text_of(value)}" for name, value in zip(pool, missing))
            raise UsageError(f"--pool: there is no run of {told} with {_named(keys, key)}, as there is in other groups", file=table.path)


def values_of(table: Table, runs: pd.DataFrame, measure: str, pool: Sequence[str] = ()) -> tuple[Floats, int]:
    """The values of a measure in a group, one for each seed, and how many are left out for an empty cell.

    Where runs are pooled and a seed has several, its value is the mean of them: runs of one seed are not independent.

    Raises
    ------
    UsageError
        Where a seed lacks a run that others have.
    """
    if not pool:
        cells = runs[measure].to_numpy(dtype=float)
        held = cells[~np.isnan(cells)]
        return held, len(cells) - len(held)
    seeds = runs.groupby(SEED)[measure]
    sizes, parts = seeds.size(), len(set(zip(*(runs[name] for name in pool))))
    if sizes.max() > 1 and sizes.min() < parts:
        cause = f"--pool: seed {int(sizes.idxmin())} has {int(sizes.min())} of the {parts} runs that are pooled, and other seeds have more"
        raise UsageError(cause, file=table.path)
    means = seeds.apply(lambda cells: cells.mean(skipna=False)).to_numpy(dtype=float)
    held = means[~np.isnan(means)]
    return held, len(means) - len(held)


def summarize(
    table: Table, measures: Sequence[str] = (), *, statistic: str = "mean", method: str | None = None, pool: Sequence[str] = (),
) -> Summary:
    """A row for each group and measure.

    Parameters
    ----------
    table : Table
    measures : names
        Those of `usual_measures` without it.
    statistic : str
        ``mean``, ``median``, or a quantile as ``q0.95``.
    method : str, optional
        Of the intervals: ``bca``, ``order`` or ``student``; the usual one of the statistic without it.
    pool : names
        Columns of the design whose values are put into one interval.
    """
    method = stats.method_of(statistic, method)
    chosen = list(measures) or usual_measures(table)
    table.need_measures(chosen)
    keys, told = keys_of(table, pool)
    _refuse_uneven(table, keys, pool)
    rows = []
    for name in chosen:
        groups = [(key, *values_of(table, runs, name, pool)) for key, runs in table.groups(keys).items()]
        if method == "student":
            stats.refuse_student([(_named(keys, key), values) for key, values, _ in groups], measure_of(name))
        for key, values, without in groups:
            ends = (float(values.min()), float(values.max())) if len(values) else (math.nan, math.nan)
            rows.append([*key, name, len(values), without, *stats.interval_of(values, statistic, method), *ends])
    header = [*_header(table, keys, told, pool), _told_statistic(statistic, method)]
    frame = pd.DataFrame(rows, columns=[*keys, "measure", "runs", "without", *RESULTS[:5]])
    return Summary(header + _notes(frame, "runs", method), keys, frame)


def _named(keys: Sequence[str], key: Key) -> str:
    """A group for a refusal."""
    return " and ".join(f"{name}={text_of(value)}" for name, value in zip(keys, key)) or "all runs"


def _header(table: Table, keys: Sequence[str], told: dict[str, str], pool: Sequence[str]) -> list[str]:
    """What the groups are."""
    alike = [f"{name} varies with {other}" for name, other in told.items()]
    lines = [f"{table.path}: {len(table.frame)} runs; groups by {', '.join(keys) or 'nothing: the design does not vary'}" + "".join(f"; {it}" for it in alike)]
    for name in pool:
        values = ", ".join(text_of(value) for value, in table.groups([name]))
        lines.append(f"pooled in one interval: {name} = {values}; of a seed with several runs their mean")
    return lines


def _told_statistic(statistic: str, method: str) -> str:
    """What the value and its interval are."""
    rule = "" if statistic == "mean" else f" (numpy.quantile, rule {stats.QUANTILE_RULE})"
    return f"value: the {statistic}{rule}; its 95 % interval over runs: {METHODS[method]}"


def _notes(rows: pd.DataFrame, count: str, method: str) -> list[str]:
    """What the intervals lack."""
    notes = []
    if rows["low"].isna().any():
        fewest = f"fewer than {stats.FEWEST} runs, or all equal" if method == "bca" else "too few runs"
        notes.append(f"[-]: no interval: {fewest}")
    if method == "bca" and ((rows[count] < stats.FEW) & rows["low"].notna()).any():
        notes.append(f"with fewer than {stats.FEW} runs a bootstrap interval is somewhat too narrow")
    return notes


def compare(
    table: Table, baseline: dict[str, str], measures: Sequence[str] = (), *, ratio: bool = False, pool: Sequence[str] = (),
) -> Summary:
    """What each group has more than a baseline, or how many times as much, in pairs of runs.

    Parameters
    ----------
    table : Table
    baseline : dict
        The values that make the baseline, by column of the design, as ``{"protocol": "AODV"}``. Two runs are a pair where the seed and all
        columns of the design but these are equal.
    measures : names
        Those of `usual_measures` without it.
    ratio : bool
        Quotients in place of differences.
    pool : names
        As of `summarize`.

    Returns
    -------
    Summary
        `p` is that of the differences (of logarithms for quotients) against 0 by `stats.sign_flip`, `p_holm` the same corrected by Holm over
        all rows.
    """
    chosen = list(measures) or usual_measures(table)
    table.need_measures(chosen)
    pairs, alone = _pairs(table, baseline, chosen, ratio)
    keys, told = keys_of(pairs, pool)
    keys = list(baseline) + [name for name in keys if name not in baseline]
    _refuse_uneven(pairs, keys, pool)
    rows = []
    for name in chosen:
        for key, runs in pairs.groups(keys).items():
            values, without = values_of(pairs, runs, name, pool)
            rows.append([*key, name, len(values), without, *stats.bca_interval(values), _p_of(values, ratio)])
    frame = pd.DataFrame(rows, columns=[*keys, "measure", "pairs", "without", "value", "low", "high", "p"])
    frame["p_holm"] = stats.holm(list(frame["p"]))
    header = [*_header(pairs, keys, told, pool), *_told_pairs(baseline, ratio, alone, int(frame["p"].notna().sum()))]
    return Summary(header + _notes(frame, "pairs", "bca"), keys, frame)


def _p_of(values: Floats, ratio: bool) -> float:
    """The p-value of differences against 0, or of quotients against 1 by their logarithms."""
    if not ratio:
        return stats.sign_flip(values)
    return stats.sign_flip(np.log(values) if (values > 0).all() else values - 1)


def _told_pairs(baseline: dict[str, str], ratio: bool, alone: int, count: int) -> list[str]:
    """What the value of a comparison is, its interval, and its p-values."""
    base = " and ".join(f"{name}={value}" for name, value in baseline.items())
    what, of = ("quotient by", "logarithms") if ratio else ("difference from", "differences")
    return [
        f"value: the mean {what} {base} in pairs of runs of one seed and design; {alone} runs have no partner; "
        f"its 95 % interval: {METHODS['bca']}",
        f"p: signs of the {of} flipped (scipy.stats.permutation_test); p_holm: corrected by Holm for {count} comparisons",
    ]


def _pairs(table: Table, baseline: dict[str, str], measures: Sequence[str], ratio: bool) -> tuple[Table, int]:
    """The runs that have a partner in the baseline, their measures less the partner's or by it, and how many runs have none."""
    base = table.where(baseline)
    rest = [name for name in table.design if name not in baseline]
    partners = {tuple(row): line for line, *row in zip(base.frame.index, base.frame[SEED], *(base.frame[name] for name in rest))}
    frame = table.frame.drop(base.frame.index)
    found = {line: partners.get(tuple(row)) for line, *row in zip(frame.index, frame[SEED], *(frame[name] for name in rest))}
    lines = [line for line, partner in found.items() if partner is not None]
    if not lines:
        raise UsageError("no run has a partner of its seed and its design in the baseline", file=table.path)
    kept, other = frame.loc[lines].copy(), table.frame.loc[[found[line] for line in lines]]
    for name in measures:
        its = other[name].to_numpy(dtype=float)
        if ratio and (its == 0).any():
            line = int(other.index[int(np.argmax(its == 0))])
            raise UsageError(f"{name} is 0 here, so nothing can be divided by it", file=table.path, line=line)
        own = kept[name].to_numpy(dtype=float)
        kept[name] = own / its if ratio else own - its
    return Table(table.path, kept, table.design), len(found) - len(lines)


def cells_of(summary: Summary) -> Iterator[list[str]]:
    """The names of the columns, and then the rows, as words for readers."""
    rows = summary.rows
    counts = [name for name in ("runs", "pairs", "without") if name in rows.columns]
    more = [name for name in ("least", "greatest", "p", "p_holm") if name in rows.columns]
    yield [*summary.keys, "measure", *counts, "value", "95 % interval", *more]
    for row in rows.to_dict("records"):
        ends = "[-]" if math.isnan(row["low"]) else f"[{row['low']:.4g} .. {row['high']:.4g}]"
        yield [
            *(text_of(row[key]) for key in summary.keys), row["measure"], *(str(row[name]) for name in counts), _number(row["value"]), ends,
            *(_number(row[name]) for name in more),
        ]


def _number(value: float) -> str:
    """A number for readers."""
    return "-" if math.isnan(value) else f"{value:.4g}"


def text_lines(summary: Summary) -> list[str]:
    """The summary as text: the header after ``#``, and aligned columns."""
    cells = list(cells_of(summary))
    widths = [max(map(len, column)) for column in zip(*cells)]
    return [*(f"# {line}" for line in summary.header), *("  ".join(f"{cell:{width}}" for cell, width in zip(row, widths)).rstrip() for row in cells)]


def markdown_lines(summary: Summary) -> list[str]:
    """The summary as a table in Markdown, the header in front of it."""
    head, *cells = cells_of(summary)
    return [*(f"{line}  " for line in summary.header), "", _line(head), "|" + "---|" * len(head), *(_line(row) for row in cells)]


def _line(cells: Sequence[str]) -> str:
    """A row of a table in Markdown."""
    return "| " + " | ".join(cells) + " |"


def csv_text(summary: Summary) -> str:
    """The summary as CSV: a row for each group and measure, numbers in full, empty for none; the header is in its last column, `told`."""
    rows = summary.rows.copy()
    for name in summary.keys:
        rows[name] = [text_of(value) if value is not None else "" for value in rows[name]]
    rows["told"] = "; ".join(summary.header)
    return str(rows.to_csv(index=False))
