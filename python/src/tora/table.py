"""Reads a table of runs, and puts its runs into groups: each by all columns of the design.

A table is CSV in UTF-8 (a byte order mark is skipped) with the names of its columns in the first line and a run in each other line. What
could make a figure wrong is refused, with the file and the line.
"""
from __future__ import annotations

import csv
import dataclasses
import io
import math
import re
from collections.abc import Iterable, Sequence

import numpy as np
import numpy.typing as npt
import pandas as pd

from tora.columns import IDENTITIES, SEED, design_of, strangers
from tora.errors import UsageError, shown
from tora.files import Path, naming

MOST_CELL = 1e21  # no number of a run is greater
NUMBER = re.compile(r"[-+]?(\d+\.?\d*|\.\d+)([eE][-+]?\d+)?|[-+]?(nan|inf|infinity)", re.ASCII | re.IGNORECASE)

Key = tuple[object, ...]
Floats = npt.NDArray[np.float64]


@dataclasses.dataclass(frozen=True)
class Table:
    """Runs, one a row.

    Attributes
    ----------
    path : str
        Where it was read from.
    frame : DataFrame
        A row for each run, its index the line of the file. A column of the design holds numbers or words, None where it has no
        meaning for the run; `seed` and measures hold floats, NaN for an empty cell.
    design : list of str
        The columns that say what was set.
    """

    path: str
    frame: pd.DataFrame
    design: list[str]

    @property
    def measures(self) -> list[str]:
        """The columns that are neither of the design nor the seed."""
        return [name for name in self.frame.columns if name not in (*self.design, SEED, *IDENTITIES)]

    @property
    def varied(self) -> list[str]:
        """The columns of the design that have more than one value."""
        return [name for name in self.design if len(set(self.frame[name])) > 1]

    def need(self, names: Iterable[str], what: str = "column") -> None:
        """Refuses the name of a column that there is not."""
        for name in names:
            if name not in self.frame.columns:
                raise UsageError(f"there is no {what} `{shown(name)}`", file=self.path)

    def need_measures(self, names: Iterable[str]) -> None:
        """Refuses the name of a column that there is not, or that is no measure."""
        for name in names:
            self.need([name])
            if name not in self.measures:
                raise UsageError(f"the column `{name}` is of the design, and no measure", file=self.path)

    def where(self, wanted: dict[str, str]) -> Table:
        """The runs whose columns of the design have these values; refuses to keep none."""
        self.need(wanted)
        kept = self.frame
        for name, text in wanted.items():
            if name not in (*self.design, SEED):
                raise UsageError(f"--where: the column `{name}` is a measure", file=self.path)
            kept = kept[[value == _value(text) or str(value) == text for value in kept[name]]]
        if kept.empty:
            told = " and ".join(f"{name}={value}" for name, value in wanted.items())
            raise UsageError(f"no run has {told}", file=self.path)
        return Table(self.path, kept, self.design)

    def groups(self, names: Sequence[str]) -> dict[Key, pd.DataFrame]:
        """The runs of each value of these columns, ascending."""
        self.need(names)
        found: dict[Key, list[int]] = {}
        for line, values in zip(self.frame.index, zip(*(self.frame[name] for name in names))) if names else ():
            found.setdefault(values, []).append(line)
        if not names:
            return {(): self.frame}
        return {key: self.frame.loc[found[key]] for key in sorted(found, key=_order)}


def _order(key: Key) -> tuple[tuple[int, float, str], ...]:
    """Sorts keys: cells without a value first, then numbers, then words."""
    return tuple(
        (0, 0.0, "") if value is None else (1, float(value), "") if isinstance(value, (int, float)) else (2, 0.0, str(value)) for value in key
    )


def _value(text: str) -> object:
    """A cell of the design: None, a number or a word."""
    if not text:
        return None
    return float(text) if NUMBER.fullmatch(text) else text


def text_of(value: object) -> str:
    """A value of the design for readers."""
    return "-" if value is None else f"{value:.12g}" if isinstance(value, float) else str(value)


def read_table(path: Path, design: Sequence[str] | None = None) -> Table:
    """Reads a table.

    Parameters
    ----------
    path : path
        A file, or a pipe, which is read once.
    design : names, optional
        The columns of the design; needed for a table of an unknown kind.

    Raises
    ------
    UsageError
        Where the table is empty, a name of a column comes twice, `seed` is missing, a line has another number of cells, a cell is no finite
        number, a line is repeated, or a run does; with the line.
    """
    with naming(path), open(path, "rb") as source:
        data = source.read()
    return table_of(data, str(path).removeprefix("./"), design)


def table_of_rows(rows: Sequence[dict[str, object]], design: Sequence[str] | None = None) -> Table:
    """The table of rows of measures, as `tora.Run.measure` has them; the same is refused as of a file, and the line of the first row is 2."""
    if not rows:
        raise UsageError("there are no rows")
    sink = io.StringIO(newline="")
    writer = csv.DictWriter(sink, list(rows[0]), lineterminator="\n")
    writer.writeheader()
    writer.writerows({name: "" if value is None else value for name, value in row.items()} for row in rows)
    return table_of(sink.getvalue().encode(), "rows", design)


def table_of(data: bytes, path: str, design: Sequence[str] | None = None) -> Table:
    """The table of these bytes; refusals name `path`."""
    names, lines = _lines(data, path)
    chosen = _design(names, path, design)
    if SEED not in names:
        raise UsageError("there is no column `seed`, which tells one repetition from another", file=path, line=1)
    _refuse_repeated(lines, path)
    columns = {}
    for at, name in enumerate(names):
        cells = [(number, cells[at]) for number, cells in lines]
        columns[name] = _words(cells, name, path) if name in (*chosen, *IDENTITIES) else _numbers(cells, name, path)
    frame = pd.DataFrame(columns, index=[number for number, _ in lines])
    _refuse_runs(frame, chosen, path)
    return Table(path, frame, chosen)


def _lines(data: bytes, path: str) -> tuple[list[str], list[tuple[int, list[str]]]]:
    """The names of the columns, and the cells of each line with its number."""
    try:
        text = data.decode("utf-8-sig")
    except UnicodeDecodeError as cause:
        raise UsageError("the table is no text in UTF-8", file=path, line=data.count(b"\n", 0, cause.start) + 1) from None
    reader = csv.reader(io.StringIO(text, newline=""), strict=True)
    found: list[tuple[int, list[str]]] = []
    try:
        for cells in reader:
            found.append((reader.line_num, cells))
    except csv.Error as cause:
        raise UsageError(str(cause), file=path, line=reader.line_num) from None
    if not found or not any(found[0][1]):
        raise UsageError("the table is empty", file=path, line=1)
    names = found[0][1]
    for at, name in enumerate(names):
        if not name or name in names[:at]:
            raise UsageError(f"the column `{shown(name)}` is repeated" if name else "a column has no name", file=path, line=1)
    if len(found) == 1:
        raise UsageError("the table has no run", file=path, line=1)
    for number, cells in found[1:]:
        if len(cells) != len(names):
            raise UsageError(f"{len(cells)} cells, not {len(names)}", file=path, line=number)
    return names, found[1:]


def _design(names: list[str], path: str, design: Sequence[str] | None) -> list[str]:
    """The columns of the design; refuses a table of which it is not known."""
    if design is None:
        found = design_of(names)
        if found is None:
            unknown = strangers(names)
            what = f"whether the column `{unknown[0]}` is of the design or a measure" if unknown else "which columns are of the design"
            raise UsageError(f"it is not known {what}; --design names the columns of the design", file=path, line=1)
        return found
    for name in design:
        if name not in names or name == SEED:
            raise UsageError(f"--design: there is no column `{shown(name)}`" if name != SEED else "--design: `seed` is the repetition", file=path)
    return list(dict.fromkeys(design))


def _refuse_repeated(lines: list[tuple[int, list[str]]], path: str) -> None:
    """Refuses a line that is repeated."""
    seen: dict[tuple[str, ...], int] = {}
    for number, cells in lines:
        before = seen.setdefault(tuple(cells), number)
        if before != number:
            raise UsageError(f"the line is that of line {before}: the run would count twice", file=path, line=number)


def _refuse_runs(frame: pd.DataFrame, design: Sequence[str], path: str) -> None:
    """Refuses two runs of one seed with one design, and a run without a seed."""
    seen: dict[Key, int] = {}
    for number, seed, *values in zip(frame.index, frame[SEED], *(frame[name] for name in design)):
        if math.isnan(seed):
            raise UsageError("the cell of seed is empty", file=path, line=number)
        before = seen.setdefault((seed, *values), number)
        if before != number:
            cause = f"the run of seed {seed:g} is in line {before}, too: no column of the design tells them apart"
            raise UsageError(cause, file=path, line=number)


def _words(cells: list[tuple[int, str]], name: str, path: str) -> list[object]:
    """A column of the design: numbers where all cells are such, else words."""
    values = [_value(text) for _, text in cells]
    for (number, _), value in zip(cells, values):
        if isinstance(value, float) and not math.isfinite(value):
            raise UsageError(f"the cell of {name} is no finite number", file=path, line=number)
    if any(isinstance(value, str) for value in values):
        return [text or None for _, text in cells]
    return values


def _numbers(cells: list[tuple[int, str]], name: str, path: str) -> Floats:
    """A column of measures: finite numbers, NaN for an empty cell."""
    values = np.full(len(cells), np.nan)
    for at, (number, text) in enumerate(cells):
        if not text:
            continue
        if not NUMBER.fullmatch(text):
            raise UsageError(f"the cell of {name}, `{shown(text)}`, is no number", file=path, line=number)
        value = float(text)
        if not math.isfinite(value) or abs(value) > MOST_CELL:
            raise UsageError(f"the cell of {name}, `{shown(text)}`, is no finite number up to {MOST_CELL:g}", file=path, line=number)
        values[at] = value
    return values
