"""Where a key stands in a text of TOML: its line, for the errors that name it."""
from __future__ import annotations

import re

HEADER = re.compile(r"\s*\[\[\s*([A-Za-z0-9_-]+)\s*\]\]\s*(#.*)?")
OTHER_HEADER = re.compile(r"\s*\[")
KEY = re.compile(r"\s*(?:\"([^\"]*)\"|'([^']*)'|([A-Za-z0-9_-]+))\s*=")


def line_of(text: str, key: str, table: str | None = None, index: int = 0) -> int | None:
    """The line of a key, from 1; of a key that is not there that of its table.

    Parameters
    ----------
    text : str
        A text of TOML.
    key : str
        The key.
    table : str, optional
        The array of tables that it stands in; without it the key stands before every table.
    index : int
        Which of these tables, from 0.

    Returns
    -------
    int or None
        None where neither the key nor the table is found: a table may also be written in another form than `[[table]]`.
    """
    current: tuple[str, int] | None = None
    seen: dict[str, int] = {}
    wanted = None if table is None else (table, index)
    place: int | None = None
    for number, line in enumerate(text.split("\n"), 1):
        header = HEADER.fullmatch(line)
        if header:
            current = (header[1], seen.get(header[1], 0))
            seen[header[1]] = current[1] + 1
            if current == wanted:
                place = number
            continue
        if OTHER_HEADER.match(line) and _is_header(line):
            current = ("", -1)
            continue
        found = KEY.match(line)
        if found and current == wanted and (found[1] or found[2] or found[3]) == key:
            return number
    return place


def _is_header(line: str) -> bool:
    """Whether a line that begins with a bracket is the header of a table, and no part of a list."""
    return re.fullmatch(r"\s*\[[^\[\],\"']+\]\s*(#.*)?", line) is not None
