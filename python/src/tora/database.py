"""Keeps the tables of a trace in a database of SQLite, for other programs and for later."""
from __future__ import annotations

import contextlib
import os
import pathlib
import sqlite3
import tempfile

import pandas as pd

from tora.files import Path, check_outputs, write_file
from tora.trace import Trace

TABLES = ("heights", "routes", "links", "packets", "needs", "datagrams")


def write_database(trace: Trace, path: Path, *, overwrite: bool = False) -> None:
    """Writes the tables of a trace to a database of SQLite.

    Parameters
    ----------
    trace : Trace
    path : path
        The database gets a table for each DataFrame of the trace, by its name and with its columns; what is missing is
        NULL, and categories are text.
    overwrite : bool
        Whether a file that exists is replaced.
    """
    check_outputs([path], [trace.path], overwrite)
    with tempfile.TemporaryDirectory(prefix="tora-") as work:
        place = os.path.join(work, "database")
        with contextlib.closing(sqlite3.connect(place)) as database:
            for name in TABLES:
                table: pd.DataFrame = getattr(trace, name)()
                texts = {column: str for column in table.columns if table[column].dtype == "category"}
                table.astype(texts).to_sql(name, database, index=False)
            database.commit()
        write_file(path, pathlib.Path(place).read_bytes(), [trace.path], overwrite)
