"""Traces that are kept in a database."""
from __future__ import annotations

import contextlib
import pathlib
import sqlite3

import pandas as pd
import pytest
from conftest import STORED, refusal

from tora.database import TABLES, write_database
from tora.trace import Trace


@pytest.mark.parametrize("name", TABLES)
def test_tables(name: str, tmp_path: pathlib.Path) -> None:
    """Each table is that of the trace, with its columns."""
    trace = Trace.read(STORED / "7-9.trace")
    write_database(trace, tmp_path / "d")
    with contextlib.closing(sqlite3.connect(tmp_path / "d")) as database:
        found = pd.read_sql(f"select * from {name}", database)
    wanted = getattr(trace, name)()
    assert list(found.columns) == list(wanted.columns) and len(found) == len(wanted) > 0
    assert found.astype(object).where(found.notna(), None).equals(wanted.astype(object).where(wanted.notna(), None))


def test_outputs(tmp_path: pathlib.Path) -> None:
    """The trace is not overwritten, and neither is what exists unless that is asked for."""
    path = tmp_path / "t"
    path.write_bytes((STORED / "6-1.trace").read_bytes())
    trace = Trace.read(path)
    assert "the output is an input, too" in refusal(lambda: write_database(trace, path, overwrite=True))
    write_database(trace, tmp_path / "d")
    assert "the output exists" in refusal(lambda: write_database(trace, tmp_path / "d"))
    write_database(trace, tmp_path / "d", overwrite=True)
