"""The page of a study: its runs, each with a link to the page that plays it, its picture and its summary."""
from __future__ import annotations

import html
import os
from collections.abc import Sequence
from urllib.parse import quote

import pandas as pd

from tora.derived import with_derived
from tora.files import check_outputs, write_file
from tora.study import Study
from tora.summary import cells_of, summarize
from tora.table import read_table

STYLE = """:root { color-scheme: light dark; }
body { font: 0.9rem/1.4 system-ui, "DejaVu Sans", sans-serif; margin: 1rem auto; max-width: 75rem; padding: 0 1rem; }
table { border-collapse: collapse; font-variant-numeric: tabular-nums; }
th, td { text-align: left; font-weight: normal; padding: 0.1rem 1rem 0.1rem 0; border-bottom: 1px solid #8886; }
th { font-weight: 600; }
img { max-width: 100%; background: #fff; }
div { overflow-x: auto; }"""
SHOWN = "breaks connected available stale no_hop looping outages loops loop_rounds query update clear".split()


def write_index(folder: str, overwrite: bool = False) -> None:
    """Writes ``index.html`` of a study."""
    path = os.path.join(folder, "index.html")
    check_outputs([path], [], overwrite)
    write_file(path, index_text(folder), overwrite=overwrite)


def index_text(folder: str) -> str:
    """The text of ``index.html`` of a study."""
    study, table = Study.read(folder), with_derived(read_table(os.path.join(folder, "study.csv")))
    title = html.escape(os.path.basename(os.path.realpath(folder)))
    has_picture = os.path.exists(os.path.join(folder, "study.png"))
    summary = summarize(table)
    head, *rows = cells_of(summary)
    parts = [
        "<!doctype html>", f'<html lang="en"><head><meta charset="utf-8"><title>{title}</title>',
        '<meta name="viewport" content="width=device-width, initial-scale=1">', f"<style>\n{STYLE}\n</style></head><body>", f"<h1>{title}</h1>",
        "<h2>Runs</h2>", _runs_text(folder, study, table.frame),
        *(["<h2>Picture</h2>", '<p><img src="study.png" alt="picture of the study"></p>'] if has_picture else []),
        "<h2>Summary</h2>", *(f"<p>{html.escape(line)}</p>" for line in summary.header),
        _table_text([html.escape(cell) for cell in head], [[html.escape(cell) for cell in row] for row in rows]), "</body></html>",
    ]
    return "\n".join(parts) + "\n"


def _runs_text(folder: str, study: Study, frame: pd.DataFrame) -> str:
    """The table of the runs."""
    shown, lines = [name for name in SHOWN if name in frame.columns], []
    for run, row in zip(study.runs(), frame.to_dict("records")):
        page, name = f"runs/{run.name}.html", html.escape(run.name)
        link = f'<a href="{quote(page)}">{name}</a>' if os.path.exists(os.path.join(folder, page)) else f"{name} (no page)"
        lines.append([link, *("" if pd.isna(row[column]) else f"{row[column]:g}" for column in shown)])
    return _table_text(["run", *shown], lines)


def _table_text(head: Sequence[str], rows: Sequence[Sequence[str]]) -> str:
    """A table, whose cells are HTML."""
    return "\n".join(["<div><table>", _row_text("th", head), *(_row_text("td", row) for row in rows), "</table></div>"])


def _row_text(tag: str, cells: Sequence[str]) -> str:
    """A row of a table."""
    return "<tr>" + "".join(f"<{tag}>{cell}</{tag}>" for cell in cells) + "</tr>"
