#!/usr/bin/python3
"""Makes docs/developers/figures.md from bench/figures.toml.

usage: dev/figures.py            writes the page
       dev/figures.py --check    compares; the status is 1 if the page differs from what the file gives

Each ratio is computed from the two values in the file and rounded to two decimal places.
"""

import re
import sys
import tomllib
from pathlib import Path

TOP = Path(__file__).resolve().parent.parent
SOURCE = TOP / "bench" / "figures.toml"
PAGE = TOP / "docs" / "developers" / "figures.md"
KEYS = {"name", "text", "command", "program", "date", "row"}
ROW_KEYS = {"what", "unit", "ours", "other", "beside", "aim", "note", "command", "program", "date"}
HEAD = """\
% dev/figures.py makes this page of bench/figures.toml.

# Figures

The newest figure of each bench, with the command that repeats it.

- A ratio is the value of this program divided by the other one, both measured in turn in one run.
  Machines differ and change their speed: claim nothing from a ratio nearer to 1 than 1.5.
- Compare seconds only within one row.
- The baseline is `bench/baseline`, an unverified Rust program for the same formats, with version 1 of frames.
  ENet and TCP are measured by `bench/baseline/link/link_bench.c`.
"""


def number(value):
    return f"{value:g}" if isinstance(value, float) else f"{value:,}"


def check_keys(place, table, keys):
    for key in table:
        if key not in keys:
            sys.exit(f"figures: {SOURCE.name}: {place}: unknown key {key}")


def row_text(bench, row):
    unit = row["unit"] if row["unit"] == "%" else " " + row["unit"]
    beside = f"{number(row['other'])}{unit}, {row['beside']}" if "other" in row else ""
    ratio = f"{row['ours'] / row['other']:.2f}" if "other" in row else ""
    notes = [row["note"]] if "note" in row else []
    if "command" in row:
        notes.append(f"`{row['command']}`")
    if "date" in row and row["date"] != bench["date"]:
        notes.append(str(row["date"]))
    cells = [row["what"], number(row["ours"]) + unit, beside, ratio, row.get("aim", ""), "; ".join(notes)]
    return "| " + " | ".join(cells) + " |"


def page_text():
    parts = [HEAD]
    for bench in tomllib.loads(SOURCE.read_text(encoding="utf-8"))["bench"]:
        check_keys(bench["name"], bench, KEYS)
        for row in bench["row"]:
            check_keys(f"{bench['name']}: {row['what']}", row, ROW_KEYS)
        program = f", program `{bench['program']}`" if bench["program"] else ""
        text = re.sub(r"(?<=[.]) (?=[A-Z])", "\n", bench["text"])
        lines = [f"## {bench['name']}", "", text, "", f"`{bench['command']}` ({bench['date']}{program})", ""]
        lines += ["| what | tora | beside | ratio | aim | note |", "|---|---|---|---|---|---|"]
        lines += [row_text(bench, row) for row in bench["row"]]
        parts.append("\n".join(lines) + "\n")
    return "\n".join(parts)


def main():
    if sys.argv[1:] == ["--check"]:
        if not PAGE.exists() or PAGE.read_text(encoding="utf-8") != page_text():
            sys.exit("figures: docs/developers/figures.md is not what bench/figures.toml gives; run dev/figures.py")
    elif not sys.argv[1:]:
        PAGE.write_text(page_text(), encoding="utf-8")
    else:
        print(__doc__, file=sys.stderr)
        return 2
    return 0


if __name__ == "__main__":
    sys.exit(main())
