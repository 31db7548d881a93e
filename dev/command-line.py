#!/usr/bin/env python3
"""Makes docs/reference/command-line.md from what the commands print with --help.

usage: dev/command-line.py [--check] [PROGRAM]
  --check   write nothing; the status is 1 if the page differs from what would be written
  PROGRAM   the program tora; without it, ./tora of this repository

Lines over 100 characters are wrapped. Exit status: 0; 1 if --check finds a difference or a command fails; 2 for wrong usage.
"""
import pathlib
import re
import subprocess
import sys
import textwrap

TOP = pathlib.Path(__file__).resolve().parent.parent
PAGE = TOP / "docs/reference/command-line.md"
WIDTH = 100
HEAD = """# Command line

`tora` runs, simulates and replays routers.
`tora-study` makes studies with it; from the repository it runs as `python/tora-study`.
This page is what the commands print with `--help`; `dev/command-line.py` writes it.

The option `-v` may also come before a word.
[The program](../formats.md#the-program) states what the options of `tora` do.
"""


def wrapped(line):
    """A line in pieces of at most WIDTH characters; later pieces begin where the text of the first one does."""
    if len(line) <= WIDTH:
        return [line.rstrip()]
    head = re.match(r" *(?:-\S+(?:,? (?:-\S+|<[^>]*>))* {2,})?", line)[0]
    behind = " " * min(len(head), 34)
    return textwrap.wrap(line, WIDTH, subsequent_indent=behind, drop_whitespace=True, break_long_words=False, break_on_hyphens=False)


def help_of(command):
    """What a command says with --help."""
    done = subprocess.run([*command, "--help"], cwd=TOP, capture_output=True, text=True, env={"PATH": "/usr/bin:/bin", "COLUMNS": str(WIDTH), "LC_ALL": "C.UTF-8", **rt_path()})
    if done.returncode != 0:
        print(f"command-line: {' '.join(map(str, command))} --help: status {done.returncode}: {done.stderr.strip()}", file=sys.stderr)
        sys.exit(1)
    return "\n".join(piece for line in done.stdout.rstrip("\n").split("\n") for piece in wrapped(line))


def rt_path():
    """The path of the caller, after Debian's programs, because ./tora may have to compile."""
    import os
    return {"PATH": "/usr/bin:/bin:" + os.environ.get("PATH", "")}


def section(level, title, command):
    return f"\n{'#' * level} {title}\n\n```text\n{help_of(command)}\n```\n"


def words_of(text):
    """The words that a help text lists."""
    found = re.search(r"^Commands:\n((?: .*\n)+)", text, re.M)
    if found:
        return [it for it in re.findall(r"^ {2}(\S+)", found[1], re.M) if it != "help"]
    return re.findall(r"^ {4}([a-z]+)(?: {2,}\S|$)", text, re.M)


def page(program):
    """The text of the page."""
    parts = [HEAD, section(2, "tora", [program])]
    for word in words_of(help_of([program])):
        parts.append(section(2, f"tora {word}", [program, word]))
    study = TOP / "python/tora-study"
    parts.append(section(2, "tora-study", [study]))
    for word in words_of(help_of([study])):
        parts.append(section(2, f"tora-study {word}", [study, word]))
        if word == "plot":
            parts += [section(3, f"tora-study plot {it}", [study, word, it]) for it in words_of(help_of([study, word]))]
    parts.append(section(2, "tora-routes", [TOP / "python/tora-routes"]))
    return "".join(parts)


def main(options):
    check = "--check" in options
    rest = [it for it in options if it != "--check"]
    if len(rest) > 1 or any(it.startswith("-") for it in rest):
        print("command-line: [--check] [PROGRAM]", file=sys.stderr)
        return 2
    made = page(rest[0] if rest else TOP / "tora")
    if not check:
        PAGE.write_text(made)
        return 0
    if not PAGE.exists() or PAGE.read_text() != made:
        print("docs/reference/command-line.md is not what the commands say: run dev/command-line.py", file=sys.stderr)
        return 1
    return 0


if __name__ == "__main__":
    sys.exit(main(sys.argv[1:]))
