#!/usr/bin/env python3
"""Compares the documents with their limits and with the tree.

usage: dev/check-docs.py [--words]
  --words   also print the number of words of each part and each page

It checks that

- each part has at most the words of BUDGETS, each how-to guide at most 700, and the README at most 120 lines of 100 characters;
- no line of a document is longer than 120 characters, except in tables;
- each relative link of a Markdown file outside docs/ leads to a file, and to a heading if it names one (Sphinx checks the links of docs/);
- each path that a document names in backquotes exists;
- docs/reference/command-line.md is what dev/command-line.py makes, if the program can print its help.

A word is a run of characters without a blank that has a letter. Fenced blocks are not counted, except in the README. Tables that
dev/studies.py makes are not counted either.
Each fault is one line, FILE:LINE: what is wrong. Exit status: 0 if there is none, 1 if there are some, 2 for wrong usage.
"""
import pathlib
import re
import sys

TOP = pathlib.Path(__file__).resolve().parent.parent
# By part: the most words, and the files of it.
BUDGETS = {
    "README": (900, ["README.md"]),
    "tutorial": (1500, ["docs/tutorial/*.md"]),
    "reference": (14000, ["docs/reference/*.md", "docs/formats.md", "docs/simulation.md"]),
    "explanation": (14000, ["docs/explanation/*.md"]),
    "studies": (5000, ["docs/studies/*.md"]),
    "developers": (8000, ["CONTRIBUTING.md", "docs/developers/*.md"]),
}
HOW_TO = 700
OTHERS = ["CHANGELOG.md", "SECURITY.md", "ns3/README.md", "examples/README.md"]
# The first folder of a path that is looked for, and the endings of a path without a folder.
FOLDERS = ("bench", "crates", "dev", "docs", "examples", "include", "ns3", "python", "tools")


def read(path):
    """The lines of a file, each with whether it stands in a fenced block."""
    found, fence = [], None
    for line in path.read_text(encoding="utf-8").splitlines():
        mark = re.match(r" *(```+|~~~+|:::+)", line)
        if mark and fence is None:
            fence = mark[1]
            found.append((line, True))
        elif mark and line.strip() == fence:
            fence = None
            found.append((line, True))
        else:
            found.append((line, fence is not None))
    return found


def words(path):
    """How many words a file has."""
    every = path == TOP / "README.md"
    count, is_made = 0, False
    for line, fenced in read(path):
        is_made = line.lstrip().startswith(("<!-- made: ", "|")) if is_made else "<!-- made: " in line
        if (every or not fenced) and not is_made:
            count += sum(1 for it in line.split() if re.search(r"[A-Za-z]", it))
    return count


def name(path):
    return path.relative_to(TOP).as_posix()


def too_many(told):
    """The parts that have more words than they may have."""
    for part, (most, patterns) in BUDGETS.items():
        counts = {path: words(path) for pattern in patterns for path in sorted(TOP.glob(pattern))}
        if told:
            print(f"{part}: {sum(counts.values())} of {most}")
            for path, count in counts.items():
                print(f"  {count:6} {name(path)}")
        if sum(counts.values()) > most:
            yield f"{part}: {sum(counts.values())} words, {most} at most"
    for path in sorted(TOP.glob("docs/how-to/*.md")):
        if told:
            print(f"how-to: {words(path)} of {HOW_TO} {name(path)}")
        if words(path) > HOW_TO:
            yield f"{name(path)}: {words(path)} words, {HOW_TO} at most"


def too_long(path, most, tables):
    """The lines of a file that are too long."""
    for number, (line, _) in enumerate(read(path), 1):
        if len(line) > most and not (tables and line.lstrip().startswith("|")):
            yield f"{name(path)}:{number}: {len(line)} characters, {most} at most"


def anchors(path):
    """The anchors of the headings of a Markdown file."""
    heads = [re.sub(r"^#+ +", "", line) for line, fenced in read(path) if not fenced and re.match(r"#+ ", line)]
    return {re.sub(r"[^\w\- ]", "", it.lower()).replace(" ", "-") for it in heads}


def lost_links(path):
    """The relative links of a file that lead nowhere."""
    for number, (line, fenced) in enumerate(read(path), 1):
        if fenced:
            continue
        for target in re.findall(r"\]\(([^)\s]+)\)", re.sub(r"`[^`]*`", "", line)):
            if re.match(r"[a-z]+:", target):
                continue
            place, _, anchor = target.partition("#")
            found = (path.parent / place).resolve() if place else path
            if not found.exists():
                yield f"{name(path)}:{number}: no file {target}"
            elif anchor and found.suffix == ".md" and anchor not in anchors(found):
                yield f"{name(path)}:{number}: no heading {target}"


def lost_paths(path):
    """The paths in backquotes of a file that are not there."""
    for number, (line, fenced) in enumerate(read(path), 1):
        if fenced:
            continue
        for word in re.findall(r"`([^`\s]+)`", line):
            first = word.split("/")[0]
            if "/" in word and first in FOLDERS and re.fullmatch(r"[\w./@*-]+", word) and "/out/" not in word:
                if not list(TOP.glob(word.rstrip("/"))) and not (path.parent / word).exists():
                    yield f"{name(path)}:{number}: no {word} in the tree"


def main(options):
    if any(it != "--words" for it in options):
        print(f"check-docs: no option {options[0]}", file=sys.stderr)
        return 2
    pages = sorted(TOP.glob("docs/**/*.md"))
    loose = [TOP / it for it in ["README.md", "CONTRIBUTING.md", *OTHERS] if (TOP / it).exists()]
    found = list(too_many("--words" in options))
    found += too_long(TOP / "README.md", 100, False)
    lines = len(read(TOP / "README.md"))
    if lines > 120:
        found.append(f"README.md: {lines} lines, 120 at most")
    for path in pages:
        found += too_long(path, 120, True)
        found += lost_paths(path)
    for path in loose:
        if path.name != "README.md":
            found += too_long(path, 120, True)
        found += lost_links(path)
        if path.name != "CHANGELOG.md":  # it names what was there
            found += lost_paths(path)
    for it in found:
        print(it)
    return 1 if found else 0


if __name__ == "__main__":
    sys.exit(main(sys.argv[1:]))
