#!/usr/bin/env python3
"""Compares each place that states the version with the file VERSION, or writes the version there.

usage: dev/version.py [--write]

  --write   writes the version of the file VERSION to each place, instead of comparing

The places are the program, the library for C with its specification, the Python package and the citation. The changelog must
begin with a section of the version, or with "Unreleased" if the version ends in `-dev`; no option writes that section.
Each place that differs is reported. Exit status: 0 if all agree, 1 if one differs, 2 for wrong usage.
"""
import pathlib
import re
import sys

TOP = pathlib.Path(__file__).resolve().parent.parent
# Each file, and the line in it around the version. Python has a form of its own for versions.
PLACES = {
    "crates/tora_commands/src/command_line.rt": r'(\.version\(")([^"]*)("\))',
    "crates/tora_c/src/lib.rt": r'(const VERSION: &str = ")([^"]*)(";)',
    "crates/tora_c/specs/Version.antt": r'(version_text = codes ")([^"]*)(")',
    "python/src/tora/__init__.py": r'(__version__ = ")([^"]*)(")',
    "CITATION.cff": r"(^version: )(.*)()$",
}


def wanted(path, version):
    """The version as a file states it."""
    return version.replace("-dev", ".dev0") if path.endswith(".py") else version


def faults_of_place(path, line, version, writes):
    """What is wrong at a place, after writing where that is asked for."""
    text = (TOP / path).read_text()
    found = re.findall(line, text, re.M)
    if len(found) != 1:
        return [f"{path}: {len(found)} lines state a version, not one"]
    want = wanted(path, version)
    if found[0][1] == want:
        return []
    if not writes:
        return [f"{path}: {found[0][1]}, not {want}"]
    (TOP / path).write_text(re.sub(line, rf"\g<1>{want}\g<3>", text, flags=re.M))
    print(f"{path}: {want}")
    return []


def faults_of_changelog(version):
    """What is wrong with the first section of the changelog."""
    section = "Unreleased" if version.endswith("-dev") else version
    first = re.search(r"^## \[(.*?)\]", (TOP / "CHANGELOG.md").read_text(), re.M)
    return [] if first and first[1] == section else [f"CHANGELOG.md: the first section is not [{section}]"]


def main(words):
    if words not in ([], ["--write"]):
        print(__doc__, end="", file=sys.stdout if words in (["-h"], ["--help"]) else sys.stderr)
        return 0 if words in (["-h"], ["--help"]) else 2
    version = (TOP / "VERSION").read_text().strip()
    faults = faults_of_changelog(version)
    if not re.fullmatch(r"\d+\.\d+\.\d+(-dev)?", version):
        faults.append(f"VERSION: {version} is not MAJOR.MINOR.PATCH or MAJOR.MINOR.PATCH-dev")
    for path, line in PLACES.items():
        faults += faults_of_place(path, line, version, bool(words))
    for fault in faults:
        print(f"version: {fault}", file=sys.stderr)
    return 1 if faults else 0


if __name__ == "__main__":
    sys.exit(main(sys.argv[1:]))
