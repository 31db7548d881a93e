#!/usr/bin/env python3
"""Compares the forms of lines in docs/formats.md with those that the manual pages and the help of the program repeat.

usage: dev/forms.py

docs/formats.md defines the lines of replay files, simulation files, traces and commands. The pages of docs/man and
crates/tora_commands/src/command_line.rt repeat their forms for readers who have only the program. Each form that is missing there is
printed with its section. Exit status: 0 if none is missing, else 1. The help names the records of a trace without their forms.
"""
import os
import re
import shlex
import sys

TOP = os.path.dirname(os.path.dirname(os.path.realpath(__file__)))
MANUAL, HELP = "docs/man", "crates/tora_commands/src/command_line.rt"
# The sections of formats.md with tables of forms, and who repeats them.
SECTIONS = {"Replay": [MANUAL, HELP], "Simulation files": [MANUAL, HELP], "External control": [MANUAL, HELP], "Traces": [MANUAL]}
# Forms that stand in sentences of formats.md.
SENTENCES = {
    "Replay": ["node I links LIST dests LIST", "send HEX", "bad N", "refused N", "to D height H flag F hop K"],
    "Simulation files": ["dests LIST", "link A B", "old N", "erasure N WORD"],
    "Commands and log of a node": ["need D", "cut K", "show", "json", "watch", "quit", "help"],
    "What a node prints for programs": ["height D H", "hop D K"],
}


def read(path):
    """The text of a file, or of all files of a folder."""
    if os.path.isdir(f"{TOP}/{path}"):
        return "".join(read(f"{path}/{it}") for it in sorted(os.listdir(f"{TOP}/{path}")))
    with open(f"{TOP}/{path}") as text:
        return text.read()


def sections():
    """By name, the text of each section of formats.md."""
    parts = re.split(r"^## (.*)\n", read("docs/formats.md"), flags=re.M)
    return dict(zip(parts[1::2], parts[2::2]))


def forms():
    """The forms, each with its section and with who repeats it."""
    text = sections()
    for name, places in SECTIONS.items():
        for row in re.findall(r"^\| (`.*?) \|", text[name], re.M):
            for form in re.findall(r"`([^`]*)`", row):
                yield name, form, places
    for name, found in SENTENCES.items():
        for form in found:
            if f"`{form}`" not in text[name] and f"`{form}" not in text[name]:
                yield name, form, ["docs/formats.md"]
            yield name, form, [MANUAL, HELP]


def lines_of_manual():
    """The lines of the manual pages as they are printed."""
    for line in read(MANUAL).splitlines():
        line = re.sub(r"\\f.", "", line).replace("\\-", "-").replace("\\(aq", "'")
        found = re.match(r"\.([BIR]{1,2}) (.*)", line)
        if found:
            words = shlex.split(found[2].replace("'", "\\'"))
            line = ("" if len(found[1]) == 2 else " ").join(words)
        yield line


def is_in(form, lines):
    return any(re.search(rf"(^|, ){re.escape(form)}($|[ ,:|])", it) for it in lines)


def main():
    lines = {
        MANUAL: [" ".join(it.split()) for it in lines_of_manual()],
        HELP: [" ".join(it.split()) for it in read(HELP).splitlines()],
        "docs/formats.md": [],
    }
    count = missing = 0
    for section, form, places in forms():
        for place in places:
            count += 1
            if not is_in(form, lines[place]):
                missing += 1
                print(f"{place}: `{form}` of \"{section}\" is missing")
    if count < 60:
        print(f"only {count} forms were found in docs/formats.md")
        missing += 1
    return 1 if missing else 0


if __name__ == "__main__":
    sys.exit(main())
