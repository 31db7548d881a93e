#!/usr/bin/env python3
"""Reports which instructions of a program miss the caches, or the processor's table of pages, most often.

misses.py [--pages] [--top N] PROGRAM WORD..      runs PROGRAM WORD.. under callgrind, which takes some forty times as long

The model has a first level of 32 kB and a second of 1 MB, with lines of 64 bytes; with --pages it has tables of 64 and 1,536 pages of
4 kB, which callgrind counts as caches whose lines are pages. For each instruction: how often the second level is missed, by
reads and writes, its share of all misses, how often the first level is missed, how often it is executed, its address, its
function, and the instruction. Below are the functions of the program with the most misses. Instructions of libraries have no
name. A real processor fetches ahead what is missed in order, which is not modelled here.
"""
import os
import re
import shutil
import signal
import subprocess
import sys
import tempfile

USAGE = "misses.py [--pages] [--top N] PROGRAM WORD.. (--help tells more)"
# The options of valgrind for the first level of data, the second level, and the first level of instructions.
CACHES = ["--D1=32768,8,64", "--LL=1048576,16,64"]
PAGES = ["--D1=262144,4,4096", "--LL=6291456,12,4096", "--I1=32768,8,64"]


def counted(path):
    """Of each address what was counted, and the names of what was."""
    names, counts, address, is_call = [], {}, 0, False
    with open(path) as lines:
        for line in lines:
            if line.startswith("events:"):
                names = line.split()[1:]
                continue
            if line.startswith("calls="):
                is_call = True
                continue
            found = re.match(r"(0x[0-9a-f]+|\+\d+|-\d+|\*)\s+\S+((?:\s+\d+)*)\s*$", line)
            if not found:
                continue
            word = found.group(1)
            if word.startswith("0x"):
                address = int(word, 16)
            elif word != "*":
                address += int(word)
            if is_call:
                # what the call's own instructions took stands with them
                is_call = False
                continue
            here = counts.setdefault(address, [0] * len(names))
            for at, number in enumerate(found.group(2).split()):
                here[at] += int(number)
    return names, counts


def instructions(program):
    """Of each address its function and its text."""
    text = subprocess.run(["objdump", "-d", "--no-show-raw-insn", program], check=True, capture_output=True, text=True).stdout
    function, told = "?", {}
    for line in text.splitlines():
        found = re.match(r"[0-9a-f]+ <(.*)>:", line)
        if found:
            function = re.sub(r"::<#.*", "", found.group(1))
            continue
        found = re.match(r"\s+([0-9a-f]+):\t(.*)", line)
        if found:
            told[int(found.group(1), 16)] = (function, found.group(2).strip())
    return told


def refuse(why):
    """Ends with status 2."""
    print(f"misses: {why}", file=sys.stderr)
    sys.exit(2)


def options(words):
    """The caches, how many instructions are told, and the command."""
    caches, top = CACHES, 40
    while words and words[0].startswith("-"):
        option = words.pop(0)
        if option in ("-h", "--help"):
            print(__doc__.strip())
            sys.exit(0)
        if option == "--pages":
            caches = PAGES
        elif option == "--top":
            if not words or not words[0].isdigit():
                refuse(f"--top wants a number: {USAGE}")
            top = int(words.pop(0))
        else:
            refuse(f"no option {option}: {USAGE}")
    if not words:
        refuse(f"no program: {USAGE}")
    program = shutil.which(words[0])
    if program is None:
        refuse(f"no program stands at {words[0]}")
    for tool, package in (("valgrind", "valgrind"), ("objdump", "binutils")):
        if shutil.which(tool) is None:
            refuse(f"{tool} is missing (package {package})")
    return caches, top, [program, *words[1:]]


def main():
    """Runs the program, and prints where it misses."""
    signal.signal(signal.SIGPIPE, signal.SIG_DFL)
    caches, top, words = options(sys.argv[1:])
    with tempfile.TemporaryDirectory() as folder:
        out = os.path.join(folder, "counts")
        command = ["valgrind", "--tool=callgrind", "--cache-sim=yes", "--dump-instr=yes", f"--callgrind-out-file={out}", *caches, *words]
        done = subprocess.run(command, check=False, stdout=subprocess.DEVNULL, stderr=subprocess.DEVNULL)
        if done.returncode:
            refuse(f"status {done.returncode}: {' '.join(words)}")
        names, counts = counted(out)
    told = instructions(words[0])
    reads, writes, first, ran = (names.index(name) for name in ("DLmr", "DLmw", "D1mr", "Ir"))
    total = sum(here[reads] + here[writes] for here in counts.values())
    print(f"misses of the second level: {total:,}")
    rows = sorted(((here[reads] + here[writes], here, address) for address, here in counts.items()), key=lambda row: -row[0])
    for many, here, address in rows[:top]:
        function, text = told.get(address, ("?", ""))
        print(f"{many:>9,} {100 * many / total:5.1f} %  first {here[first]:>9,}  runs {here[ran]:>10,}  {address:x} {function[-56:]}: {text[:56]}")
    functions = {}
    for address, here in counts.items():
        row = functions.setdefault(told.get(address, ("?", ""))[0], [0, 0])
        row[0] += here[reads] + here[writes]
        row[1] += here[ran]
    print("by function:")
    for name, (many, instructions_run) in sorted(functions.items(), key=lambda item: -item[1][0])[:20]:
        print(f"{many:>9,}  {instructions_run / 1e6:8.1f} million instructions  {name[-80:]}")


main()
