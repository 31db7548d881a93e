#!/usr/bin/env python3
"""Reports what each function of a crate costs a check from nothing, as the merge gate makes it.

usage: bench/functions.py CRATE [--test] [--only PATH ..] [--least SECONDS]

  --test           the crate with its tests
  --only PATH      only this function, module or type and what it calls; may be given several times
  --least SECONDS  leaves out functions that took less; the default is 0.5

Each line has the seconds of real time that a function took, and its name. Below are the stages of the check and its peak
memory. The check has one job and keeps nothing, so functions come one after another: with kept work they are checked in
batches and cannot be told apart. The first function carries what every check loads (some ten seconds), and the first one
that needs a module of a library carries its loading, which can be as much. If one stands out, measure it alone, beside another
of its kind (--only). Run this with nothing else running. The crates below must be proved (./tora build CRATE).
"""
import argparse
import os
import re
import subprocess
import sys
import tempfile
import time

TOP = os.path.dirname(os.path.dirname(os.path.realpath(__file__)))
sys.path.insert(0, f"{TOP}/dev")
import build  # noqa: E402

CHECKED = re.compile(r"^checked (\S+), \d+ of \d+$")


def check_words(rtlib, crate, asked, stages):
    """The words of the check."""
    only = [word for path in asked.only for word in ("--only", path)]
    flags = ["--jobs", "1", *(["--test"] if asked.test else []), *only]
    words = crate.words(flags, tests=asked.test, keeps=False)
    return [*rtlib.guarded(), rtlib.RATTLE, "check", *words, "--progress", "--stage-times", stages]


def follow(lines, least):
    """Prints each function as it ends; answers what else was said that tells of an end or an error."""
    last, rest = time.time(), []
    for line in lines:
        found = CHECKED.match(line)
        if found:
            now = time.time()
            if now - last >= least:
                print(f"{now - last:7.1f} s  {found[1]}", flush=True)
            last = now
        elif re.search(r": error\b|error\[|^logic=|^only=|^rattle: no verdict|: (not proved|no proof)", line):
            rest.append(line.rstrip())
    return rest


def tell_stages(file):
    """Prints the stages that took half a second, and the most memory."""
    with open(file) as text:
        rows = [it.split() for it in text]
    told = [f"{it[1]} {float(it[2]):.1f} s" for it in rows if it[:1] == ["stage"] and float(it[2]) >= 0.5]
    peak = next((int(it[1]) for it in rows if it[:1] == ["peak"]), 0)
    print(f"stages: {', '.join(told)}; most memory {peak / 2**20:.1f} GB")


def main():
    words = argparse.ArgumentParser(usage="bench/functions.py CRATE [--test] [--only PATH ..] [--least SECONDS]", add_help=False)
    words.add_argument("crate", nargs="?")
    words.add_argument("--test", action="store_true")
    words.add_argument("--only", action="append", default=[])
    words.add_argument("--least", type=float, default=0.5)
    words.add_argument("-h", "--help", action="store_true")
    asked = words.parse_args()
    if asked.help or not asked.crate:
        print(__doc__, end="", file=sys.stdout if asked.help else sys.stderr)
        return 0 if asked.help else 2
    rtlib = build.toolchain()
    found = {it.name: it for it in rtlib.crates_below(f"{TOP}/crates")}
    if asked.crate not in found:
        build.stop(f"no crate {asked.crate} in crates.txt")
    crate = found[asked.crate]
    lacking = [it.name for it in crate.below() if not it.is_built()]
    if lacking:
        build.stop(f"{lacking[0]} is not proved, on which {crate.name} stands: ./tora build {lacking[-1]}")
    start = time.time()
    with tempfile.TemporaryDirectory() as room:
        how = {"cwd": crate.folder, "stdin": subprocess.DEVNULL, "stdout": subprocess.PIPE, "stderr": subprocess.STDOUT}
        with subprocess.Popen(check_words(rtlib, crate, asked, f"{room}/stages"), text=True, errors="replace", **how) as ran:
            rest = follow(ran.stdout, asked.least)
        if os.path.exists(f"{room}/stages"):
            tell_stages(f"{room}/stages")
    print(f"whole: {time.time() - start:.1f} s by the clock")
    print("\n".join(it[:160] for it in rest[-8:]))
    return ran.returncode


if __name__ == "__main__":
    sys.exit(main())
