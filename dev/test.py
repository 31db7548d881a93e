#!/usr/bin/env python3
"""Runs the tests of every crate of crates.txt that has tests, without a proof.

usage: ./tora test [--jobs N] [CRATE ..]

  --jobs N    N crates at a time, from 1 to 1024; the default is two
  CRATE ..    only the tests of these crates

`rt try --test` compiles each crate with its tests and runs them with checks at run time. Each crate is reported when it ends, and
each test that fails is reported with its output. The last line is `N passed, M failed`, counted in tests; a crate whose tests
cannot be compiled counts as one that failed. Without CRATE, dev/check-lib.sh also tests the library for C, if it is built of
these sources and gcc, g++ and valgrind are there. Nothing is proved here: `rt ci` is the gate. Exit status: 0 if none failed, 1 if
one did or there is none, 2 for wrong usage.
"""
import argparse
import os
import re
import shutil
import signal
import subprocess
import sys
import time
from concurrent.futures import ThreadPoolExecutor, as_completed

import library

TOP = os.path.dirname(os.path.dirname(os.path.realpath(__file__)))
MOST_JOBS = 1024
TEST = re.compile(r"#\s*\[[^]]*\btest\b")
# The runs that go on.
running = set()


def crates():
    """The crates of crates.txt, in its order."""
    with open(f"{TOP}/crates.txt") as text:
        rows = [it.partition("#")[0].partition(":")[0].split() for it in text]
    return [it[0] for it in rows if it]


def sources(crate):
    for at, _, names in os.walk(f"{TOP}/crates/{crate}/src"):
        for name in names:
            if name.endswith(".rt"):
                with open(f"{at}/{name}", errors="replace") as text:
                    yield text.read()


def outcome(said):
    """How many tests passed, and by name what each wrote that failed, or None where the tests did not run to their end."""
    count = re.search(r"^tests: (\d+)$", said, re.M)
    ended = re.search(r"^test result: \S+ (\d+) passed; (\d+) failed;", said, re.M)
    told = re.findall(r"^test (\S+) \.\.\. FAILED\n((?:    .*\n)*)", said, re.M)
    if not count or not ended or int(ended[1]) + int(ended[2]) != int(count[1]) or len(told) != int(ended[2]):
        return None
    return int(ended[1]), dict(told)


def run(crate):
    """Runs the tests of a crate; answers its name, the seconds, the status and what was said."""
    began = time.time()
    how = {"stdin": subprocess.DEVNULL, "stdout": subprocess.PIPE, "stderr": subprocess.STDOUT, "errors": "replace"}
    ran = subprocess.Popen(["rt", "try", "--test"], cwd=f"{TOP}/crates/{crate}", **how)
    running.add(ran)
    said, _ = ran.communicate()
    running.remove(ran)
    return crate, time.time() - began, ran.returncode, said


def check_library():
    """Tests the library for C, if that is possible; answers how many tests passed, and how many failed."""
    if not library.is_current() or not all(map(shutil.which, ["gcc", "g++", "valgrind"])):
        return 0, 0
    ran = subprocess.run([f"{TOP}/dev/check-lib.sh"], stdin=subprocess.DEVNULL, capture_output=True, text=True, errors="replace")
    print(f"{ran.stderr}{ran.stdout}", end="", flush=True)
    found = re.search(r"^check-lib: (\d+) passed, (\d+) failed$", ran.stdout, re.M)
    return (int(found[1]), int(found[2])) if found else (0, 1)


def broken_off(number, _):
    """Ends, and has the runs end and take their folders away."""
    for it in [*running]:
        it.terminate()
    os._exit(128 + number)


def main():
    if {"-h", "--help"} & {*sys.argv[1:]}:
        print(__doc__, end="")
        return 0
    words = argparse.ArgumentParser(prog="./tora test", usage="./tora test [--jobs N] [CRATE ..]", add_help=False)
    words.add_argument("--jobs", default="2")
    words.add_argument("crates", nargs="*")
    asked = words.parse_args()
    for it in asked.crates:
        if it not in crates():
            words.error(f"no crate {it} in crates.txt")
    if not re.fullmatch("[1-9][0-9]{0,8}", asked.jobs) or int(asked.jobs) > MOST_JOBS:
        words.error(f"--jobs takes a number from 1 to {MOST_JOBS}")
    lines = {it: [text.count("\n") for text in sources(it)] for it in crates()}
    have = [it for it in asked.crates or crates() if any(TEST.search(text) for text in sources(it))]
    # what takes longest first: a crate with much below it, which a try reads whole
    have.sort(key=lambda it: -sum(lines[it]))
    passed = failed = 0
    with ThreadPoolExecutor(int(asked.jobs)) as pool:
        for ended in as_completed([pool.submit(run, it) for it in have]):
            crate, seconds, status, said = ended.result()
            found = outcome(said)
            if found is None or bool(found[1]) != bool(status):
                failed += 1
                print(f"{crate}: the tests did not run to their end (rt try: status {status})\n{said}", end="", flush=True)
                continue
            passed, failed = passed + found[0], failed + len(found[1])
            for name, wrote in found[1].items():
                print(f"{crate}: {name} FAILED\n{wrote}", end="")
            print(f"{crate}: {found[0]} passed, {len(found[1])} failed ({round(seconds)} s)", flush=True)
    if not asked.crates:
        found = check_library()
        passed, failed = passed + found[0], failed + found[1]
    print("run with checks at run time, and not proved: `rt ci` is the gate" if have else "no tests")
    print(f"{passed} passed, {failed} failed")
    return 1 if failed or not have else 0


if __name__ == "__main__":
    for it in (signal.SIGINT, signal.SIGTERM, signal.SIGHUP):
        signal.signal(it, broken_off)
    sys.exit(main())
