#!/usr/bin/env python3
"""Refuses memory to `tora sim --large` and `tora drive --large` on a line of 200 nodes: the Nth request, N from 1 on until none is refused any more.

usage: bench/refused_world.py [--nodes 200] [--step 1] PROGRAM

Node 1 needs a route to the last node, and finds it; then a node restarts, and heights and walks are printed. Each request is refused in a run of
its own (bench/refuse.c, which `cc` compiles). A run must end with status 5, `tora: memory` on standard error and a prefix of the output that is
printed with enough memory; or with status 0 and all of the output, if the program does not depend on the request. With --step S every S-th request
is refused. The exit status is 0 if each run does so, and 1, with those that do not, otherwise.
"""
import argparse
import os
import pathlib
import subprocess
import sys
import tempfile

HERE = pathlib.Path(__file__).resolve().parent
LIMIT = 60  # seconds of a run


def world(nodes):
    """The lines of the world."""
    lines = [f"dests {nodes}"] + [f"link {n} {n + 1}" for n in range(1, nodes)] + ["old 3", f"need 1 {nodes}", "rounds 40"]
    lines += [f"heights {nodes}", f"walk 1 {nodes}", f"exact {nodes}", "restart 2 -", "part 5 6", "rounds 60", "mend 5 6", "rounds 5", "rest"]
    return "".join(f"{line}\n" for line in [*lines, f"heights {nodes}"])


class Trial:
    """A command, its input, and what it prints where no memory is refused."""

    def __init__(self, words, given, library, log):
        self.words, self.given, self.library, self.log = words, given, library, log
        done = subprocess.run(words, input=given, capture_output=True, timeout=LIMIT, check=True)
        self.wanted = done.stdout

    def refused(self, at):
        """What is wrong with a run in which this call is refused; None where nothing is, and whether the call came."""
        self.log.unlink(missing_ok=True)
        told = os.environ | {"LD_PRELOAD": str(self.library), "REFUSE_AT": str(at), "REFUSE_LOG": str(self.log)}
        try:
            done = subprocess.run(self.words, input=self.given, capture_output=True, timeout=LIMIT, env=told, check=False)
        except subprocess.TimeoutExpired:
            return f"it has not ended after {LIMIT} s", True, None
        came = self.log.exists()
        if done.returncode == 0 and done.stdout == self.wanted:
            return None, came, 0
        if came and done.returncode == 5 and b"tora: memory" in done.stderr and self.wanted.startswith(done.stdout):
            return None, came, 5
        return f"status {done.returncode}, {len(done.stdout)} bytes of {len(self.wanted)}: {done.stderr[-200:]!r}", came, done.returncode


def swept(name, trial, step):
    """Refuses each call in turn; answers how many runs were wrong."""
    at, runs, wrong, memory = 1, 0, 0, 0
    while True:
        cause, came, status = trial.refused(at)
        if cause:
            wrong += 1
            print(f"{name}, call {at}: {cause}")
        if not came:
            break
        runs += 1
        memory += status == 5
        at += step
    print(f"{name}: {runs} runs with one call refused, of which {memory} ended with status 5; {wrong} were wrong")
    return wrong


def main():
    """Tries both commands."""
    parser = argparse.ArgumentParser(description=__doc__, formatter_class=argparse.RawDescriptionHelpFormatter)
    parser.add_argument("--nodes", type=int, default=200)
    parser.add_argument("--step", type=int, default=1)
    parser.add_argument("program")
    asked = parser.parse_args()
    with tempfile.TemporaryDirectory(prefix="refused-") as name:
        work = pathlib.Path(name)
        library = work / "refuse.so"
        subprocess.run(["cc", "-O1", "-shared", "-fPIC", "-o", library, HERE / "refuse.c"], check=True)
        text = world(asked.nodes)
        (work / "world.sim").write_text(text, encoding="ascii")
        log = work / "came"
        sim = Trial([asked.program, "sim", "--large", work / "world.sim"], b"", library, log)
        drive = Trial([asked.program, "drive", "--large"], text.encode(), library, log)
        return int(swept("tora sim", sim, asked.step) + swept("tora drive", drive, asked.step) > 0)


if __name__ == "__main__":
    sys.exit(main())
