#!/usr/bin/python3
"""Measures what `tora-study sweep` adds to the runs themselves, in processor time.

usage: bench/sweep.py [RUNS] [NODES] [ROUNDS]     the defaults are 200 runs of 20 nodes for 1,200 rounds
  TORA   the program; without it the repository's ./tora

The sweep makes RUNS runs with seeds 1 to RUNS, one at a time, and then its table and summary. It adds two things to the runs:

- once: Python and its libraries are loaded, and the table and the summary are made. Five sweeps that have only this to do are measured,
  and the median counts.
- for each run: its row is written. Each run is made once by the sweep's function and once by itself, in turn, in this process.

Both are differences within one process or between equal ones, so other work on the machine changes them little. The last line says how
much is added, in seconds and relative to the runs alone.
"""
import os
import pathlib
import resource
import statistics
import subprocess
import sys
import tempfile

TOP = pathlib.Path(__file__).resolve().parent.parent
sys.path.insert(0, str(TOP / "python/src"))

from tora.study import Study  # noqa: E402
from tora.sweeping import made, make_run, program_of  # noqa: E402

TIMES = 5  # sweeps without runs


def processor():
    """The seconds of the processors that this process and those that it waited for have taken."""
    spent = [resource.getrusage(who) for who in (resource.RUSAGE_SELF, resource.RUSAGE_CHILDREN)]
    return sum(it.ru_utime + it.ru_stime for it in spent)


def spent(work, *arguments):
    """The seconds that a function takes."""
    begin = processor()
    work(*arguments)
    return processor() - begin


def alone(study, run, program, limit):
    """Makes and measures a run by itself."""
    with tempfile.TemporaryDirectory() as folder:
        made(study, run, program, limit, f"{folder}/run")


def main():
    """Measures both, and prints what they took."""
    if len(sys.argv) > 4 or not all(it.isdecimal() for it in sys.argv[1:]):
        print(__doc__.strip(), file=sys.stderr)
        return 2
    runs, nodes, rounds = [int(it) for it in sys.argv[1:]] + [200, 20, 1200][len(sys.argv) - 1 :]
    with tempfile.TemporaryDirectory() as work:
        folder = f"{work}/study"
        words = ["sweep", folder, "--nodes", str(nodes), "--seeds", str(runs), "--rounds", str(rounds), "--jobs", "1"]
        sweep = [TOP / "python/tora-study", *words]
        subprocess.run(sweep, check=True, stdout=subprocess.DEVNULL)
        once = []
        for _ in range(TIMES):
            os.remove(f"{folder}/study.csv")
            once.append(spent(lambda: subprocess.run(sweep, check=True, stdout=subprocess.DEVNULL)))
        study, (program, limit) = Study.read(folder), program_of(folder)
        alone(study, study.runs()[0], program, limit)  # loads what only a run needs
        by_sweep = by_itself = 0.0
        for at, run in enumerate(study.runs()):
            for is_sweep in (at % 2 == 0, at % 2 == 1):
                if is_sweep:
                    by_sweep += spent(make_run, folder, study, run, program, limit)
                else:
                    by_itself += spent(alone, study, run, program, limit)
    added = statistics.median(once) + by_sweep - by_itself
    print(f"{runs} runs of {nodes} nodes for {rounds} rounds take {by_itself:.1f} s of the processors by themselves")
    print(f"once: {statistics.median(once):.2f} s ({min(once):.2f} to {max(once):.2f}); for each run: {1000 * (by_sweep - by_itself) / runs:.1f} ms")
    print(f"added: {added:.1f} s, {100 * added / by_itself:.1f} %")
    return 0


if __name__ == "__main__":
    sys.exit(main())
