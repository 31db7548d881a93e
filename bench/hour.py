#!/usr/bin/python3
"""Times `tora-study measure` on the trace of an hour of 64 nodes: processor time with the start of Python, and peak memory.

usage: bench/hour.py [SCENARIO.json TRACE]     another trace instead of the one that is made

The trace that is made is of a line of 64 nodes in which each other node has a flow to the last one. In each of 36,000 rounds every
third node has a new height, and one link is parted for one second of every two. It has more routes than the trace of a
simulation. The aims are 5 s and 300 MB.
"""
import json
import pathlib
import resource
import subprocess
import sys
import tempfile

TOP = pathlib.Path(__file__).resolve().parents[1]
NODES, ROUNDS = 64, 36_000


def write(folder):
    """Writes the scenario and its trace; answers their paths."""
    trace, scenario = folder / "x.trace", folder / "x.json"
    with open(trace, "w", encoding="ascii") as sink:
        sink.write(f"0 need 1 {NODES}\n")
        for clock in range(1, ROUNDS + 1):
            for node in range(1 + clock % 3, NODES, 3):
                sink.write(f"{clock} route {node} {NODES} ({clock},1,0,{NODES - node},{node}) {node + 1}\n")
            sink.write(f"{clock} frames 64 1 1 0\n")
            if clock % 10 == 0:
                sink.write(f"{clock} {'part' if clock % 20 else 'mend'} 5 6\n")
    told = {
        "seed": 1, "nodes": NODES, "range": 100.0, "rounds": ROUNDS, "sample": 10, "limit": 32, "times": [10, 50, 5, 8], "destinations": [NODES],
        "flows": [[node, NODES] for node in range(1, NODES)], "links": [[node, node + 1] for node in range(1, NODES)], "contact_kept": 1.0,
        "links_met": NODES - 1, "most_met": 2, "most_at_once": 2, "breaks": ROUNDS // 20, "left_out": [],
        "positions": [[[50.0 * node, 0.0] for node in range(NODES)]] * (ROUNDS // 10 + 1),
    }
    scenario.write_text(json.dumps(told))
    return scenario, trace


def main():
    words = sys.argv[1:]
    if {"-h", "--help"} & {*words} or len(words) not in (0, 2):
        print(__doc__, end="")
        return 0 if {"-h", "--help"} & {*words} else 2
    with tempfile.TemporaryDirectory() as work:
        scenario, trace = words or write(pathlib.Path(work))
        done = subprocess.run([str(TOP / "python" / "tora-study"), "measure", str(scenario), str(trace)], stdout=subprocess.DEVNULL)
        lines = sum(1 for _ in open(trace, encoding="ascii"))
    used = resource.getrusage(resource.RUSAGE_CHILDREN)
    print(f"{lines} lines: {used.ru_utime + used.ru_stime:.2f} s of processor, {used.ru_maxrss / 1000:.0f} MB")
    return done.returncode


if __name__ == "__main__":
    sys.exit(main())
