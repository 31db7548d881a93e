#!/usr/bin/env python3
"""Runs two commands on one input in turn, and prints their time, memory and ratios.

measure.py ROUNDS INPUT OUT_A OUT_B -- COMMAND_A .. -- COMMAND_B ..
The best of ROUNDS runs of each counts, since the machine may be shared. Memory is the peak resident size that the system
reports, which is never below that of this script itself; the last line says how much that is.
"""
import os
import subprocess
import sys
import time


def run(command, given, taken):
    with open(given, "rb") as source, open(taken, "wb") as sink:
        start = time.perf_counter()
        child = subprocess.Popen(command, stdin=source, stdout=sink, stderr=subprocess.DEVNULL)
        _, status, usage = os.wait4(child.pid, 0)
        seconds = time.perf_counter() - start
    return seconds, usage.ru_utime + usage.ru_stime, usage.ru_maxrss, os.waitstatus_to_exitcode(status)


def main():
    words = sys.argv[1:]
    rounds, given, out_a, out_b = int(words[0]), *words[1:4]
    rest = words[5:]
    at = rest.index("--")
    commands = [(rest[:at], out_a), (rest[at + 1 :], out_b)]
    floor = run(["true"], given, out_a)[2]
    best = [None, None]
    for _ in range(rounds):
        for i, (command, taken) in enumerate(commands):
            seen = run(command, given, taken)
            if best[i] is None or seen[0] < best[i][0]:
                best[i] = seen
    for name, seen in zip(("tora", "baseline"), best):
        print(f"{name:9} {seen[0]:8.3f} s  processor {seen[1]:8.3f} s  memory {seen[2] / 1024:8.1f} MB  status {seen[3]}")
    print(f"ratio     {best[0][0] / best[1][0]:8.2f}    processor {best[0][1] / best[1][1]:8.2f}")
    print(f"floor     memory {floor / 1024:8.1f} MB")
    with open(out_a, "rb") as a, open(out_b, "rb") as b:
        print("output    " + ("identical" if a.read() == b.read() else "DIFFERENT"))


main()
