#!/usr/bin/env python3
"""Processor time that a datagram takes in `tora sim --large`, and the ratio of the last file's to the first file's.

per_datagram.py ROUNDS PROGRAM FILE..
per_datagram.py --more ROUNDS PROGRAM SHORT LONG SHORT LONG..
Datagrams are counted in a trace (HELLO, DATA and ACK, also those over a parted link). The time is the best of ROUNDS runs
without a trace, in turn, from the start of the process to its end. With --more, files come in pairs, a short one and one that
continues it; the result is the time of each further datagram, without the time that it takes to make the world.
"""
import os
import subprocess
import sys
import tempfile


def processor_time(command):
    """Seconds of processor time of a command that has to end well."""
    child = subprocess.Popen(command, stdout=subprocess.DEVNULL)
    _, status, usage = os.wait4(child.pid, 0)
    if status:
        sys.exit(f"per_datagram: status {os.waitstatus_to_exitcode(status)}: {' '.join(command)}")
    return usage.ru_utime + usage.ru_stime


def datagrams(program, path):
    """How many datagrams a simulation sends."""
    with tempfile.TemporaryDirectory() as work:
        trace = os.path.join(work, "trace")
        processor_time([program, "sim", "--large", "--trace", trace, path])
        with open(trace, encoding="ascii") as source:
            words = (line.split() for line in source if " frames " in line)
            return sum(int(count) for line in words for count in line[2:5])


def main():
    """Prints a line for each file, or each pair of files, and the ratio."""
    words = sys.argv[1:]
    more = words[:1] == ["--more"]
    if more:
        words = words[1:]
    rounds, program, paths = int(words[0]), words[1], words[2:]
    if more and len(paths) % 2:
        sys.exit("per_datagram: with --more files come in pairs")
    counts, best = [datagrams(program, path) for path in paths], [float("inf")] * len(paths)
    for _ in range(rounds):
        for at, path in enumerate(paths):
            best[at] = min(best[at], processor_time([program, "sim", "--large", path]))
    if more:
        best = [long - short for short, long in zip(best[::2], best[1::2])]
        counts = [long - short for short, long in zip(counts[::2], counts[1::2])]
        paths = paths[1::2]
    each = [seconds / count * 1e9 for seconds, count in zip(best, counts)]
    for path, count, seconds, one in zip(paths, counts, best, each):
        print(f"{os.path.basename(path):20} {count:9} datagrams  processor {seconds:8.3f} s  {one:8.1f} ns a datagram")
    print(f"ratio                {each[-1] / each[0]:8.2f}")


main()
