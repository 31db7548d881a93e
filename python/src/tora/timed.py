"""Runs a program, and writes the processor time in seconds and the greatest memory in MB that it took, as the system counts them.

usage: python3 timed.py FILE PROGRAM [WORD ..]     the status is the program's, or 128 and the number of the signal that ended it
"""
from __future__ import annotations

import os
import sys


def main(words: list[str]) -> int:
    """Runs the program of the words after the first, which names the file."""
    if len(words) < 2:
        print("timed: it takes the name of a file and then a program with its words", file=sys.stderr)
        return 2
    path, *command = words
    _, status, used = os.wait4(os.spawnvp(os.P_NOWAIT, command[0], command), 0)
    with open(path, "w", encoding="utf-8") as out:
        out.write(f"seconds\tmegabytes\n{used.ru_utime + used.ru_stime:.2f}\t{used.ru_maxrss / 1024:.1f}\n")
    code = os.waitstatus_to_exitcode(status)
    return code if code >= 0 else 128 - code


if __name__ == "__main__":
    sys.exit(main(sys.argv[1:]))
