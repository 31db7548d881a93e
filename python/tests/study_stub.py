"""A stand-in for the program tora: it writes a trace in which every link is up and nothing is routed, and does what it is told wrong by its name.

A stub that is named `silent` never ends, one that is named `failing` ends with status 3 for files of seed 2.
"""
from __future__ import annotations

import sys
from pathlib import Path

TEXT = """#!{python} -SE
import hashlib, sys, time
words = sys.argv[1:]
if words[:1] == ["--version"]:
    print("stub 1")
    sys.exit()
if "silent" in sys.argv[0]:
    time.sleep(600)
data = open(words[-1], "rb").read()
if "failing" in sys.argv[0] and hashlib.sha256(data).digest()[0] % 2:
    print("the stub does not like this file", file=sys.stderr)
    sys.exit(3)
rounds = sum(int(line[7:]) for line in data.decode().splitlines() if line.startswith("rounds "))
times = words[words.index("--times") + 1].replace(",", " ") if "--times" in words else "10 50 5 8"
with open(words[words.index("--trace") + 1], "w") as sink:
    sink.write(f"0 trace 1 {{times}} 0 0 0 0 0 0\\n")
    for clock in range(1, rounds + 1):
        sink.write(f"{{clock}} frames 2 0 0 0\\n")
    sink.write(f"{{rounds}} end {{hashlib.sha256(data).hexdigest()}}\\n")
"""


def write_stub(folder: Path, name: str = "stub") -> Path:
    """Writes a stub; answers its path."""
    path = folder / name
    path.write_text(TEXT.format(python=sys.executable))
    path.chmod(0o755)
    return path
