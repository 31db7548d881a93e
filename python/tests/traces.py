"""Random traces for the tests, and plain readings of traces to compare with."""
from __future__ import annotations

import random

from tora.records import FIRST, Record, read_end, read_record

LINKS = [(1, 2), (1, 3), (2, 3), (2, 4), (3, 4), (4, 5), (3, 5), (5, 6)]
FLOWS = [(1, 5), (2, 5), (3, 5), (4, 5), (6, 5), (1, 6), (2, 6), (4, 6)]
ROUNDS = 60


def random_trace(source: random.Random) -> str:
    """A trace of 60 rounds, in which anything may happen that the grammar has; few next hops lead anywhere for long."""
    lines: list[str] = []

    def height(node: int) -> str:
        return source.choice(("-", f"(0,0,0,{source.randint(-2, 3)},{node})"))

    for clock in range(ROUNDS):
        for _ in range(source.choice((0, 0, 1, 2))):
            lines.append(f"{clock} {source.choice(('part', 'mend'))} %d %d" % source.choice(LINKS))
        lines += [f"{clock} need {a} {d}" for a, d in FLOWS * (clock % 5 == 0)]
        for _ in range(source.choice((0, 0, 2, 4))):
            a, b = source.choice(LINKS)[:: source.choice((1, -1))]
            d, kind = source.choice((5, 6)), source.choice(("route", "route", "qry", "upd", "clr", "up", "down"))
            behind = {
                "route": f"{d} {height(a)} {b if source.random() < 0.8 else '-'}", "qry": f"{d} 3",
                "upd": f"{d} 2 {height(a)}", "clr": f"{d} 1 0 4"
            }
            lines.append(f"{clock + 1} {kind} {a} {behind.get(kind, f'{b} 7 8')}")
        if source.random() < 0.8:
            lines.append(f"{clock + 1} frames {source.randint(0, 9)} 1 2 0")
    return "\n".join(lines + [f"{ROUNDS} frames 1 0 0 0"]) + "\n"


def plain_records(path: str) -> list[Record]:
    """The records of a trace that is none of those that are refused, line by line."""
    found: list[Record] = []
    with open(path) as source:
        for number, text in enumerate(source, 1):
            before = found[-1].clock if found else 0
            if number == 1 and text.startswith(FIRST):
                continue
            if text.split(" ")[1] == "end":
                read_end(path, number, text, before)
            else:
                found.append(read_record(path, number, text, before))
    return found
