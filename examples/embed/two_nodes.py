#!/usr/bin/env python3
"""Two nodes over a medium that loses every third datagram, until the second one falls silent: what the first tells."""
from __future__ import annotations

import itertools
import pathlib
import sys

sys.path.insert(0, str(pathlib.Path(__file__).resolve().parents[2] / "python" / "src"))
from tora.router import Router  # noqa: E402

medium = itertools.cycle([True, True, False])  # whether a datagram arrives
now = 0
with Router(1, [2], [2], first_life=1) as one, Router(2, [1], [2], first_life=1) as two:
    one.need(2, now)
    while now < 200:
        there = list(one.datagrams(now))
        back = list(two.datagrams(now)) if now < 100 else []
        for peer, router, sent in (1, two, there), (2, one, back):
            for _, datagram in sent:
                if next(medium):
                    router.datagram(peer, datagram, now)
        for router in one, two:
            router.tick(now)
        for change in one.changes():
            words = change.hop or (change.reason.name.lower() if change.reason else "")
            print(f"tick {now} {change.kind.name.lower()} {change.node} {words}".rstrip())
        if not there and not back:  # nothing happens before the first of them has something to do
            now = max(now + 1, min(it.next_due() for it in (one, two)))
    print(f"height {one.height(2) or '-'} tally {tuple(one.tally(2))}")
