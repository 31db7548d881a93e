#!/usr/bin/env python3
"""A line of four nodes in one process: their routers, and a list of datagrams between them."""
from __future__ import annotations

import pathlib
import sys

sys.path.insert(0, str(pathlib.Path(__file__).resolve().parents[2] / "python" / "src"))
from tora.router import Router  # noqa: E402

NODES, DESTINATION = range(1, 5), 4
BESIDE = {node: [it for it in (node - 1, node + 1) if it in NODES] for node in NODES}

routers = {node: Router(node, BESIDE[node], [DESTINATION], first_life=1) for node in NODES}
for now in (0, 1):
    for router in routers.values():
        router.tick(now)
    if now == 1:  # all links are up
        routers[1].need(DESTINATION, now)
    while sent := [(node, *it) for node, router in routers.items() for it in router.datagrams(now)]:
        for sender, to, datagram in sent:
            routers[to].datagram(sender, datagram, now)
for node, router in routers.items():
    with router:
        print(f"node {node} {router.height(DESTINATION) or '-'} hop {router.next_hop(DESTINATION) or '-'}")
