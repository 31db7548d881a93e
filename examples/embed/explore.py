#!/usr/bin/env python3
"""All orders of deliveries of a small world, by proved rules: how many states there are, and if an order never ends.

usage: explore.py [--erasure plain|remembered] [--most STATES] [--sim FILE] NODES LINKS DESTINATION EVENTS
       explore.py [--erasure plain|remembered] [--sim FILE] --order FILE NODES LINKS DESTINATION
       explore.py 3 1-2,2-3,3-1 1 'need 3; cut 1 2'
       explore.py --order storm.order 4 1-2,2-3,3-1,1-4 4

A world has the nodes 1 to NODES, links that are up at first, and EVENTS (small_world.py). Each state is looked at once,
the nearest first. With --order only one order is looked at, that of the steps of a file, one a line.

A circle of states is an order that goes on until delta leaves its range of 2^30. A circle that is found is followed
100 times. With --sim these steps are written as a simulation file, for `tora sim --notice FILE`.
"""
from __future__ import annotations

import argparse
import collections
import contextlib
import dataclasses
import functools
import graphlib
import pathlib
import sys

from simulation_file import SimulationFile
from small_world import Erasure, World, first_world
from tora.lib import NoLibraryError

TIMES = 100  # how often a circle is followed

Graph = dict[int, list[tuple[int, str]]]  # by the number of a state: the states that follow, and the steps to them


def explored(first: World, most: int) -> tuple[Graph, int, bool]:
    """The states behind a first one, the nearest first, at most so many; how many rest, and whether these are all."""
    graph: Graph = {}
    numbers, worlds = {first.key(): 0}, collections.deque([first])
    rest, is_whole = 0, True
    while worlds:
        steps = [(step, after, after.key()) for step, after in worlds.popleft().steps()]
        rest += not steps
        follows = graph.setdefault(len(graph), [])
        for step, after, key in steps:
            if key not in numbers and len(numbers) >= most:
                is_whole = False
                continue
            if key not in numbers:
                worlds.append(after)
            follows.append((numbers.setdefault(key, len(numbers)), step))
    return graph, rest, is_whole


def along(world: World, order: list[str]) -> Graph:
    """The states of one order of steps."""
    graph: Graph = {0: []}
    numbers, at = {world.key(): 0}, 0
    for number, step in enumerate(order, 1):
        found = [it for it in world.steps() if it[0].split()[:3] == step.split()]
        if not found:
            sys.exit(f"explore: step {number} is not possible: {step}")
        told, world = found[0]
        to = numbers.setdefault(world.key(), len(numbers))
        graph.setdefault(to, [])
        graph[at].append((to, told))
        at = to
    return graph


def way(graph: Graph, first: int, last: int) -> list[str]:
    """The steps of a shortest way from a state to another, or back to itself; none if there is no such way."""
    ways: dict[int, list[str]] = {}
    queue: collections.deque[tuple[int, list[str]]] = collections.deque([(first, [])])
    while queue and last not in ways:
        at, steps = queue.popleft()
        for to, step in graph[at]:
            if to not in ways:
                ways[to] = [*steps, step]
                queue.append((to, ways[to]))
    return ways.get(last, [])


def circle(graph: Graph) -> tuple[list[str], list[str]] | None:
    """The way to the nearest state on a circle, and a shortest circle from it."""
    sorter = graphlib.TopologicalSorter({at: [to for to, _ in follows] for at, follows in graph.items()})
    done: set[int] = set()
    with contextlib.suppress(graphlib.CycleError):
        sorter.prepare()
    while ends := sorter.get_ready():  # what leads to ends alone is on no circle
        done.update(ends)
        sorter.done(*ends)
    left = {at: [it for it in follows if it[0] not in done] for at, follows in graph.items() if at not in done}
    circles = ((at, way(left, at, at)) for at in left)
    return next(((way(graph, 0, at) if at else [], steps) for at, steps in circles if steps), None)


def asked() -> argparse.Namespace:
    """The words of the command line."""
    parser = argparse.ArgumentParser(usage=(__doc__ or "").split("usage: ")[1].split("\n\n")[0])
    parser.add_argument("--erasure", choices=["plain", "remembered"], default="plain")
    parser.add_argument("--most", type=int, default=100000)
    parser.add_argument("--sim", type=pathlib.Path)
    parser.add_argument("--order", type=pathlib.Path)
    parser.add_argument("nodes", type=int)
    parser.add_argument("links")
    parser.add_argument("destination", type=int)
    parser.add_argument("events", nargs="?", default="")
    return parser.parse_args()


def main() -> None:
    """Explores a world, and says what is found."""
    words = asked()
    if words.sim and words.sim.exists():
        sys.exit(f"explore: {words.sim}: this file exists, and would be overwritten")
    links = sorted((min(pair), max(pair)) for pair in (tuple(map(int, it.split("-"))) for it in words.links.split(",")))
    order = words.order.read_text().splitlines() if words.order else words.events.split(";")
    world = first_world(words.nodes, links, words.destination, Erasure[words.erasure.upper()])
    up = [f"mend {a} {b}" for a, b in links]
    events = tuple(it.strip() for it in order if it and not it.startswith("deliver"))
    first = dataclasses.replace(functools.reduce(World.after, up, world), events=events)
    graph, rest, is_whole = (along(first, order), 0, False) if words.order else explored(first, words.most)
    print(f"{len(graph)} states{'' if is_whole else ' and more'}, {rest} of them at rest")
    found = circle(graph)
    if found is None:
        print("every order ends" if is_whole else "no circle among these")
        return
    there, again = found
    print(f"an order goes on for ever: after {len(there)} steps, {len(again)} that repeat")
    print(*there, "again and again:", *again, f"after {TIMES} times:", sep="\n")
    file = SimulationFile(world, links)
    for step in up + there + again * TIMES:
        file.follow(step)
    for n, node in file.world.nodes.items():
        print(f"node {n} {node.core.height(words.destination) or '-'}")
    if words.sim:
        words.sim.write_text("\n".join([*file.lines, f"heights {words.destination}", ""]))


if __name__ == "__main__":
    try:
        main()
    except NoLibraryError as cause:
        sys.exit(f"explore: {cause}")
