"""A small world of cores. A world is a state, which stays as it is: each step from it gives another one.

Events come in their order: `need N`, `cut A B` (what is under way there is lost), `mend A B`, and `rest`, which waits
until nothing is under way. Else the next step may be any: the next event, or `deliver A B`, by which the first packet
that is under way from A to B arrives. Each input comes at tick 1.
"""
from __future__ import annotations

import dataclasses
import pathlib
import re
import struct
import sys
from collections.abc import Iterator

sys.path.insert(0, str(pathlib.Path(__file__).resolve().parents[2] / "python" / "src"))
from tora.core import Core  # noqa: E402
from tora.lib import Erasure as Erasure, Height  # noqa: E402

NOW, UPDATE, CLEAR = 1, 2, 3  # the tick, and kinds of a packet: its second byte
HEIGHT = re.compile(r"\((\d+,\d+,[01]),(-?\d+),(\d+)\)")  # the level, delta, and the node


def shown(packet: bytes) -> str:
    """A packet in words."""
    if packet[1] == UPDATE:
        return f"UPD {Height(*struct.unpack('>8xQIB3xiI', packet))}"
    return f"CLR {packet[8:20].hex()}" if packet[1] == CLEAR else "QRY"


def beside(n: int, links: list[tuple[int, int]]) -> list[int]:
    """The nodes to which a node has a link."""
    return [b if a == n else a for a, b in links if n in (a, b)]


@dataclasses.dataclass(frozen=True)
class Node:
    """A core, its text, and what the text does not show of its state: it follows from what the core took and sent."""

    core: Core
    text: str = ""
    told: frozenset[int] = frozenset()  # the neighbours that were told the own height
    defined: int = 0  # when the node defined its last level
    erased: bytes = b""  # the level that it erased last, where it remembers that


@dataclasses.dataclass(frozen=True)
class World:
    """A state: the nodes, the links that are up, the packets under way from node to node, and the events to come."""

    nodes: dict[int, Node]
    destination: int
    erasure: Erasure
    events: tuple[str, ...] = ()
    links: frozenset[tuple[int, int]] = frozenset()
    queues: dict[tuple[int, int], tuple[bytes, ...]] = dataclasses.field(default_factory=dict)

    def _taken(self, n: int, call: str, other: int, *packet: bytes) -> World:
        """The state after a node took an input; what the node broadcasts is under way."""
        up = beside(n, sorted(self.links))
        node, core = self.nodes[n], self.nodes[n].core.clone()
        sent: list[bytes] = getattr(core, call)(other, *packet, NOW)
        told, erased, height = node.told, node.erased, core.height(self.destination)
        clears = [it for it in (*sent, *packet) if it[1] == CLEAR and self.erasure == Erasure.REMEMBERED]
        if call.startswith("link") or any(it in clears for it in packet):
            told -= {other}
        if any(it[1] == UPDATE for it in sent):
            told = frozenset(up)
        if clears:
            erased = clears[0][8:20]  # a level
        defined = max(node.defined, height.tau if height and height.oid == height.id else 0)
        nodes = self.nodes | {n: Node(core, core.show(), told, defined, erased)}
        queues = self.queues | {(n, k): (*self.queues.get((n, k), ()), *sent) for k in up}
        return dataclasses.replace(self, nodes=nodes, queues=queues)

    def after(self, step: str) -> World:
        """The state after a step."""
        match step.split():
            case ["need", n]:
                return self._taken(int(n), "need", self.destination)
            case ["deliver", a, b, *_]:
                first, *others = self.queues[int(a), int(b)]
                queues = self.queues | {(int(a), int(b)): tuple(others)}
                return dataclasses.replace(self, queues=queues)._taken(int(b), "packet", int(a), first)
            case ["cut" | "mend" as word, a, b]:
                return self._changed(int(a), int(b), "link_down" if word == "cut" else "link_up")
            case ["rest"]:
                return self
        sys.exit(f"explore: there is no step `{step}`")

    def _changed(self, a: int, b: int, call: str) -> World:
        """The state after a link came up or went down, whose packets are lost."""
        queues = {pair: queue for pair, queue in self.queues.items() if {*pair} != {a, b}}
        world = dataclasses.replace(self, links=self.links ^ {(min(a, b), max(a, b))}, queues=queues)
        return world._taken(a, call, b)._taken(b, call, a)

    def steps(self) -> Iterator[tuple[str, World]]:
        """What may happen next, in words, and the state then."""
        if self.events and (self.events[0] != "rest" or not any(self.queues.values())):
            yield self.events[0], dataclasses.replace(self.after(self.events[0]), events=self.events[1:])
        for (a, b), queue in self.queues.items():
            if queue:
                yield f"deliver {a} {b} {shown(queue[0])}", self.after(f"deliver {a} {b}")

    def key(self) -> tuple[object, ...]:
        """What two states have in common from which the same follows, but for a constant that is added to each delta.

        Rules compare deltas of one level with each other alone, so such a constant is left out where all heights have
        one level, a reflected one. The destination's own text is left out: it sends nothing.
        """
        parts = [it.text for n, it in self.nodes.items() if n != self.destination]
        parts += [f"{pair} {shown(it)}" for pair, queue in sorted(self.queues.items()) for it in queue]
        found = [it for part in parts for it in HEIGHT.finditer(part)]
        if len({it[1] for it in found}) == 1 and found[0][1].endswith(",1"):
            least = min(int(it[2]) for it in found)
            parts = [HEIGHT.sub(lambda it: f"{it[1]} {int(it[2]) - least} {it[3]}", part) for part in parts]
        hidden = [(tuple(sorted(it.told)), it.defined, it.erased) for it in self.nodes.values()]
        return self.events, self.links, tuple(parts), tuple(hidden)


def first_world(count: int, links: list[tuple[int, int]], destination: int, erasure: Erasure) -> World:
    """A world of so many nodes whose links are down, without events."""
    cores = {n: Core(n, beside(n, links), [destination], erasure) for n in range(1, count + 1)}
    return World({n: Node(core) for n, core in cores.items()}, destination, erasure)
