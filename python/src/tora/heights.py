"""Pictures of the heights of one destination around a break of a route, by networkx: nodes where the scenario has them.

A break of a route is a round after which a next hop is over a link that was parted in it. Black arrows are next hops; red and dashed ones
are stale: over a parted link. Grey arrows lead from the higher to the lower height of two linked nodes, dotted lines to a node without a
height. The colour of a node is its reference level; below its number is its delta.
"""
from __future__ import annotations

import dataclasses
from collections.abc import Sequence

import networkx as nx
import numpy as np
import numpy.typing as npt
from matplotlib.axes import Axes
from matplotlib.figure import Figure
from matplotlib.lines import Line2D
from matplotlib.patches import Patch

from tora.errors import UsageError
from tora.drawing import styled
from tora.run import Run
from tora.scenario import Scenario
from tora.world import World, moments

Pair = tuple[int, int]
Level = tuple[int, int, int]

SIDE = 10.0  # inches of the longer side of the picture
APART = 0.4  # inches that two nodes are apart at least
FILLS = ["#ffffff", "#cfe8ff", "#d9f2d0", "#fff2b3", "#ffd9b3", "#e6d5f5", "#c9f0ee", "#f5d5e0"]
NO_HEIGHT = "#ff9999"
GREY = "#9a9a9a"


@dataclasses.dataclass(frozen=True)
class Break:
    """A break of a route.

    Attributes
    ----------
    round : int
    hops : set of pairs
        The stale next hops, as (node, next hop).
    after : int or None
        The first round from there on in which none of these nodes has a stale hop; None where there is none.
    """

    round: int
    hops: frozenset[Pair]
    after: int | None


def ordered(a: int, b: int) -> Pair:
    """A link: the lower node first."""
    return (a, b) if a < b else (b, a)


def stale_hops(world: World, destination: int) -> set[Pair]:
    """The next hops over parted links, as (node, next hop)."""
    return {(node, hop) for node, hop in world.hops[destination].items() if hop is not None and ordered(node, hop) not in world.links}


def breaks(run: Run, destination: int) -> list[Break]:
    """The breaks of routes to a destination, by their rounds."""
    check_destination(run.scenario, destination)
    before: set[Pair] = set()
    parted: set[Pair] = set()
    found: list[Break] = []
    for clock, world in moments(run.scenario, run.trace):
        stale = stale_hops(world, destination)
        gone = world.declared - world.links
        nodes = {node for node, _ in stale}
        for at, one in enumerate(found):
            if one.after is None and not nodes & {node for node, _ in one.hops}:
                found[at] = dataclasses.replace(one, after=clock)
        fresh = {hop for hop in stale - before if ordered(*hop) in gone - parted}
        if fresh:
            found.append(Break(clock, frozenset(fresh), None))
        before, parted = stale, gone
    return found


def check_destination(scenario: Scenario, destination: int) -> None:
    """Refuses a node that is no destination."""
    if destination not in scenario.destinations:
        known = ", ".join(map(str, scenario.destinations))
        raise UsageError(f"--destination: {destination} is none of the scenario; these are: {known}")


def rounds_around(run: Run, destination: int, number: int) -> list[int]:
    """The rounds before, in and after a break of a route, by its number from 1."""
    found = breaks(run, destination)
    if not 1 <= number <= len(found):
        raise UsageError(f"--break: destination {destination} has {len(found)} breaks of a route")
    one = found[number - 1]
    return sorted({max(one.round - 1, 1), one.round} | ({one.after} if one.after else set()))


def break_lines(found: Sequence[Break]) -> list[str]:
    """One line for each break of a route."""
    lines = []
    for number, one in enumerate(found, 1):
        some = " ".join(f"{node}-{hop}" for node, hop in sorted(one.hops))
        lines.append(f"break {number} round {one.round} hops {some} " + (f"none stale from round {one.after}" if one.after else "stale to the end"))
    return lines


def places_of(scenario: Scenario, clock: int) -> npt.NDArray[np.float64]:
    """The places of the nodes at the end of a round, in inches.

    Returns
    -------
    array of float, shape (nodes, 2)
        The frame is that of all rounds, both axes have one scale, and none is turned round, whatever the signs of coordinates are. Nodes that
        would cover each other are moved apart.
    """
    corner = scenario.positions.min(axis=(0, 1))
    extent = float((scenario.positions.max(axis=(0, 1)) - corner).max()) or 1.0
    places = (scenario.positions[max(clock - 1, 0) // scenario.sample] - corner) * (SIDE / extent)
    return moved_apart(places)


def moved_apart(places: npt.NDArray[np.float64], least: float = APART) -> npt.NDArray[np.float64]:
    """Moves nodes that would cover each other until they are this many inches apart, or 200 times."""
    moved = places.copy()
    for _ in range(200):
        is_done = True
        for i in range(len(moved)):
            for j in range(i):
                away = moved[i] - moved[j]
                length = float(np.hypot(*away))
                if length >= least:
                    continue
                if length < 1e-6:
                    away, length = np.array([0.001 * (i + 1), 0.001 * (j + 2)]), 0.003
                step = away * ((least - length) / length / 2 * 1.05)
                moved[i] += step
                moved[j] -= step
                is_done = False
        if is_done:
            break
    return moved


@styled
def heights(run: Run, destination: int, rounds: Sequence[int]) -> dict[int, Figure]:
    """A picture of the heights of a destination at the end of each of these rounds; a level has one colour in all of them."""
    check_destination(run.scenario, destination)
    for clock in rounds:
        if not 1 <= clock <= run.scenario.rounds:
            raise UsageError(f"--rounds: {clock} is not 1 to {run.scenario.rounds}")
    fills: dict[Level, str] = {}
    found = {}
    for clock, world in moments(run.scenario, run.trace):
        if clock in rounds:
            found[clock] = _figure(run.scenario, world, destination, clock, fills)
    return found


def graph_of(world: World, destination: int) -> nx.DiGraph:
    """The links and next hops of a round.

    Returns
    -------
    DiGraph
        Nodes have `height`, a tuple or None. An edge has `kind`: ``hop``, ``stale``, ``down`` (from the higher to the lower height), or ``none``.
    """
    graph = nx.DiGraph()
    for node in world.nodes:
        graph.add_node(node, height=world.height(node, destination))
    hops = {(node, hop) for node, hop in world.hops[destination].items() if hop is not None}
    stale = stale_hops(world, destination)
    for node, hop in sorted(hops):
        graph.add_edge(node, hop, kind="stale" if (node, hop) in stale else "hop")
    for a, b in sorted(world.links - {ordered(*hop) for hop in hops}):
        high, low = graph.nodes[a]["height"], graph.nodes[b]["height"]
        if high is None or low is None:
            graph.add_edge(a, b, kind="none")
        else:
            graph.add_edge(*((a, b) if high > low else (b, a)), kind="down")
    return graph


def _figure(scenario: Scenario, world: World, destination: int, clock: int, fills: dict[Level, str]) -> Figure:
    """The picture of a round."""
    graph, places = graph_of(world, destination), places_of(scenario, clock)
    levels = sorted({height[:3] for _, height in graph.nodes(data="height") if height is not None})
    for level in levels:
        fills.setdefault(level, FILLS[len(fills) % len(FILLS)])
    figure = Figure(figsize=(SIDE + 3, SIDE + 1), dpi=80)
    panel = figure.add_axes((0.01, 0.01, 0.78, 0.94))
    panel.set_title(f"destination {destination}, end of round {clock} ({clock / 10:.1f} s)", fontsize=16)
    panel.set_aspect("equal")
    panel.set_axis_off()
    panel.set_xlim(-0.5, SIDE + 0.5)
    panel.set_ylim(-0.5, SIDE + 0.5)
    where = {node: places[node - 1] for node in graph}
    _draw_edges(panel, graph, where)
    _draw_nodes(panel, graph, where, destination, fills)
    figure.legend(handles=_legend(levels, fills), loc="upper right", fontsize=10, bbox_to_anchor=(0.99, 0.94))
    return figure


def _draw_edges(panel: Axes, graph: nx.DiGraph, where: dict[int, npt.NDArray[np.float64]]) -> None:
    """Next hops above links."""
    styles = {
        "none": {"edge_color": GREY, "style": "dotted", "width": 1.0, "arrows": True, "arrowstyle": "-"},
        "down": {"edge_color": GREY, "width": 1.0, "arrowstyle": "-|>"},
        "hop": {"edge_color": "black", "width": 2.6, "arrowstyle": "-|>"},
        "stale": {"edge_color": "red", "style": "dashed", "width": 2.6, "arrowstyle": "-|>"},
    }
    for kind, style in styles.items():
        edges = [(a, b) for a, b, its in graph.edges(data="kind") if its == kind]
        if edges:
            bend = "arc3,rad=0.07" if kind in ("hop", "stale") else "arc3"
            nx.draw_networkx_edges(graph, where, edgelist=edges, ax=panel, node_size=900, arrowsize=16, connectionstyle=bend, **style)


def _draw_nodes(panel: Axes, graph: nx.DiGraph, where: dict[int, npt.NDArray[np.float64]], destination: int, fills: dict[Level, str]) -> None:
    """Nodes in the colours of their levels, the destination with a thick rim, each with its delta."""
    held = dict(graph.nodes(data="height"))
    colours = [NO_HEIGHT if held[node] is None else fills[held[node][:3]] for node in graph]
    rims = [3.0 if node == destination else 1.0 for node in graph]
    nx.draw_networkx_nodes(graph, where, ax=panel, node_size=900, node_color=colours, edgecolors="black", linewidths=rims)
    labels = {node: f"{node}\n{'NULL' if height is None else height[3]}" for node, height in held.items()}
    nx.draw_networkx_labels(graph, where, labels, ax=panel, font_size=9)


def _legend(levels: Sequence[Level], fills: dict[Level, str]) -> list[Patch | Line2D]:
    """What colours and lines are."""
    nodes = [Patch(facecolor=fills[level], edgecolor="black", label=f"level {level}") for level in levels]
    return [
        Patch(facecolor="none", edgecolor="none", label="node / delta"),
        Patch(facecolor="none", edgecolor="black", linewidth=3, label="thick rim: the destination"),
        *nodes,
        Patch(facecolor=NO_HEIGHT, edgecolor="black", label="no height"),
        Line2D([], [], color="black", linewidth=2.6, marker=">", label="next hop"),
        Line2D([], [], color="red", linestyle="dashed", linewidth=2.6, marker=">", label="next hop, link parted"),
        Line2D([], [], color=GREY, marker=">", label="from higher to lower"),
        Line2D([], [], color=GREY, linestyle="dotted", label="an end without height"),
    ]
