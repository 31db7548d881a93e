"""The page that plays a run: one HTML file for any browser, with its script and its data inside; it loads nothing.

Nodes are where the scenario has them; those of a run without motion are placed by force, or by hand.
"""
from __future__ import annotations

import html
from importlib import resources

import numpy as np

from tora.errors import StudyError, UsageError
from tora.files import Path
from tora.page.coding import MOST_ROUNDS, Page, page_data, read_page
from tora.page.places import Places, places_by_force, places_by_hand
from tora.scenario import Scenario
from tora.trace import Trace

__all__ = ["Page", "page_text", "places_by_force", "places_by_hand", "read_page"]

SCRIPTS = [f"{name}.js" for name in "data world routes summary entries stage marks strip legend ask time main".split()]


def page_text(title: str, scenario: Scenario, trace: Trace, place: Path | None = None) -> str:
    """The text of the page of a run.

    Parameters
    ----------
    title : str
    scenario : Scenario
        With motion, or without (`Scenario.from_simulation`, `Scenario.from_trace`).
    trace : Trace
        Of the scenario; another one is refused.
    place : path, optional
        Places of the nodes of a scenario without motion, a line ``NODE X Y`` for each.
    """
    if not len(trace):
        raise StudyError("the trace is empty", file=trace.path, line=1)
    scenario = trace.check(scenario)
    if scenario.rounds > MOST_ROUNDS:
        raise StudyError(f"{scenario.rounds} rounds are too many for a page, which has at most {MOST_ROUNDS}", file=trace.path)
    late = np.flatnonzero(trace.clocks > scenario.rounds)
    if len(late):
        line = int(late[0]) + trace.first_line
        raise StudyError(f"round {int(trace.clocks[late[0]])} of a run of {scenario.rounds} rounds", file=trace.path, line=line)
    run, data = page_data(title, scenario, _places(scenario, place), trace.records())
    parts = {"TITLE": html.escape(title, quote=False), "STYLE": _part("page.css"), "SCRIPT": "".join(map(_part, SCRIPTS)), "RUN": run, "TRACE": data}
    pieces = _part("page.html").split("@@")
    return "".join(parts[piece] if at % 2 else piece for at, piece in enumerate(pieces))


def _places(scenario: Scenario, place: Path | None) -> Places:
    """The places of the nodes that have links, for each sample."""
    nodes = list(scenario.linked)
    if len(scenario.positions):
        if place is not None:
            raise UsageError("--place is for runs without motion")
        return scenario.positions[:, [node - 1 for node in nodes], :]
    found = places_by_force(nodes, scenario.links) if place is None else places_by_hand(place, nodes)
    return found[None, :, :]


def _part(name: str) -> str:
    """The text of a part of the page."""
    return resources.files("tora.page").joinpath("files", name).read_text(encoding="utf-8")
