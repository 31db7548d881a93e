"""Measures of a run: how its routes fare, loops, overhead, data packets, and the time to rest."""
from __future__ import annotations

import dataclasses
from typing import TYPE_CHECKING, Any

import pandas as pd

from tora import delivery, parameters, resting, route_measures
from tora.delivery import Load, Traffic
from tora.errors import StudyError
from tora.reading import without_collection
from tora.route_measures import Loop, Routes
from tora.trace import Trace
from tora.world import World, spans

if TYPE_CHECKING:
    from tora.scenario import Scenario

__all__ = ["Load", "Measures", "columns", "loop_table", "measure", "row_text", "time_to_rest"]

BROADCASTS = {"qry": "query", "upd": "update", "clr": "clear"}
DATAGRAMS = ("hello", "data", "acknowledgement", "undelivered")
TIMES = ("hello_ticks", "silence_ticks", "retry_ticks", "tries")
CHANNEL = ("loss", "delay_least", "delay_most", "repeat", "channel_seed", "notice")  # of the header of a trace
MORE = ("until", "channel_file")  # likewise
ERASURE = ("erasure",)  # likewise
COLUMNS = (
    "nodes", "seed", "rounds", *TIMES, "destinations", "flows", "links_met", "links_declared", "most_met",
    "contact_kept", "left_out",
    "breaks", "degree_mean", *route_measures.COLUMNS, "query", "update", "clear", "query_copies", "update_copies",
    "clear_copies",
    *DATAGRAMS, "links_up", "links_down",
)


@dataclasses.dataclass(frozen=True)
class Measures:
    """What was measured of a run.

    Attributes
    ----------
    row : dict
        By column its value, None where nothing of the kind happened or a parameter has no meaning.
    loops : DataFrame
        A row for each loop of next hops over links that are not parted: `destination`, `ring` (tuple of nodes, the
        lowest first), `start` (the round in which it was first seen), `rounds` (for how many it stood),
        `without_height` (bool: a node of it has had no height).
    rest : DataFrame
        A row for each destination; see `time_to_rest`.
    """

    row: dict[str, Any]
    loops: pd.DataFrame
    rest: pd.DataFrame


def columns(traffic: bool = False) -> list[str]:
    """The names of the columns of a row, with or without those of data packets."""
    return [*COLUMNS, *parameters.COLUMNS, *CHANNEL, *MORE, *(delivery.COLUMNS if traffic else ()), *resting.COLUMNS, *ERASURE]


def measure(scenario: Scenario, trace: Trace, load: Load | None = None, version: str = "") -> Measures:
    """Measures a run.

    Parameters
    ----------
    scenario : Scenario
    trace : Trace
        Of the scenario; another one is refused.
    load : Load, optional
        Data packets that the flows send.
    version : str
        What the program calls itself, for the row.

    Raises
    ------
    StudyError
        As `Trace.check`.
    """
    scenario = trace.check(scenario)
    with without_collection():
        routes, packets, linked, world = _passed(scenario, trace, load)
    rest = resting.rest_table(scenario, trace, world)
    row: dict[str, Any] = dict.fromkeys(columns(load is not None))
    row |= _scenario_cells(scenario) | {"degree_mean": round(linked / scenario.nodes / scenario.rounds, 3)}
    row |= routes.columns() | overhead(trace) | parameters.cells(scenario, version) | _header_cells(trace)
    if packets is not None:
        row |= packets.columns(*control_of(trace))
    row |= resting.row_of(rest)
    return Measures(row, loop_table(routes.loops.all), rest)


def overhead(trace: Trace) -> dict[str, int]:
    """Broadcasts and their copies by kind, datagrams, and how often cores stepped a link up or down."""
    row = {name: int(trace.columns[kind].shape[1]) for kind, name in BROADCASTS.items()}
    row |= {f"{name}_copies": int(trace.columns[kind][2].sum()) for kind, name in BROADCASTS.items()}
    row |= dict(zip(DATAGRAMS, map(int, trace.columns["frames"].sum(axis=1))))
    return row | {f"links_{kind}": int(trace.columns[kind].shape[1]) for kind in ("up", "down")}


def control_of(trace: Trace) -> tuple[int, int]:
    """Control packets that were broadcast, and their copies."""
    row = overhead(trace)
    return sum(row[name] for name in BROADCASTS.values()), sum(row[f"{name}_copies"] for name in BROADCASTS.values())


def time_to_rest(scenario: Scenario, trace: Trace, at_rest: bool | None = None) -> pd.DataFrame:
    """When the control packets of each destination ended; `tora.resting` has the definitions.

    Parameters
    ----------
    scenario : Scenario
    trace : Trace
    at_rest : bool, optional
        What the program has answered to a line ``rest`` at the end; without it the trace is looked at.

    Returns
    -------
    DataFrame
        A row for each destination. `destination` (int64); `last_change` (int64): the tick of the last change of
        topology or need, 0 where there is none; `last_control` (Int64): the tick of the last control packet after it,
        missing where there is none; `rest_ticks` (Int64): from the one to the other, 0 where there is none;
        `control_after_change`, `query_after_change`, `update_after_change`, `clear_after_change` (int64): broadcasts
        after the last change; `loops_at_rest`, `dead_ends_at_rest` (Int64): loops of next hops, and nodes at which
        routes of flows end though there is a path; `is_at_rest` (bool): whether the destination is known to be at rest.
        If it is not, `rest_ticks` and the state at rest are missing.
    """
    scenario = trace.check(scenario)
    world = None
    for _, _, world in spans(scenario, trace):
        pass
    if world is None:
        raise StudyError("the run has no round", file=trace.path)
    return resting.rest_table(scenario, trace, world, at_rest)


def loop_table(loops: list[Loop]) -> pd.DataFrame:
    """Loops as a table, in the order in which they were first seen."""
    names = ("destination", "ring", "start", "rounds", "without_height")
    return pd.DataFrame({name: [getattr(loop, name) for loop in loops] for name in names}, columns=names)


def loop_lines(loops: pd.DataFrame) -> list[str]:
    """One line for each loop of a table."""
    lines = []
    for loop in loops.itertuples():
        ring = ",".join(map(str, loop.ring))
        some = "a node of it has no height" if loop.without_height else "all have heights"
        lines.append(
            f"destination {loop.destination} loop {ring} from round {loop.start} for {loop.rounds} rounds, {some}"
        )
    return lines


def row_text(row: dict[str, Any], names: list[str]) -> str:
    """A row as a line of CSV, without its end; what is missing is empty."""
    return ",".join("" if row[name] is None else str(row[name]) for name in names)


def _passed(scenario: Scenario, trace: Trace, load: Load | None) -> tuple[Routes, Traffic | None, int, World]:
    """One pass over the rounds of a run.

    Answers routes, data packets, the ends of links not parted over all rounds, and the world at the end.
    """
    routes, packets, linked = Routes(scenario), Traffic(scenario.flows, load) if load else None, 0
    world = World(scenario, trace)
    for first, last, world in spans(scenario, trace):
        linked += 2 * len(world.links) * (last - first + 1)
        routes.take(first, last, world)
        if packets:
            packets.run(first, last, world)
    routes.end(scenario.rounds)
    return routes, packets, linked, world


def _scenario_cells(scenario: Scenario) -> dict[str, Any]:
    """The columns that come from the scenario."""
    row: dict[str, Any] = {
        name: getattr(scenario, name) for name in ("nodes", "seed", "rounds", "links_met", "most_met", "breaks")
    }
    row |= dict(zip(TIMES, scenario.times))
    row |= {
        "destinations": len(scenario.destinations), "flows": len(scenario.flows), "links_declared": len(scenario.links)
    }
    return row | {"contact_kept": round(scenario.contact_kept, 4), "left_out": len(scenario.left_out)}


def _header_cells(trace: Trace) -> dict[str, Any]:
    """The columns that come from the header of the trace."""
    return {name: None if trace.header is None else getattr(trace.header, name) for name in CHANNEL + MORE + ERASURE}
