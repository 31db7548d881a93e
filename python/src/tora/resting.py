"""When a network came to rest: the last control packets after the last change, and the state then.

For a destination the last change is the last record that parts or mends a link, or the last need of the destination,
whichever comes later. Control packets are QRY, UPD and CLR of the destination that were broadcast after it.

A destination is known to be at rest where, at the end of the run, nothing has happened for as long as something unseen
may be under way: no link was parted, mended, stepped up or down, nothing was asked for, no control packet of the
destination was broadcast, no height or next hop of it changed, and no DATA frame was sent, for `silence + HELLO +
retry` ticks and the greatest delay of the channel. A packet that is not acknowledged is sent again after `retry` ticks;
a link end notices a parted link after `silence` ticks. Where the program was asked, by a line `rest` at the end of the
simulation file, its answer counts in the place of this. Where a destination is not known to be at rest, the control
packets are those until the end of the run, and no time is given.
"""
from __future__ import annotations

from typing import TYPE_CHECKING, Any

import numpy as np
import numpy.typing as npt
import pandas as pd

from tora.records import CODES
from tora.route_measures import NO_HOP, STALE, follow, live_loops
from tora.trace import Trace
from tora.world import World, distances

if TYPE_CHECKING:
    from tora.scenario import Scenario

CONTROL = ("qry", "upd", "clr")
NAMES = {"qry": "query", "upd": "update", "clr": "clear"}
COLUMNS = ("at_rest", "rest_ticks", "control_after_change", "loops_at_rest", "dead_ends_at_rest")
Numbers = npt.NDArray[np.int64]


def quiet_ticks(scenario: Scenario, trace: Trace) -> int:
    """For how many ticks an event without a record may be pending."""
    hello, silence, retry, _ = scenario.times or (10, 50, 5, 8)
    return silence + hello + retry + (0 if trace.header is None else trace.header.delay_most)


def rest_table(scenario: Scenario, trace: Trace, world: World, at_rest: bool | None = None) -> pd.DataFrame:
    """A row for each destination of a run; `world` is that at its end. See `tora.metrics.time_to_rest`."""
    topology = topology_changes(scenario, trace)
    frames = trace.places("frames")
    busy = np.concatenate([topology, trace.places("up", "down"), frames[trace.columns["frames"][1] > 0]])
    rows = [_row(scenario, trace, world, destination, topology, busy, at_rest) for destination in scenario.destinations]
    return pd.DataFrame(rows).astype(
        {"last_control": "Int64", "rest_ticks": "Int64", "loops_at_rest": "Int64", "dead_ends_at_rest": "Int64"}
    )


def topology_changes(scenario: Scenario, trace: Trace) -> Numbers:
    """The places in the trace of the records that part a link that is not parted, or mend one that is."""
    places, codes = trace.places("part", "mend"), trace.kinds[trace.places("part", "mend")]
    mends = dict(zip(places.tolist(), (codes == CODES["mend"]).tolist()))
    pairs = np.zeros((2, len(places)), np.int64)
    for kind in ("part", "mend"):
        pairs[:, np.isin(places, trace.places(kind))] = np.sort(trace.columns[kind], axis=0)
    up = dict.fromkeys(scenario.links, True)
    found = []
    for place, link in zip(places.tolist(), zip(*pairs.tolist())):
        if up[link] != mends[place]:
            up[link] = mends[place]
            found.append(place)
    return np.array(found, np.int64)


def row_of(table: pd.DataFrame) -> dict[str, Any]:
    """The columns of a run: the longest time to rest of its destinations, and the sums of what was counted.

    Where a destination is not known to be at rest, the time and the state at rest are missing.
    """
    row: dict[str, Any] = dict.fromkeys(COLUMNS)
    at_rest = bool(table["is_at_rest"].all())
    row.update(at_rest=int(at_rest), control_after_change=int(table["control_after_change"].sum()))
    if at_rest:
        row.update(rest_ticks=int(table["rest_ticks"].max()), loops_at_rest=int(table["loops_at_rest"].sum()),
                   dead_ends_at_rest=int(table["dead_ends_at_rest"].sum()))
    return row


def _row(
    scenario: Scenario, trace: Trace, world: World, destination: int, topology: Numbers, busy: Numbers,
    told: bool | None = None,
) -> dict[str, Any]:
    """The row of a destination; the program's own report of rest counts."""
    needs = trace.places("need")[trace.columns["need"][1] == destination]
    change = int(max(topology.max(initial=-1), needs.max(initial=-1)))
    changed = int(trace.clocks[change]) if change >= 0 else 0
    sent = {kind: trace.places(kind)[trace.columns[kind][1] == destination] for kind in CONTROL}
    after = {kind: places[places > change] for kind, places in sent.items()}
    control = np.concatenate(list(after.values()))
    last = int(trace.clocks[control.max()]) if len(control) else None
    routes = trace.places("route")[trace.columns["route"][1] == destination]
    latest = int(max(it.max(initial=-1) for it in (busy, needs, routes, *sent.values())))
    quiet = scenario.rounds - (int(trace.clocks[latest]) if latest >= 0 else 0)
    at_rest = quiet >= quiet_ticks(scenario, trace) if told is None else told
    loops, dead_ends = _loops_and_dead_ends(scenario, world, destination)
    return {
        "destination": destination, "last_change": changed, "last_control": last,
        "rest_ticks": (last - changed if last is not None else 0) if at_rest else None,
        "control_after_change": len(control),
        **{f"{NAMES[kind]}_after_change": len(places) for kind, places in after.items()},
        "loops_at_rest": loops if at_rest else None, "dead_ends_at_rest": dead_ends if at_rest else None,
        "is_at_rest": at_rest,
    }


def _loops_and_dead_ends(scenario: Scenario, world: World, destination: int) -> tuple[int, int]:
    """How many loops of next hops there are, and how many dead ends.

    A dead end is a node at which the route of a flow ends though there is a path to the destination.
    """
    hops, far = world.hops[destination], distances(world.near, destination)
    ends = set()
    for source in [source for source, to in scenario.flows if to == destination and source in far]:
        status, _, walk = follow(hops, world.near, source, destination)
        if status in (NO_HOP, STALE):
            ends.add(walk[-1])
    return len(live_loops(hops, world.near, world.nodes)), len(ends)
