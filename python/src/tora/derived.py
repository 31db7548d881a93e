"""Figures of a run that are worked out from its columns; a table has them where its columns allow it."""
from __future__ import annotations

from collections.abc import Callable

import pandas as pd

from tora.table import Table

Rule = Callable[..., pd.Series]


def _share_that_fails(available: pd.Series) -> pd.Series:
    """Of the rounds and flows with a path, the share in which the route does not work."""
    return (1 - available).round(4)


def _total(*counts: pd.Series) -> pd.Series:
    """The sum of counts."""
    return pd.Series(sum(counts[1:], counts[0]))


def _by_node(query: pd.Series, update: pd.Series, clear: pd.Series, nodes: pd.Series) -> pd.Series:
    """Control packets that are broadcast, by nodes."""
    return pd.Series((query + update + clear) / nodes.astype(float))


def _lost_by_outage(available: pd.Series, connected: pd.Series, rounds: pd.Series, flows: pd.Series, outages: pd.Series) -> pd.Series:
    """Rounds and flows with a path whose route does not work, those before a first route too, by outages; none without an outage."""
    lost = (1 - available) * connected * rounds.astype(float) * flows.astype(float)
    return pd.Series(lost / outages.where(outages > 0))


DERIVED: dict[str, tuple[tuple[str, ...], Rule]] = {
    "unavailable": (("available",), _share_that_fails),
    "control": (("query", "update", "clear"), _total),
    "control_per_node": (("query", "update", "clear", "nodes"), _by_node),
    "rounds_lost_by_outage": (("available", "connected", "rounds", "flows", "outages"), _lost_by_outage),
    "datagrams": (("hello", "data", "acknowledgement"), _total),
}


def with_derived(table: Table) -> Table:
    """The table with the figures that its columns allow; a cell is empty where one that it takes is."""
    frame = table.frame.copy()
    for name, (parts, rule) in DERIVED.items():
        if name not in frame.columns and set(parts).issubset(frame.columns):
            frame[name] = rule(*(frame[part] for part in parts))
    return Table(table.path, frame, table.design)
