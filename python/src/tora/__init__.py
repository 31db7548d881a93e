"""Studies of TORA, a routing protocol for ad hoc networks: scenarios, traces, measures and checks; and in `tora.routes`
the routes of a host.

A round is a tick of 100 ms. Nodes are whole numbers from 1.

>>> import tora
>>> run = tora.Scenario.waypoint(nodes=20, speed=(1, 10), seed=2).run(loss=0.1)   # doctest: +SKIP
>>> run.routes()                                                                  # doctest: +SKIP
"""
from __future__ import annotations

import importlib
from typing import TYPE_CHECKING, Any

from tora.errors import StudyError, UsageError

if TYPE_CHECKING:
    from tora.core import Core
    from tora.driven import World
    from tora.router import Router
    from tora.run import Run
    from tora.scenario import Scenario
    from tora.trace import Trace

__all__ = ["Core", "Router", "Run", "Scenario", "StudyError", "Trace", "UsageError", "World"]
__version__ = "1.0.0.dev0"

MODULES = {
    "Core": "tora.core", "Router": "tora.router", "Run": "tora.run", "Scenario": "tora.scenario", "Trace": "tora.trace",
    "World": "tora.driven",
}


def __getattr__(name: str) -> Any:
    """A class of a study, read when it is first named: `tora.routes` runs without numpy and pandas."""
    if name not in MODULES:
        raise AttributeError(f"module `{__name__}` has no attribute `{name}`")
    return getattr(importlib.import_module(MODULES[name]), name)
