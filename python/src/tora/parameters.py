"""The columns of a row that describe the design of a run, in order.

A cell is empty where a parameter has no meaning: of a movement file no speed is known, and each model of motion has
parameters of its own.
"""
from __future__ import annotations

from typing import TYPE_CHECKING, Any

if TYPE_CHECKING:
    from tora.scenario import Scenario

COLUMNS = (
    "model", "speed_least", "speed_most", "pause", "width", "height", "range", "degree", "limit", "sample",
    "need_rounds", "settle",
    "alpha", "mean_speed", "speed_deviation", "direction_deviation", "interval", "blocks", "acceleration",
    "safety_distance",
    "edge_loss", "version",
)
TEXTS = ("model", "version", "channel_file")  # columns whose cells are words, not numbers


def cells(scenario: Scenario, version: str) -> dict[str, Any]:
    """The columns of a scenario; the version is that of the program, or empty."""
    row = {name: scenario.parameters.get(name) for name in COLUMNS}
    return row | {
        "range": scenario.range, "limit": scenario.limit, "sample": scenario.sample, "version": version or None
    }
