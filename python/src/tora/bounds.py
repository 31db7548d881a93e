"""Bounds of the values of a scenario and a simulation; an error names the bound."""
from __future__ import annotations

import numbers
from typing import Any

from tora.errors import UsageError, shown

TICKS_A_SECOND = 10  # a tick is a round, 100 ms
TICK = 1 / TICKS_A_SECOND  # seconds
MOST_TICKS = 2**64 - 1  # of the clock of `tora sim`, and of a time of its link ends; no number of a line is greater
MOST_SECONDS = MOST_TICKS // TICKS_A_SECOND
MOST_ID = 2**32 - 1  # of a node
MOST_METRES = 10_000_000  # of a place from the origin, and of a speed in a second
LEAST_METRES = 0.01  # of a side and of the range: places are rounded to that
LEAST_SPEED = 0.000_001  # metres a second
MOST_DEGREE = 1_000_000
MOST_NODES, GREATEST_NODES = 64, 1024  # of a simulation, and of a large one
MOST_NEIGHBOURS, GREATEST_NEIGHBOURS = 32, 255  # likewise
MOST_DESTINATIONS = 64
MOST_SAMPLE = 10_000
MOST_ROUNDS = 2**53  # of a run that is measured

# By parameter of a model of motion the least and the most; whether it is whole stands in WHOLE.
OF_MODELS: dict[str, tuple[float, float]] = {
    "pause": (0, MOST_SECONDS), "settle": (0, MOST_SECONDS), "degree": (1 / MOST_DEGREE, MOST_DEGREE), "alpha": (0, 1),
    "mean_speed": (0, MOST_METRES), "speed_deviation": (0, MOST_METRES), "direction_deviation": (0, 1000),
    "interval": (0.1, 1000),
    "blocks": (1, 1000), "acceleration": (0, MOST_METRES), "safety_distance": (0, MOST_METRES), "edge_loss": (0, 1),
}
WHOLE = ("blocks",)


def check_whole(name: str, value: Any, least: int, most: int) -> int:
    """A whole number within bounds, numpy's too; any other value is a `UsageError` that names it."""
    if isinstance(value, bool) or not isinstance(value, numbers.Integral):
        raise UsageError(f"{shown(str(value))} is not a whole number from {least} to {most}", key=name)
    if not least <= int(value) <= most:
        raise UsageError(f"{shown(str(value))} is not {least} to {most}", key=name)
    return int(value)


def check_number(name: str, value: Any, least: float, most: float) -> float:
    """A number within bounds, numpy's too, as a float; any other value is a `UsageError` that names it."""
    is_number = isinstance(value, numbers.Real) and not isinstance(value, bool)
    if not is_number or not least <= value <= most:
        raise UsageError(f"{shown(str(value))} is not a number from {least} to {most}", key=name)
    return float(value)


def check_parameter(name: str, value: Any) -> float:
    """A parameter of a model of motion within its bounds."""
    least, most = OF_MODELS[name]
    return check_whole(name, value, int(least), int(most)) if name in WHOLE else check_number(name, value, least, most)
