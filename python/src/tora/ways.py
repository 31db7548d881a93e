"""Ways of nodes: lists of way points (seconds, x, y in metres).

Between them a node moves on the line; it rests before and after them.
"""
from __future__ import annotations

import bisect
import operator

import numpy as np
import numpy.typing as npt

Point = tuple[float, float, float]
Way = list[Point]
Floats = npt.NDArray[np.float64]
TIME_OF = operator.itemgetter(0)
FAR = 1e7  # metres
# metres up to which another hundredth of a metre is nearer to none of the places up to FAR, whatever is rounded
SURE = 0.004_999_99


def position(way: Way, time: float) -> tuple[float, float]:
    """The place on a way at a time, in metres."""
    if time <= way[0][0]:
        return way[0][1:]
    if time >= way[-1][0]:
        return way[-1][1:]
    high = len(way) - 1 if way[-2][0] <= time else bisect.bisect_right(way, time, key=TIME_OF)
    (began, x, y), (ends, to_x, to_y) = way[high - 1], way[high]
    part = (time - began) / (ends - began) if ends > began else 1
    return x + part * (to_x - x), y + part * (to_y - y)


def positions(way: Way, times: Floats) -> Floats:
    """The places on a way at times, rounded to centimetres.

    Parameters
    ----------
    way : list of (seconds, x, y)
        With times that rise.
    times : array of float, shape (samples,)
        Seconds.

    Returns
    -------
    array of float, shape (samples, 2)
        Metres. They are those of `position`, rounded by `round`.
    """
    points = np.asarray(way, np.float64)
    high = np.searchsorted(points[:, 0], times, side="right")
    inside = (high > 0) & (high < len(points)) & (times > points[0, 0])
    places = points[np.clip(high - 1, 0, None), 1:]
    low, up, time = points[high[inside] - 1], points[high[inside]], times[inside]
    part = (time - low[:, 0]) / (up[:, 0] - low[:, 0])
    places[inside] = low[:, 1:] + part[:, None] * (up[:, 1:] - low[:, 1:])
    return rounded(places)


def rounded(values: Floats) -> Floats:
    """Values rounded to hundredths as `round(value, 2)` rounds them."""
    with np.errstate(over="ignore", invalid="ignore"):
        found: Floats = np.floor(100 * values + 0.5) / 100
        sure = (values > 0) & (values < FAR) & (found > 0) & (np.abs(values - found) < SURE)
    found[~sure] = [round(value, 2) for value in values[~sure].tolist()]
    return found
