"""Models of motion: each makes a way of every node, by its published definition, which `docs/studies/reference.md` cites.

A model is a function of the parameters and a source of random numbers; it gives the ways of all nodes from 0 seconds
(or earlier) to the end. Parameters are named as in the papers.
"""
from __future__ import annotations

import dataclasses
import math
import random
from collections.abc import Callable, Mapping
from typing import Any

from tora.streets import manhattan_ways
from tora.ways import Way

LONG = 10_000  # times that a side is longer than the other from which on a rectangle is nearly a line


@dataclasses.dataclass(frozen=True)
class Motion:
    """The parameters of a model.

    Attributes
    ----------
    nodes : int
    width, height : float
        Of the area, in metres.
    speeds : tuple of float
        The least and the greatest speed, in metres a second.
    pause : float
        Most seconds at a way point.
    settle : float
        Seconds of motion before 0.
    until : float
        Seconds at which the motion ends.
    own : mapping
        The parameters that are the model's own, as `OWN` has them.
    """

    nodes: int
    width: float
    height: float
    speeds: tuple[float, float]
    pause: float
    settle: float
    until: float
    own: Mapping[str, Any]


Model = Callable[[Motion, random.Random], list[Way]]


def waypoint(motion: Motion, source: random.Random) -> list[Way]:
    """Random waypoint that begins `settle` seconds before 0, by when speeds have nearly settled."""
    ways = []
    for _ in range(motion.nodes):
        time, x, y = -motion.settle, source.uniform(0, motion.width), source.uniform(0, motion.height)
        way: Way = [(time, x, y)]
        _extend(way, motion, source)
        ways.append(way)
    return ways


def waypoint_steady(motion: Motion, source: random.Random) -> list[Way]:
    """Random waypoint in its steady state from 0 seconds on (Navidi and Camp 2004), so that speeds do not decay."""
    ways = []
    for _ in range(motion.nodes):
        way = _steady_begin(motion, source)
        _extend(way, motion, source)
        ways.append(way)
    return ways


def gauss_markov(motion: Motion, source: random.Random) -> list[Way]:
    """Gauss-Markov: speed and direction of each interval are drawn around those of the interval before and the means.

    With a of `alpha`: new = a old + (1 - a) mean + root(1 - a^2) w, w normal with mean 0. Speeds are kept within the
    least and the greatest one. A node within a tenth of a side of an edge has the mean direction away from it (Camp,
    Boleng and Davies 2002); one that would leave is put on the edge, and its direction is turned back as from a wall.
    """
    return [_gauss_markov_way(motion, source) for _ in range(motion.nodes)]


def manhattan(motion: Motion, source: random.Random) -> list[Way]:
    """Nodes that drive on streets: a new speed in each second, and a turn at each crossing (`tora.streets`)."""
    own = motion.own
    return manhattan_ways(
        motion.nodes, motion.width, motion.height, motion.speeds, motion.until, own["blocks"], own["acceleration"],
        own["safety_distance"], source
    )


MODELS: dict[str, Model] = {
    "waypoint": waypoint, "waypoint-steady": waypoint_steady, "gauss-markov": gauss_markov, "manhattan": manhattan
}

# The parameters that are a model's own, with what they are where they are not told; None stands for the middle of the
# speeds.
OWN: dict[str, dict[str, float | int | None]] = {
    "gauss-markov": {
        "alpha": 0.75, "mean_speed": None, "speed_deviation": 0.5, "direction_deviation": 0.5, "interval": 1.0
    },
    "manhattan": {"blocks": 5, "acceleration": 0.5, "safety_distance": 5.0},
}


def mean_length(width: float, height: float) -> float:
    """The mean distance of two places in a rectangle, in metres; of one that is nearly a line, a third of it."""
    a, b, diagonal = width, height, math.hypot(width, height)
    if max(a, b) > LONG * min(a, b):  # the terms below cancel each other
        return max(a, b) / 3
    ends = a**3 / b**2 + b**3 / a**2 + diagonal * (3 - a**2 / b**2 - b**2 / a**2)
    return (ends + 5 / 2 * (b**2 / a * math.log((a + diagonal) / b) + a**2 / b * math.log((b + diagonal) / a))) / 15


def way_points(model: str, motion: Motion) -> float:
    """About how many way points a model makes of all nodes."""
    own, (least, most) = motion.own, motion.speeds
    seconds, mean = motion.until, (least + most) / 2
    if model == "gauss-markov":
        return float(motion.nodes * seconds / own["interval"])
    if model == "manhattan":
        return float(motion.nodes * seconds * (1 + mean * own["blocks"] / min(motion.width, motion.height)))
    seconds += motion.settle if model == "waypoint" else 0
    leg = mean_length(motion.width, motion.height) * _slowness_of(least, most) + motion.pause / 2
    return motion.nodes * (2 if motion.pause else 1) * seconds / leg


def _extend(way: Way, motion: Motion, source: random.Random) -> None:
    """Carries a way of random waypoint on from its last point to the end: a leg, a pause, a leg .."""
    time, x, y = way[-1]
    while time <= motion.until:
        to_x, to_y = source.uniform(0, motion.width), source.uniform(0, motion.height)
        speed = source.uniform(*motion.speeds)
        time, x, y = time + math.hypot(to_x - x, to_y - y) / speed, to_x, to_y
        way.append((time, x, y))
        rest = source.uniform(0, motion.pause) if motion.pause else 0
        if rest:
            time += rest
            way.append((time, x, y))


def _steady_begin(motion: Motion, source: random.Random) -> Way:
    """The first points of a way in the steady state: the rest of a pause, or of a leg.

    A node is in a pause with the share that pauses have of the time of a leg and a pause, both in the mean. The rest of
    a uniform pause to P has the density 2 (P - t) / P^2. A leg's two ends are drawn with a density that rises with its
    length (taken with that share of the diagonal), the node is anywhere on it, and its speed has a density that falls
    with 1/speed.
    """
    least, most = motion.speeds
    diagonal = math.hypot(motion.width, motion.height)
    leg = mean_length(motion.width, motion.height) * _slowness_of(least, most)
    if source.random() < motion.pause / 2 / (motion.pause / 2 + leg):
        rest_x, rest_y = source.uniform(0, motion.width), source.uniform(0, motion.height)
        return [(0.0, rest_x, rest_y), (motion.pause * (1 - math.sqrt(source.random())), rest_x, rest_y)]
    while True:
        x, to_x = (source.uniform(0, motion.width) for _ in range(2))
        y, to_y = (source.uniform(0, motion.height) for _ in range(2))
        length = math.hypot(to_x - x, to_y - y)
        if source.random() < length / diagonal:
            break
    speed, part = least * (most / least) ** source.random(), source.random()
    ends = (1 - part) * length / speed
    way = [(0.0, x + part * (to_x - x), y + part * (to_y - y)), (ends, to_x, to_y)]
    return way + [(ends + source.uniform(0, motion.pause), to_x, to_y)] if motion.pause else way


def _gauss_markov_way(motion: Motion, source: random.Random) -> Way:
    """The way of one node of `gauss_markov`."""
    own = motion.own
    x, y = source.uniform(0, motion.width), source.uniform(0, motion.height)
    speed, mean = own["mean_speed"], source.uniform(-math.pi, math.pi)
    direction, time, way = mean, 0.0, [(0.0, x, y)]
    while time <= motion.until:
        inward = _direction_inward(x, y, motion.width, motion.height)
        toward = mean if inward is None else inward
        toward = direction + math.remainder(toward - direction, 2 * math.pi)  # the way round that is shorter
        speed = _drawn(speed, own["mean_speed"], own["speed_deviation"], own["alpha"], source)
        speed = min(max(speed, motion.speeds[0]), motion.speeds[1])
        direction = _drawn(direction, toward, own["direction_deviation"], own["alpha"], source)
        x, turned = _bounced(x + speed * own["interval"] * math.cos(direction), motion.width)
        direction = math.pi - direction if turned else direction
        y, turned = _bounced(y + speed * own["interval"] * math.sin(direction), motion.height)
        direction = -direction if turned else direction
        time += own["interval"]
        way.append((time, x, y))
    return way


def _drawn(before: float, mean: float, deviation: float, alpha: float, source: random.Random) -> float:
    """The next value of a Gauss-Markov process."""
    return alpha * before + (1 - alpha) * mean + math.sqrt(1 - alpha * alpha) * source.gauss(0, deviation)


def _direction_inward(x: float, y: float, width: float, height: float) -> float | None:
    """The direction away from the edges that are nearer than a tenth of a side, or None."""
    right = (x < width / 10) - (x > width * 9 / 10)
    up = (y < height / 10) - (y > height * 9 / 10)
    return math.atan2(up, right) if right or up else None


def _bounced(place: float, side: float) -> tuple[float, bool]:
    """A coordinate within the area, and whether it was outside."""
    return min(max(place, 0.0), side), not 0 <= place <= side


def _slowness_of(least: float, most: float) -> float:
    """The mean of 1/speed of a speed between two."""
    return math.log(most / least) / (most - least) if most > least else 1 / least
