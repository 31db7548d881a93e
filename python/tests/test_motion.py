"""Properties of the models of motion that follow from their definitions."""
from __future__ import annotations

import dataclasses
import math
import random
from typing import Any

import numpy as np
import pytest

from tora.motion import MODELS, OWN, Motion, mean_length, way_points, waypoint, waypoint_steady
from tora.streets import Driver, Streets, choose_speeds
from tora.ways import Way, position, positions, rounded

WIDTH, HEIGHT, UNTIL = 600.0, 400.0, 300.0
PARAMETERS: dict[str, dict[str, Any]] = {
    "gauss-markov": {
        "alpha": 0.75, "mean_speed": 8.0, "speed_deviation": 2.0, "direction_deviation": 0.5, "interval": 1.0
    },
    "manhattan": {"blocks": 4, "acceleration": 2.0, "safety_distance": 20.0},
}


def motion_of(model: str, **more: Any) -> Motion:
    """What a model is told in these tests, but for what is told here."""
    told = {
        "nodes": 40, "width": WIDTH, "height": HEIGHT, "speeds": (2.0, 15.0), "pause": 5.0, "settle": 100.0,
        "until": UNTIL
    }
    return Motion(**({"own": PARAMETERS.get(model, {})} | told | more))


def mean_speed(ways: list[Way], time: float) -> float:
    """The mean speed of the nodes at a time."""
    return sum(math.dist(position(way, time), position(way, time + 0.01)) for way in ways) / 0.01 / len(ways)


@pytest.fixture(params=list(MODELS))
def model(request: pytest.FixtureRequest) -> str:
    """Each model in turn."""
    return str(request.param)


@pytest.fixture
def ways(model: str) -> list[Way]:
    """Its ways."""
    return MODELS[model](motion_of(model), random.Random(7))


def test_area_and_time(ways: list[Way]) -> None:
    """Nodes stay in the area, ways have 40 nodes, and times rise up to the end."""
    assert len(ways) == 40
    for way in ways:
        assert all(-1e-9 <= x <= WIDTH + 1e-9 and -1e-9 <= y <= HEIGHT + 1e-9 for _, x, y in way)
        assert all(one[0] <= other[0] for one, other in zip(way, way[1:]))
        assert way[0][0] <= 0 and way[-1][0] >= UNTIL


def test_speeds(model: str, ways: list[Way]) -> None:
    """No node is faster than the greatest speed; a leg of a way point is no slower than the least."""
    for way in ways:
        for one, other in zip(way, way[1:]):
            length, time = math.dist(one[1:], other[1:]), other[0] - one[0]
            assert length <= 15.0 * time + 1e-6
            if model.startswith("waypoint") and length:
                assert length >= 2.0 * time - 1e-6


def test_seed(model: str, ways: list[Way]) -> None:
    """One seed makes one motion, and another seed another."""
    assert ways == MODELS[model](motion_of(model), random.Random(7))
    assert ways != MODELS[model](motion_of(model), random.Random(8))


def test_positions(ways: list[Way]) -> None:
    """Places one after the other are those at each time, rounded as the standard library rounds."""
    times = [at * 0.7 for at in range(400)]
    for way in ways[:5]:
        found = positions(way, np.array(times)).tolist()
        assert found == [[round(c, 2) for c in position(way, time)] for time in times]


def test_positions_at_the_ends() -> None:
    """Before the first and after the last way point a node rests; of two points at one time the later one holds."""
    way = [(1.0, 0.0, 0.0), (2.0, 1.0, 0.0), (2.0, 5.0, 0.0), (3.0, 6.0, 1.0)]
    times = [0.0, 1.0, 1.5, 2.0, 2.5, 3.0, 9.0]
    assert positions(way, np.array(times)).tolist() == [[0, 0], [0, 0], [0.5, 0], [5, 0], [5.5, 0.5], [6, 1], [6, 1]]
    assert positions([(0.0, 1.0, 2.0)], np.array([0.0, 1.0])).tolist() == [[1, 2], [1, 2]]


def test_rounding() -> None:
    """Random places, places half way between two hundredths and beside them, 0, negative and far places are rounded as
    by `round`.
    """
    source = random.Random(2)
    halves = [source.randrange(10**6) / 100 + 0.005 for _ in range(3000)]
    lists = [
        [source.uniform(0, 600) for _ in range(3000)], halves, [math.nextafter(it, 0) for it in halves],
        [math.nextafter(it, 1e9) for it in halves]
    ]
    lists += [
        [it] for it in (
            0.0, -0.0, -0.001, 0.001, 0.004999, -3.14159, 9_999_999.994999, 9_999_999.995, 1e7, 1e300, 2.675, math.inf
        )
    ] + [[]]
    for values in lists:
        assert list(map(repr, rounded(np.array(values, float)).tolist())) == [repr(round(value, 2)) for value in values]


def test_speed_does_not_decay() -> None:
    """Without pauses the mean speed is (most - least) / ln(most / least) from the first moment on, within a tenth."""
    told = motion_of("waypoint-steady", nodes=1500, speeds=(1.0, 20.0), pause=0.0, settle=0.0, until=900.0)
    steady, wanted = waypoint_steady(told, random.Random(3)), 19 / math.log(20)
    for time in (0, 100, 400, 890):
        assert mean_speed(steady, time) == pytest.approx(wanted, abs=0.1 * wanted)
    assert mean_speed(waypoint(told, random.Random(3)), 0) > 1.4 * wanted


def test_share_of_pauses() -> None:
    """At 0 s as many nodes rest as in the long run: mean pause / (mean pause + mean leg), within 5 in 100."""
    told = motion_of("waypoint-steady", nodes=1500, pause=60.0)
    leg = mean_length(WIDTH, HEIGHT) * math.log(15 / 2) / 13
    for time in (0, 250):
        ways = waypoint_steady(told, random.Random(4))
        resting = sum(position(way, time) == position(way, time + 0.01) for way in ways) / len(ways)
        assert resting == pytest.approx(30 / (30 + leg), abs=0.05)


def test_mean_length() -> None:
    """Of a square of side 1 it is 0.5214; where the formula of the rectangle ends it is a third of the long side,
    without a step.
    """
    assert mean_length(1, 1) == pytest.approx(0.521405, abs=1e-5)
    assert mean_length(10_000, 1) == pytest.approx(10_000 / 3, abs=0.001)
    assert mean_length(0.01, 10_000_000) == 10_000_000 / 3


def test_memory_of_gauss_markov() -> None:
    """With alpha 1 a node keeps its speed until an edge is near; with deviations of 0 and alpha 0 all have the mean
    speed.
    """
    own = PARAMETERS["gauss-markov"]
    for alpha, deviation in ((1.0, 5.0), (0.0, 0.0)):
        told = dataclasses.replace(motion_of("gauss-markov"), own=own | {"alpha": alpha, "speed_deviation": deviation})
        for way in MODELS["gauss-markov"](told, random.Random(5)):
            for one, other in zip(way, way[1:]):
                if 0 < other[1] < WIDTH and 0 < other[2] < HEIGHT:
                    assert math.dist(one[1:], other[1:]) == pytest.approx(8.0, abs=1e-6)


def test_mean_speed_of_gauss_markov() -> None:
    """Speeds are around the mean."""
    ways = MODELS["gauss-markov"](motion_of("gauss-markov", nodes=400), random.Random(6))
    assert mean_speed(ways, 150.5) == pytest.approx(8.0, abs=0.6)


def test_streets_only() -> None:
    """One coordinate of each place is that of a street, at all times."""
    for way in MODELS["manhattan"](motion_of("manhattan"), random.Random(7)):
        for time in range(300):
            x, y = position(way, time / 1.0)
            assert min(abs(math.remainder(x, WIDTH / 4)), abs(math.remainder(y, HEIGHT / 4))) < 1e-6


def test_turns() -> None:
    """At a crossing inside: straight on in a half, left and right in a quarter each; at a corner the only way on."""
    streets, source, found = Streets(4, WIDTH, HEIGHT), random.Random(8), [0, 0, 0, 0]
    driver = Driver(streets, (2.0, 15.0), source)
    for _ in range(8000):
        driver.column = driver.row = 2
        before = driver.heading
        streets.turn(driver, source)
        found[(driver.heading - before) % 4] += 1
    for count, wanted in zip(found, (4000, 2000, 0, 2000)):
        assert count == pytest.approx(wanted, abs=200)
    driver.column, driver.row, driver.heading = 4, 4, 0
    streets.turn(driver, source)
    assert driver.heading == 3


@pytest.mark.parametrize(("gap", "is_near"), [(19.0, True), (21.0, False)])
def test_safety_distance(gap: float, is_near: bool) -> None:
    """Behind a slower node that is within the distance in the lane a node is no faster; behind a far one it may be."""
    source, own, streets = random.Random(9), PARAMETERS["manhattan"], Streets(4, WIDTH, HEIGHT)
    drivers = [Driver(streets, (2.0, 15.0), source) for _ in range(2)]
    for driver, metres, speed in zip(drivers, (50.0, 50.0 - gap), (4.0, 12.0)):
        driver.column, driver.row, driver.heading, driver.metres, driver.speed = 1, 1, 0, metres, speed
    choose_speeds(drivers, streets, (2.0, 15.0), own["acceleration"], own["safety_distance"], source)
    assert (drivers[1].speed == drivers[0].speed) == is_near


def test_way_points(model: str) -> None:
    """How many way points a model makes is about what is told before, within a fifth."""
    own: dict[str, Any] = {**OWN.get(model, {})} | ({"mean_speed": 5.0} if model == "gauss-markov" else {})
    told = Motion(30, 600.0, 400.0, (2.0, 15.0), 5.0, 100.0, 2000.0, own)
    made = sum(map(len, MODELS[model](told, random.Random(1))))
    assert abs(made / way_points(model, told) - 1) < 0.2
