"""The Manhattan model of motion: nodes on a grid of streets (Bai, Sadagopan and Helmy 2003, IMPORTANT)."""
from __future__ import annotations

import random

from tora.ways import Way

SLOT = 1.0  # seconds between two draws of a speed
HEADINGS = ((1, 0), (0, 1), (-1, 0), (0, -1))  # east, north, west, south
TURNS = ((0, 0.5), (1, 0.25), (3, 0.25))  # straight on, left, right: steps in HEADINGS, and how often


class Driver:
    """A node on a street: the last crossing, its heading, the metres since the crossing, and its speed."""

    def __init__(self, streets: Streets, speeds: tuple[float, float], source: random.Random) -> None:
        """One at a random place, with a random heading and speed."""
        self.column, self.row = source.randint(0, streets.blocks), source.randint(0, streets.blocks)
        self.heading = source.choice([at for at in range(4) if streets.leads(self.column, self.row, at)])
        self.metres = source.uniform(0, streets.length(self.heading))
        self.speed = source.uniform(*speeds)

    def place(self, streets: Streets) -> tuple[float, float]:
        """Its coordinates, in metres."""
        east, north = HEADINGS[self.heading]
        return streets.sides[0] * self.column + east * self.metres, streets.sides[1] * self.row + north * self.metres

    def lane(self) -> tuple[int, int]:
        """The lane that it is in: a heading, and the street."""
        return self.heading, self.row if self.heading % 2 == 0 else self.column

    def along(self, streets: Streets) -> float:
        """How far it is on its lane, in the lane's heading, in metres."""
        east, north = HEADINGS[self.heading]
        x, y = self.place(streets)
        return x * east + y * north


class Streets:
    """A grid of streets with two lanes, one for each way, at every `blocks`-th part of both sides and at the edges."""

    def __init__(self, blocks: int, width: float, height: float) -> None:
        """Streets of an area, whose sides are in metres."""
        self.blocks, self.sides = blocks, (width / blocks, height / blocks)

    def length(self, heading: int) -> float:
        """From one crossing to the next, in metres."""
        return self.sides[heading % 2]

    def leads(self, column: int, row: int, heading: int) -> bool:
        """Whether a street leads from a crossing in a heading."""
        east, north = HEADINGS[heading]
        return 0 <= column + east <= self.blocks and 0 <= row + north <= self.blocks

    def turn(self, driver: Driver, source: random.Random) -> None:
        """Where a node goes on at the crossing that it has come to.

        It goes as often as `TURNS` says, of the streets that there are.
        """
        ways = [((driver.heading + step) % 4, often) for step, often in TURNS]
        ways = [way for way in ways if self.leads(driver.column, driver.row, way[0])]
        draw = source.uniform(0, sum(often for _, often in ways))
        for heading, often in ways:
            draw -= often
            if draw <= 0:
                break
        driver.heading = heading


def choose_speeds(
    drivers: list[Driver], streets: Streets, speeds: tuple[float, float], acceleration: float, safety_distance: float,
    source: random.Random
) -> None:
    """Draws the speeds of a slot.

    Behind a node that is within the safety distance in the lane none is faster than that.
    """
    lanes: dict[tuple[int, int], list[Driver]] = {}
    for driver in drivers:
        speed = driver.speed + source.uniform(-1, 1) * acceleration * SLOT
        driver.speed = min(max(speed, speeds[0]), speeds[1])
        lanes.setdefault(driver.lane(), []).append(driver)
    for lane in lanes.values():
        lane.sort(key=lambda driver: driver.along(streets), reverse=True)
        for ahead, driver in zip(lane, lane[1:]):
            if ahead.along(streets) - driver.along(streets) <= safety_distance:
                driver.speed = min(driver.speed, ahead.speed)


def drive(driver: Driver, way: Way, streets: Streets, source: random.Random) -> None:
    """Moves a node for a slot; its way has a point at each crossing, and at the end of the slot."""
    left, start = driver.speed * SLOT, way[-1][0]
    while left >= streets.length(driver.heading) - driver.metres:
        left -= streets.length(driver.heading) - driver.metres
        east, north = HEADINGS[driver.heading]
        driver.column, driver.row, driver.metres = driver.column + east, driver.row + north, 0.0
        way.append((start + SLOT - left / driver.speed, *driver.place(streets)))
        streets.turn(driver, source)
    driver.metres += left
    way.append((start + SLOT, *driver.place(streets)))


def manhattan_ways(
    nodes: int, width: float, height: float, speeds: tuple[float, float], until: float, blocks: int,
    acceleration: float, safety_distance: float, source: random.Random,
) -> list[Way]:
    """The ways of nodes on the streets of an area: metres, metres a second, and seconds; see `tora.motion.Motion`."""
    streets = Streets(blocks, width, height)
    drivers = [Driver(streets, speeds, source) for _ in range(nodes)]
    ways: list[Way] = [[(0.0, *driver.place(streets))] for driver in drivers]
    while ways[0][-1][0] <= until:
        choose_speeds(drivers, streets, speeds, acceleration, safety_distance, source)
        for driver, way in zip(drivers, ways):
            drive(driver, way, streets, source)
    return ways
