"""Builds a scenario of the ways of nodes.

It has their places, the links that a simulation file declares, destinations, flows, and the file's lines.
"""
from __future__ import annotations

import dataclasses
import hashlib
import os
import random
from collections.abc import Sequence
from typing import Any

import numpy as np

from tora import bounds
from tora.bounds import TICK, check_number, check_whole
from tora.contacts import Contacts, contacts_of, declared_links
from tora.errors import StudyError, UsageError
from tora.ways import Way, positions

Pair = tuple[int, int]
MOST_PARTS = 1_000_000_000  # places of nodes in all samples, way points, and lines
BYTES = {"places of nodes": 200, "way points": 100, "lines": 60}  # of memory that each takes at least, about
Parts = dict[str, tuple[float, str]]


@dataclasses.dataclass(frozen=True)
class Settings:
    """What every scenario has, whatever its nodes do. A round is 100 ms.

    Attributes
    ----------
    seed : int
        Of the motion, the destinations and the flows; 0 to 2^64 - 1.
    rounds : int
        Length of the run, from 1.
    sample : int
        Rounds between looks at the places, 1 to 10,000.
    range : float
        Metres that a link reaches, 0.01 to 10,000,000.
    need : int
        Rounds between the needs of every flow, from 1.
    limit : int, optional
        Most links of a node, 1 to 32, or to 255 for a large scenario; the most if it is not given.
    destinations : int
        How many there are, 1 to 64.
    flows : int
        How many there are, 0 to 65,536; 0 means as many as nodes.
    times : tuple of int
        Times of a link end in ticks: HELLO, silence, retry; and tries. Each is at least 1.
    heights : int
        Rounds between ``heights`` lines; 0 for none.
    large : bool
        Up to 1,024 nodes with 255 links each, in place of 64 with 32.
    """

    seed: int = 1
    rounds: int = 1200
    sample: int = 10
    range: float = 100.0
    need: int = 10
    limit: int | None = None
    destinations: int = 4
    flows: int = 0
    times: tuple[int, int, int, int] = (10, 50, 5, 8)
    heights: int = 0
    large: bool = False

    @classmethod
    def of(cls, **settings: Any) -> Settings:
        """Settings by name; one that is none, or beyond its bounds, is a `UsageError` that names it."""
        names = [each.name for each in dataclasses.fields(cls)]
        for name in settings:
            if name not in names:
                raise UsageError(f"there is no such setting; there are {', '.join(names)}", key=name)
        return cls(**settings).checked()

    def checked(self) -> Settings:
        """The same settings with their limit, after all values were checked against their bounds."""
        neighbours = bounds.GREATEST_NEIGHBOURS if self.large else bounds.MOST_NEIGHBOURS
        limits: dict[str, tuple[int, int]] = {
            "seed": (0, bounds.MOST_TICKS), "rounds": (1, bounds.MOST_TICKS), "sample": (1, bounds.MOST_SAMPLE),
            "need": (1, bounds.MOST_TICKS),
            "limit": (1, neighbours), "destinations": (1, bounds.MOST_DESTINATIONS), "heights": (0, bounds.MOST_TICKS),
            "flows": (0, bounds.GREATEST_NODES * bounds.MOST_DESTINATIONS),
        }
        found = dataclasses.replace(self, limit=neighbours if self.limit is None else self.limit)
        whole = {name: check_whole(name, getattr(found, name), *both) for name, both in limits.items()}
        reach = check_number("range", self.range, bounds.LEAST_METRES, bounds.MOST_METRES)
        if not isinstance(self.large, bool):
            raise UsageError("it is not True or False", key="large")
        return dataclasses.replace(found, **whole, range=reach, times=check_times(self.times))


@dataclasses.dataclass(frozen=True)
class Built:
    """What is built of ways.

    The fields of a `Scenario` by name, what it lacks of what was asked for, and the lines of its simulation file.
    """

    fields: dict[str, Any]
    notes: tuple[str, ...]
    lines: tuple[str, ...]


def check_times(times: Sequence[int]) -> tuple[int, int, int, int]:
    """The times of a link end: HELLO, silence and retry in ticks, and tries."""
    found = list(times) if isinstance(times, (list, tuple)) else []
    if len(found) != 4:
        raise UsageError("they are not four numbers from 1, as in 10,50,5,8", key="times")
    hello, silence, retry, tries = (check_whole("times", time, 1, bounds.MOST_TICKS) for time in found)
    return hello, silence, retry, tries


def check_parts(settings: Settings, nodes: int, points: float | None = None) -> None:
    """Refuses what no scenario has, or no memory of this machine holds, before it is made.

    Parameters
    ----------
    settings : Settings
    nodes : int
    points : float, optional
        About how many way points a model makes.
    """
    samples = -(-settings.rounds // settings.sample)
    flows = min(settings.flows or nodes, nodes * settings.destinations)
    heights = settings.rounds // settings.heights * (1 + settings.destinations) if settings.heights else 0
    parts: Parts = {
        "places of nodes": (nodes * samples, "rounds, sample"),
        "lines": (samples + settings.rounds // settings.need * (1 + flows) + heights, "rounds, sample, need, heights"),
    }
    parts |= {} if points is None else {"way points": (points, "rounds, settle, speed, area")}
    for what, (count, names) in parts.items():
        if not count <= MOST_PARTS:
            raise UsageError(f"some {count:.3g} {what}, and a scenario has at most {MOST_PARTS}", key=names)
    need = sum(count * BYTES[what] for what, (count, _) in parts.items())
    have = os.sysconf("SC_PHYS_PAGES") * os.sysconf("SC_PAGE_SIZE")
    if need > have:
        told = ", ".join(f"some {count:.3g} {what} ({names})" for what, (count, names) in parts.items())
        raise StudyError(f"this machine has {have / 1e9:.3g} GB of memory, and this takes {need / 1e9:.3g}: {told}")


def check_nodes(nodes: int, large: bool) -> None:
    """Refuses a number of nodes that no simulation has."""
    most = bounds.GREATEST_NODES if large else bounds.MOST_NODES
    if not 2 <= nodes <= most:
        more = "" if large else f", or to {bounds.GREATEST_NODES} where it is large"
        raise StudyError(f"{nodes} nodes; a simulated world has 2 to {most}{more}")


def build(ways: Sequence[Way], settings: Settings, parameters: dict[str, Any], source: random.Random) -> Built:
    """Builds a scenario.

    Parameters
    ----------
    ways : list of ways
        Of each node, in order.
    settings : Settings
        Checked ones.
    parameters : dict
        What the motion was made of.
    source : random.Random
        Where destinations and flows are drawn from.
    """
    check_nodes(len(ways), settings.large)
    check_parts(settings, len(ways))
    times = np.array([at * TICK for at in range(0, settings.rounds, settings.sample)])
    places = np.stack([positions(way, times) for way in ways], axis=1)
    contacts = contacts_of(places, settings.range)
    assert settings.limit is not None
    links, degree = declared_links(contacts.total, settings.limit)
    if not links:
        raise StudyError("no two nodes ever meet")
    fields = _link_fields(contacts, links, degree, len(ways)) | {"nodes": len(ways), "positions": places}
    fields |= {
        name: getattr(settings, name) for name in ("seed", "range", "rounds", "sample", "limit", "times", "large")
    }
    fields["parameters"] = parameters | {"need_rounds": settings.need}
    notes = _lost_links(fields)
    chosen, more = choose_flows(sorted(degree), len(ways), settings, source)
    fields |= chosen
    lines, breaks = simulation_lines(chosen, links, contacts, settings)
    return Built(fields | {"breaks": breaks, "digest": digest_of(lines)}, (*more, *notes), lines)


def digest_of(lines: Sequence[str]) -> str:
    """SHA-256 of the simulation file of these lines."""
    return hashlib.sha256(simulation_text(lines).encode("ascii")).hexdigest()


def simulation_text(lines: Sequence[str]) -> str:
    """The text of a simulation file."""
    return "\n".join(lines) + "\n"


def choose_flows(
    linked: Sequence[int], nodes: int, settings: Settings, source: random.Random
) -> tuple[dict[str, Any], list[str]]:
    """Draws destinations among the nodes with links, and flows (source, destination).

    Also answers what there is less than was asked for.
    """
    notes: list[str] = []
    destinations = sorted(source.sample(linked, _clamped("destinations", settings.destinations, len(linked), notes)))
    pairs = [(a, d) for a in linked for d in destinations if a != d]
    count = settings.flows and _clamped("flows", settings.flows, len(pairs), notes)
    flows = sorted(source.sample(pairs, count or min(nodes, len(pairs))))
    return {"destinations": tuple(destinations), "flows": tuple(flows)}, notes


def simulation_lines(
    chosen: dict[str, Any], links: Sequence[Pair], contacts: Contacts, settings: Settings
) -> tuple[tuple[str, ...], int]:
    """The lines of the simulation file, and how many declared links are parted after the first round."""
    known = {link: place for place, link in enumerate(links)}  # links ascend
    links_of, parts, mends = ([f"{word} {a} {b}" for a, b in links] for word in ("link", "part", "mend"))
    lines = ["dests " + ",".join(map(str, chosen["destinations"])), *links_of]
    breaks = 0
    for at, (came, gone) in enumerate(contacts.changes):
        if at == 0:  # a simulation begins with every link mended
            came, gone = [], [link for link in links if link not in set(came)]
        part, mend = (sorted(known[link] for link in some if link in known) for some in (gone, came))
        lines += [parts[place] for place in part] + [mends[place] for place in mend]
        breaks += len(part) if at else 0
        lines += _sample_lines(at * settings.sample, chosen, settings)
    return tuple(lines), breaks


def _sample_lines(clock: int, chosen: dict[str, Any], settings: Settings) -> list[str]:
    """The lines of the rounds from a sample, which begins at this clock, to the next one."""
    lines, every, need = [], settings.heights, settings.need
    end = min(clock + settings.sample, settings.rounds)
    while clock < end:
        if clock % need == 0:
            lines += [f"need {source} {destination}" for source, destination in chosen["flows"]]
        stop = min(end, clock - clock % need + need, clock - clock % every + every if every else end)
        lines.append(f"rounds {stop - clock}")
        clock = stop
        if every and clock % every == 0:
            lines += [f"heights {destination}" for destination in chosen["destinations"]]
    return lines


def _link_fields(contacts: Contacts, links: Sequence[Pair], degree: dict[int, int], nodes: int) -> dict[str, Any]:
    """What the links of a scenario are."""
    total = contacts.total
    met = np.bincount(np.array(list(total), np.int64).ravel())
    kept = round(sum(total[link] for link in links) / sum(total.values()), 6)
    return {
        "links": tuple(links), "contact_kept": kept, "links_met": len(total), "most_met": int(met.max()),
        "most_at_once": contacts.most,
        "left_out": tuple(node for node in range(1, nodes + 1) if node not in degree),
    }


def _lost_links(fields: dict[str, Any]) -> list[str]:
    """What the limit of neighbours has cost."""
    lost = fields["links_met"] - len(fields["links"])
    if not lost:
        return []
    share, out = 100 * (1 - fields["contact_kept"]), ",".join(map(str, fields["left_out"])) or "none"
    return [
        f"{lost} of {fields['links_met']} links left out by the limit of {fields['limit']} neighbours, "
        f"{share:.1f} % of the contact time; nodes without a link: {out}"
    ]


def _clamped(what: str, asked: int, most: int, notes: list[str]) -> int:
    """A requested number, or the greatest possible one, which is noted."""
    if asked > most:
        notes.append(f"{asked} {what} are asked for, and {most} are made: the nodes with links have no more")
    return min(asked, most)


def area_of(nodes: int, reach: float, area: tuple[float, float] | None, degree: float | None) -> tuple[float, float]:
    """Width and height of the area of a motion, in metres.

    They are those of `area`, or of a square in which a node has about `degree` neighbours.
    """
    if area is not None and degree is not None:
        raise UsageError("it cannot be combined with an area", key="degree")
    side = reach * np.sqrt(
        np.pi * nodes / check_number("degree", 6.0 if degree is None else degree, *bounds.OF_MODELS["degree"])
    )
    width, height = (float(side), float(side)) if area is None else _pair_of("area", area)
    if not (bounds.LEAST_METRES <= min(width, height) and max(width, height) <= bounds.MOST_METRES):
        made = f"the side of {side:.3g} m that it makes with the range and the nodes"
        told = made if area is None else f"a side of {width:g} x {height:g} m"
        raise UsageError(
            f"{told} is not {bounds.LEAST_METRES} to {bounds.MOST_METRES}", key="degree" if area is None else "area"
        )
    return width, height


def speeds_of(speed: tuple[float, float]) -> tuple[float, float]:
    """The least and the greatest speed, in metres a second."""
    least, most = _pair_of("speed", speed)
    if not bounds.LEAST_SPEED <= least <= most <= bounds.MOST_METRES:
        told = (
            f"the least speed has to be {bounds.LEAST_SPEED:f} or more, or nodes grow slower for ever, and not above "
            f"the most, {bounds.MOST_METRES}"
        )
        raise UsageError(told, key="speed")
    return least, most


def _pair_of(name: str, pair: Any) -> tuple[float, float]:
    """Two numbers."""
    if not isinstance(pair, (list, tuple)) or len(pair) != 2:
        raise UsageError("it is not a pair of numbers", key=name)
    one, other = (check_number(name, value, 0, bounds.MOST_METRES) for value in pair)
    return one, other


