"""Scenarios: moving nodes, the links that they make, destinations, and the flows that ask for routes."""
from __future__ import annotations

import dataclasses
import functools
import os
import random
from collections.abc import Sequence
from typing import Any

import numpy as np
import numpy.typing as npt
import pandas as pd

from tora import bounds, movements, running
from tora.bounds import check_number, check_parameter
from tora.building import Settings, area_of, build, check_nodes, check_parts, simulation_text, speeds_of
from tora.channel import EDGE_LOSS, channel_lines
from tora.description import description_text, read_description
from tora.errors import StudyError, UsageError, shown
from tora.files import Path, write_files
from tora.motion import MODELS, OWN, Motion, way_points
from tora.program import TIME_LIMIT, Program
from tora.run import Run
from tora.simulation import Simulation
from tora.static import static_of_simulation, static_of_trace
from tora.trace import Trace
from tora.ways import Way

__all__ = ["Scenario", "Settings"]

Pair = tuple[int, int]
Speeds = tuple[float, float]
Area = tuple[float, float]


@dataclasses.dataclass(frozen=True, eq=False)
class Scenario:
    """A scenario, as the file ``PREFIX.json`` describes it beside the simulation file ``PREFIX.sim``.

    Attributes
    ----------
    nodes : int
        Nodes of the motion, numbered from 1.
    seed, range, rounds, sample, limit, times, large
        As in `Settings`.
    destinations : tuple of int
        Ascending.
    flows : tuple of pairs
        Each a source and a destination.
    links : tuple of pairs
        The links that the simulation file declares, the lower node first, ascending.
    positions : array of float, shape (samples, nodes, 2)
        Metres, rounded to centimetres; no samples if nothing moves.
    contact_kept : float
        Share of the contact time that the declared links have.
    links_met, most_met, most_at_once, breaks : int
        Links of the motion; most neighbours of a node in all, and at once; declared links that the motion parts after
        the first round.
    left_out : tuple of int
        Nodes without a declared link.
    parameters : dict
        What the scenario was made of, by the columns of a row of measures.
    digest : str, optional
        SHA-256 of the simulation file.
    lines : tuple of str, optional
        The lines of the simulation file; None if the scenario was read from its description alone.
    notes : tuple of str
        What was asked for and is missing in the scenario, such as links beyond the limit.
    """

    seed: int
    nodes: int
    range: float
    rounds: int
    sample: int
    limit: int
    times: tuple[int, int, int, int]
    destinations: tuple[int, ...]
    flows: tuple[Pair, ...]
    links: tuple[Pair, ...]
    contact_kept: float
    links_met: int
    most_met: int
    most_at_once: int
    breaks: int
    left_out: tuple[int, ...]
    positions: npt.NDArray[np.float64] = dataclasses.field(repr=False)
    parameters: dict[str, Any]
    large: bool = False
    digest: str | None = None
    lines: tuple[str, ...] | None = dataclasses.field(default=None, repr=False)
    notes: tuple[str, ...] = ()

    @classmethod
    def waypoint(
        cls, nodes: int = 20, speed: Speeds = (1.0, 3.0), *, pause: float = 10.0, settle: float = 1000.0,
        area: Area | None = None, degree: float | None = None, **settings: Any,
    ) -> Scenario:
        """Random waypoint (Johnson and Maltz 1996): a node goes to a random place, rests, and repeats.

        Parameters
        ----------
        nodes : int
            2 to 64, or to 1,024 in a large scenario.
        speed : pair of float
            The least and the greatest speed, in metres a second.
        pause : float
            Most seconds at a way point.
        settle : float
            Seconds of motion before the first round, since speeds decay at first.
        area : pair of float, optional
            Width and height in metres.
        degree : float, optional
            Mean number of neighbours of a node, which gives the side of a square if there is no area; 6.
        **settings
            Fields of `Settings`.

        Raises
        ------
        UsageError
            If a value is out of its range, with its name.
        """
        return cls._of_model("waypoint", nodes, speed, area, degree, {"pause": pause, "settle": settle}, {}, settings)

    @classmethod
    def waypoint_steady(
        cls, nodes: int = 20, speed: Speeds = (1.0, 3.0), *, pause: float = 10.0, area: Area | None = None,
        degree: float | None = None, **settings: Any,
    ) -> Scenario:
        """Random waypoint in its steady state (Navidi and Camp 2004), in which speeds do not decay.

        Parameters are as of `waypoint`.
        """
        return cls._of_model("waypoint-steady", nodes, speed, area, degree, {"pause": pause}, {}, settings)

    @classmethod
    def gauss_markov(
        cls, nodes: int = 20, speed: Speeds = (1.0, 3.0), *, alpha: float = 0.75, mean_speed: float | None = None,
        speed_deviation: float = 0.5, direction_deviation: float = 0.5, interval: float = 1.0, area: Area | None = None,
        degree: float | None = None, **settings: Any,
    ) -> Scenario:
        """Gauss-Markov (Liang and Haas 1999), in the form of Camp, Boleng and Davies 2002.

        Parameters
        ----------
        nodes, speed, area, degree, **settings
            As of `waypoint`.
        alpha : float
            Memory of speed and direction: 1 keeps them, 0 forgets them.
        mean_speed : float, optional
            Metres a second; the middle of `speed` by default.
        speed_deviation, direction_deviation : float
            Standard deviations of the drawn values, in metres a second and radians.
        interval : float
            Seconds between two draws, 0.1 to 1,000.
        """
        own = {
            "alpha": alpha, "mean_speed": mean_speed, "speed_deviation": speed_deviation,
            "direction_deviation": direction_deviation, "interval": interval,
        }
        return cls._of_model("gauss-markov", nodes, speed, area, degree, {}, own, settings)

    @classmethod
    def manhattan(
        cls, nodes: int = 20, speed: Speeds = (1.0, 3.0), *, blocks: int = 5, acceleration: float = 0.5,
        safety_distance: float = 5.0, area: Area | None = None, degree: float | None = None, **settings: Any,
    ) -> Scenario:
        """Nodes on a grid of streets (Bai, Sadagopan and Helmy 2003).

        Parameters
        ----------
        nodes, speed, area, degree, **settings
            As of `waypoint`.
        blocks : int
            Blocks between streets along each side, 1 to 1,000.
        acceleration : float
            Most change of speed, in metres a second in a second.
        safety_distance : float
            Metres to the node ahead in the lane below which a node is no faster than that.
        """
        own = {"blocks": blocks, "acceleration": acceleration, "safety_distance": safety_distance}
        return cls._of_model("manhattan", nodes, speed, area, degree, {}, own, settings)

    @classmethod
    def from_ns2(cls, path: Path, **settings: Any) -> Scenario:
        """The motion of a `setdest` file of ns-2, plain or compressed (.gz); its node 0 becomes node 1."""
        return cls._of_file("ns2", path, settings)

    @classmethod
    def from_bonnmotion(cls, path: Path, *, coordinates: int = 2, **settings: Any) -> Scenario:
        """The motion of a BonnMotion file of 2 or 3 coordinates, plain or compressed (.gz).

        Its first line becomes node 1.
        """
        return cls._of_file("bonnmotion", path, settings, coordinates=coordinates)

    @classmethod
    def from_fcd(cls, path: Path, *, absent: str = "refuse", **settings: Any) -> Scenario:
        """The motion of floating car data of SUMO, plain or compressed (.gz).

        `absent` is as of `tora.movements.read_fcd`.
        """
        return cls._of_file("fcd", path, settings, absent=absent)

    @classmethod
    def from_ways(cls, ways: list[Way], *, parameters: dict[str, Any] | None = None, **settings: Any) -> Scenario:
        """The scenario of ways, one for each node: lists of (seconds, x, y), metres, with times that rise."""
        found = Settings.of(**settings)
        return cls._of_ways(ways, found, parameters or {}, random.Random(found.seed))

    @classmethod
    def from_simulation(cls, path: Path, *, times: tuple[int, int, int, int] = (10, 50, 5, 8)) -> Scenario:
        """The scenario without motion of a simulation file.

        It has the file's destinations, links and rounds, and the flows that it asks for.
        """
        return cls(**static_of_simulation(os.fspath(path), times))

    @classmethod
    def from_trace(cls, trace: Trace) -> Scenario:
        """The scenario without motion of a trace: the links, destinations and needs that it names."""
        return cls(**static_of_trace(trace))

    @classmethod
    def read(cls, path: Path) -> Scenario:
        """The scenario of a file ``PREFIX.json``.

        Raises
        ------
        StudyError
            If the file is no scenario, with the line or the path in it, such as ``links[3][1]``.
        """
        return cls(**read_description(os.fspath(path)))

    @functools.cached_property
    def linked(self) -> tuple[int, ...]:
        """The nodes with links, ascending."""
        return tuple(sorted({node for link in self.links for node in link}))

    def ways(self) -> list[Way]:
        """The ways of the nodes, with a way point in each sample."""
        if not len(self.positions):
            raise UsageError("a scenario without motion has no ways")
        times = [at * self.sample * bounds.TICK for at in range(len(self.positions))]
        return [
            [(time, x, y) for time, (x, y) in zip(times, places)] for places in self.positions.swapaxes(0, 1).tolist()
        ]

    def write_motion(self, path: Path, kind: str = "bonnmotion", *, overwrite: bool = False) -> None:
        """Writes the motion, with a way point in each sample, as a movement file: `bonnmotion`, `ns2` or `fcd`."""
        if kind not in movements.WRITERS:
            raise UsageError(f"`{shown(kind)}` is not one of {', '.join(movements.WRITERS)}", key="kind")
        movements.WRITERS[kind](path, self.ways(), overwrite=overwrite)

    def flow_table(self) -> pd.DataFrame:
        """Flows: columns `source` and `destination` (int64)."""
        return pd.DataFrame(list(self.flows), columns=["source", "destination"])

    def write(
        self, prefix: Path, *, channel_file: Path | None = None, edge_loss: float | None = None,
        overwrite: bool = False, inputs: Sequence[Path] = ()
    ) -> list[str]:
        """Writes ``PREFIX.sim`` and ``PREFIX.json``, and a channel file if one is named.

        The losses of the channel file rise with the distance.

        Parameters
        ----------
        prefix : path
        channel_file : path, optional
        edge_loss : float, optional
            Of a channel file: the loss at the range, 0 to 1; 0.5 by default.
        overwrite : bool
            Whether files that exist are replaced.
        inputs : sequence of paths
            Files that are not written to, as a movement file.

        Returns
        -------
        list of str
            The paths of the files.
        """
        if edge_loss is not None and channel_file is None:
            raise UsageError("it needs a channel file", key="edge_loss")
        texts = self.texts(prefix) if channel_file is None else self.with_edge_loss(edge_loss).texts(prefix)
        if channel_file is not None:
            if len({os.path.realpath(path) for path in (channel_file, *texts)}) != len(texts) + 1:
                raise UsageError("two outputs have this name", file=channel_file)
            texts[os.fspath(channel_file)] = self.channel_text(edge_loss)
        write_files(texts, inputs, overwrite)
        return list(texts)

    def texts(self, prefix: Path) -> dict[str, str]:
        """The texts of the simulation file and of the description, by their paths."""
        name = os.fspath(prefix)
        if not os.path.basename(name):
            raise UsageError(f"the prefix `{name}` has no name of a file", key="prefix")
        if self.lines is None:
            raise UsageError("the scenario was read from its description, and its simulation file is beside it")
        found = {f"{name}.sim": simulation_text(self.lines)}
        return found | ({f"{name}.json": description_text(self)} if len(self.positions) else {})

    def channel_text(self, edge_loss: float | None = None) -> str:
        """The text of a channel file of losses that rise with the distance, up to `edge_loss` at the range."""
        if not len(self.positions):
            raise UsageError("a scenario without motion has no distances", key="edge_loss")
        edge = check_number("edge_loss", EDGE_LOSS if edge_loss is None else edge_loss, 0, 1)
        return "\n".join(channel_lines(self.positions, self.links, self.sample, self.range, edge)) + "\n"

    def with_edge_loss(self, edge_loss: float | None) -> Scenario:
        """The scenario whose parameters have the loss at the range of its channel file."""
        edge = check_number("edge_loss", EDGE_LOSS if edge_loss is None else edge_loss, 0, 1)
        return dataclasses.replace(self, parameters=self.parameters | {"edge_loss": edge})

    def run(
        self, *, loss: float | None = None, repeat: float | None = None, delay: int | tuple[int, int] | None = None,
        channel_seed: int | None = None, edge_loss: float | None = None, channel_file: Path | None = None,
        notice: bool = False, until: int | None = None, erasure: str | None = None, prefix: Path | None = None,
        program: Path | Program | None = None, time_limit: float = TIME_LIMIT, overwrite: bool = False,
    ) -> Run:
        """Simulates the scenario by the program `tora`.

        Parameters
        ----------
        loss, repeat, delay, channel_seed, channel_file, notice, until, erasure
            As of `tora.simulation.Simulation`.
        edge_loss : float, optional
            Losses rise with the distance, up to this share at the range; they are written to a channel file
            ``PREFIX.channel``.
        prefix : path, optional
            The files are ``PREFIX.sim``, ``PREFIX.json``, ``PREFIX.trace`` and ``PREFIX.manifest.json``. Without a
            prefix they are in a folder that is deleted with the `Run`.
        program : path, optional
            As of `tora.program.Program.find`.
        time_limit : float
            Seconds after which the program is ended.
        overwrite : bool
            Whether files that exist are replaced.

        Raises
        ------
        StudyError
            If the program fails or takes too long.
        UsageError
            If two arguments cannot be combined, or one is out of its range.
        """
        asked = Simulation(loss, repeat, delay, channel_seed, notice, until, channel_file, erasure)
        return running.run_scenario(self, asked, edge_loss, prefix, program, time_limit, overwrite)

    @classmethod
    def _of_model(
        cls, model: str, nodes: int, speed: Speeds, area: Area | None, degree: float | None, shared: dict[str, Any],
        own: dict[str, Any], settings: dict[str, Any]
    ) -> Scenario:
        """The scenario of a model of motion, by its parameters: those that several models have, and its own."""
        found = Settings.of(**settings)
        most = bounds.GREATEST_NODES if found.large else bounds.MOST_NODES
        bounds.check_whole("nodes", nodes, 2, most)
        (width, height), speeds = area_of(nodes, found.range, area, degree), speeds_of(speed)
        given = {name: check_parameter(name, value) for name, value in (own | shared).items() if value is not None}
        mine = {name: given.get(name, sum(speeds) / 2) for name in OWN.get(model, {})}
        motion = Motion(
            nodes, width, height, speeds, given.get("pause", 0.0), given.get("settle", 0.0), found.rounds * bounds.TICK,
            mine
        )
        check_parts(found, nodes, way_points(model, motion))
        known = {
            "model": model, "speed_least": speeds[0], "speed_most": speeds[1], "width": round(width, 2),
            "height": round(height, 2)
        }
        known |= {"degree": "" if area is not None else float(6.0 if degree is None else degree), **mine}
        known |= {name: given[name] for name in shared}
        source = random.Random(found.seed)
        return cls._of_ways(MODELS[model](motion, source), found, known, source)

    @classmethod
    def _of_file(cls, kind: str, path: Path, settings: dict[str, Any], **how: Any) -> Scenario:
        """The scenario of a movement file."""
        found = Settings.of(**settings)
        check_parts(found, 2)
        ways = movements.READERS[kind](path, **how)
        try:
            check_nodes(len(ways), found.large)
        except StudyError as cause:
            raise StudyError(cause.cause, file=path) from None
        return cls._of_ways(ways, found, {"model": kind}, random.Random(found.seed))

    @classmethod
    def _of_ways(
        cls, ways: list[Way], settings: Settings, parameters: dict[str, Any], source: random.Random
    ) -> Scenario:
        """The scenario of ways."""
        built = build(ways, settings, parameters, source)
        return cls(**built.fields, lines=built.lines, notes=built.notes)
