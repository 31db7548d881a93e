"""A study: runs of every size, every value that varies, and every seed. Its folder has ``study.json``, which says what it is.

A run is named NODES-SEED, and after it -NAME=VALUE for each option that varies; a study of a movement file has no sizes, and a run is named SEED.
"""
from __future__ import annotations

import dataclasses
import itertools
import json
import math
import os
from typing import Any

from tora.building import Settings
from tora.commands import SETTINGS, make_scenario
from tora.delivery import Load
from tora.errors import StudyError, UsageError
from tora.files import Path, reading, write_file
from tora.options import EDGE_LOSS, FILES, OF_RUN, SCENARIO, VARIED, flag_of, value_text
from tora.simulation import Simulation

MOST_RUNS = 1_000_000
FORMAT = 1
PAIRS = ("speed", "area", "times", "delay")  # options whose values are tuples
NAME = "study.json"
COLUMNS_OF = {  # of an option, where it has other names in a row; the first one that varies is drawn over
    "speed": ("speed_most", "speed_least"), "area": ("width", "height"), "times": ("silence_ticks", "hello_ticks", "retry_ticks", "tries"),
    "delay": ("delay_most", "delay_least"), "need": ("need_rounds",),
}
ORDER_OF = {"speed": (1, 0), "area": (0, 1), "times": (1, 0, 2, 3), "delay": (1, 0)}  # of the parts of a value, as the columns stand
MOST_LINES = 8  # of the picture of a study


@dataclasses.dataclass(frozen=True)
class Planned:
    """A run that a study has.

    Attributes
    ----------
    name : str
    seed : int
    options : dict
        By name, of the scenario and of its run, with the seed.
    """

    name: str
    seed: int
    options: dict[str, Any]

    def of_scenario(self) -> dict[str, Any]:
        """The options of the scenario."""
        return {name: value for name, value in self.options.items() if name not in OF_RUN}

    def of_run(self) -> dict[str, Any]:
        """The options of its run."""
        return {name: value for name, value in self.options.items() if name in OF_RUN}


@dataclasses.dataclass(frozen=True)
class Study:
    """What a study is.

    Attributes
    ----------
    nodes : list of int
        Sizes; empty where a movement file says how many there are.
    seeds : int
        Seeds from 1 to this.
    vary : dict
        By option its values.
    options : dict
        Options that all runs have.
    traffic : str, optional
        Data packets that each flow sends a second.
    hop, ttl : int, optional
        As of `tora.Run.measure`.
    keep, page : bool
        Whether each run's files stay, and whether it has a page.
    """

    nodes: list[int]
    seeds: int
    vary: dict[str, list[Any]]
    options: dict[str, Any]
    traffic: str | None = None
    hop: int | None = None
    ttl: int | None = None
    keep: bool = False
    page: bool = False

    def runs(self) -> list[Planned]:
        """The runs, in the order of the rows."""
        found = []
        for size, values, seed in itertools.product(self.nodes or [0], itertools.product(*self.vary.values()), range(1, self.seeds + 1)):
            told = dict(zip(self.vary, values))
            words = [f"{name.replace('_', '-')}={value_text(value)}" for name, value in told.items()]
            name = "-".join([*([str(size)] if self.nodes else []), str(seed), *words])
            found.append(Planned(name, seed, {**({"nodes": size} if self.nodes else {}), **self.options, **told, "seed": seed}))
        return found

    def count(self) -> int:
        """How many runs there are."""
        return math.prod([max(len(self.nodes), 1), self.seeds, *map(len, self.vary.values())])

    def picture(self) -> str | None:
        """The column that the picture of the study is over: the first one that varies and has numbers; None where there is none, or where the picture
        would have too many lines."""
        sizes = {"nodes": self.nodes} | self.vary
        columns = {name: column for name, values in sizes.items() if len(values) > 1 and (column := _column_of(name, values)) is not None}
        if not columns:
            return None
        name = next(iter(columns))
        lines = self.count() // self.seeds // len(sizes[name])
        return columns[name] if lines <= MOST_LINES else None

    def check(self) -> None:
        """Refuses, before any run is made, what a study may not be: options that are given and varied, values that can't be, too many runs."""
        for name, value in [("--seeds", self.seeds), ("--nodes", min(self.nodes, default=1))]:
            if value < 1:
                raise UsageError(f"{value} is not 1 or more", key=name)
        for size in self.nodes:
            if self.nodes.count(size) > 1:
                raise UsageError(f"{size} is repeated: its runs would be counted twice", key="--nodes")
        for name in self.options:
            if name in self.vary:
                raise UsageError("it varies, so it can't be given, too", key=flag_of(name))
            if name == "seed" or (name == "nodes" and self.nodes):
                raise UsageError("the study sets it", key=flag_of(name))
        is_moved = any(name in self.options for name in ("ns2", "bonnmotion", "fcd"))
        if is_moved == bool(self.nodes):
            raise UsageError("a movement file says how many nodes there are" if is_moved else "it is needed, as 10,20,40", key="--nodes")
        if self.count() > MOST_RUNS:
            raise UsageError(f"{self.count()} runs by --nodes, --seeds and --vary; a study has at most {MOST_RUNS}")
        Load.asked(self.traffic, self.hop, self.ttl)
        for run in self.runs():
            if run.seed == 1:
                check_run(run)

    def written(self) -> str:
        """The text of ``study.json``."""
        return json.dumps({"format": FORMAT, **dataclasses.asdict(self)}, indent=1) + "\n"

    def begin(self, folder: Path) -> None:
        """Makes the folder, or takes up the study in it; a folder of another study is refused."""
        path = os.path.join(folder, NAME)
        try:
            os.makedirs(folder, exist_ok=True)
        except OSError as cause:
            raise StudyError(cause.strerror or str(cause), file=folder) from None
        if os.path.exists(path):
            if Study.read(folder) != self:
                raise StudyError("the folder holds another study, which this file describes; name another folder", file=path)
        elif any(not name.startswith(".") for name in os.listdir(folder)):
            raise StudyError(f"the folder is not empty, and holds no study ({NAME})", file=folder)
        else:
            write_file(path, self.written())

    @classmethod
    def read(cls, folder: Path) -> Study:
        """The study of a folder."""
        path = os.path.join(folder, NAME)
        with reading(path, "utf-8") as source:
            text = source.read()
        try:
            told = json.loads(text)
            if told.pop("format") != FORMAT:
                raise StudyError("a study of another format", file=path)
            for name, values in told["vary"].items():
                told["vary"][name] = [_valued(name, value) for value in values]
            told["options"] = {name: _valued(name, value) for name, value in told["options"].items()}
            found = cls(**told)
            found.count()
        except (ValueError, KeyError, TypeError, AttributeError, RecursionError):
            raise StudyError("it tells of no study", file=path) from None
        return found


def _column_of(name: str, values: list[Any]) -> str | None:
    """A column of numbers that varies with an option, None where there is none."""
    if any(isinstance(value, str) for value in values):
        return None
    for place, column in enumerate(COLUMNS_OF.get(name, (name,))):
        parts = {value[ORDER_OF[name][place]] if isinstance(value, tuple) else value for value in values}
        if len(parts) > 1:
            return column
    return None


def _valued(name: str, value: Any) -> Any:
    """The value of an option as it was given, of one that JSON has."""
    if name not in {**SCENARIO, **VARIED, **FILES}:
        raise KeyError(name)
    return tuple(value) if name in PAIRS and isinstance(value, list) else value


def check_run(run: Planned) -> None:
    """Refuses options that can't be, without the run: its scenario is tried with one round."""
    made, asked = run.of_scenario(), run.of_run()
    edge_loss = asked.pop("edge_loss", None)
    asked |= {} if edge_loss is None else {"channel_file": "x"}
    try:
        Simulation(**asked).words()
        Settings.of(**{name: value for name, value in made.items() if name in SETTINGS})
        scenario = make_scenario(**(made | {"rounds": 1, "heights": 0}))
        if edge_loss is not None:
            scenario.with_edge_loss(edge_loss)
    except UsageError as cause:
        name = cause.key
        key = flag_of(name) if name in {**SCENARIO, **FILES, **EDGE_LOSS} or name in OF_RUN else name
        raise UsageError(f"{cause.cause} (of run {run.name})", file=cause.file, line=cause.line, key=key) from None
    except StudyError as cause:
        if cause.file is not None:  # of a movement file; nodes that never meet in one round may do so later
            raise
