"""What the command line does: make, run, measure, verify. An argument that was not given is None."""
from __future__ import annotations

import os
from collections.abc import Callable, Sequence
from typing import Any

from tora import manifest, metrics, running
from tora.errors import StudyError, UsageError, shown
from tora.files import Path, write_file
from tora.metrics import Load, row_text
from tora.motion import MODELS, OWN
from tora.program import TIME_LIMIT
from tora.run import Run
from tora.scenario import Scenario
from tora.simulation import Simulation

SETTINGS = ("seed", "rounds", "sample", "range", "need", "limit", "destinations", "flows", "times", "heights", "large")
# By a kind of motion what it takes beside the settings.
OF_MOTION = ("nodes", "speed", "area", "degree")
TAKEN = {
    "waypoint": (*OF_MOTION, "pause", "settle"), "waypoint-steady": (*OF_MOTION, "pause"),
    "gauss-markov": (*OF_MOTION, *OWN["gauss-markov"]), "manhattan": (*OF_MOTION, *OWN["manhattan"]),
    "ns2": (), "bonnmotion": ("coordinates",), "fcd": ("absent",),
}
FILES = ("ns2", "bonnmotion", "fcd")
OF_FILES = ("prefix", "channel_file", "edge_loss", "overwrite")  # what `make` takes for the files that it writes


def make(
    prefix: Path, *, model: str | None = None, nodes: int | None = None, speed: tuple[float, float] | None = None,
    pause: float | None = None, settle: float | None = None, area: tuple[float, float] | None = None,
    degree: float | None = None, alpha: float | None = None, mean_speed: float | None = None,
    speed_deviation: float | None = None, direction_deviation: float | None = None, interval: float | None = None,
    blocks: int | None = None, acceleration: float | None = None, safety_distance: float | None = None,
    ns2: Path | None = None, bonnmotion: Path | None = None, coordinates: int | None = None, fcd: Path | None = None,
    absent: str | None = None, seed: int | None = None, rounds: int | None = None, sample: int | None = None,
    range: float | None = None, need: int | None = None, limit: int | None = None, destinations: int | None = None,
    flows: int | None = None, times: tuple[int, int, int, int] | None = None, heights: int | None = None,
    large: bool | None = None, channel_file: Path | None = None, edge_loss: float | None = None,
    overwrite: bool = False,
) -> list[str]:
    """Makes ``PREFIX.sim`` and ``PREFIX.json``, and a channel file if it is requested.

    Parameters are those of the constructors of `tora.Scenario` and of `tora.Scenario.write`; a movement file (`ns2`,
    `bonnmotion` or `fcd`) replaces a model of motion.

    Returns
    -------
    list of str
        Messages about what the scenario lacks of the request.

    Raises
    ------
    UsageError
        Where options don't go together, or one is beyond its bounds, with its name; nothing is written.
    """
    given = {name: value for name, value in locals().items() if value is not None and name not in OF_FILES}
    if edge_loss is not None and channel_file is None:
        raise UsageError("it needs channel_file", key="edge_loss")
    scenario = make_scenario(**given)
    inputs = [given[name] for name in FILES if name in given]
    scenario.write(prefix, channel_file=channel_file, edge_loss=edge_loss, overwrite=overwrite, inputs=inputs)
    return list(scenario.notes)


def make_scenario(**given: Any) -> Scenario:
    """The scenario of options that were given, as of `make`; options that don't go together are refused."""
    kinds = [name for name in FILES if name in given]
    if len(kinds) > 1:
        raise UsageError(f"it cannot be combined with {kinds[0]}", key=kinds[1])
    if kinds and "model" in given:
        raise UsageError(f"it cannot be combined with {kinds[0]}, which has its own motion", key="model")
    kind = kinds[0] if kinds else str(given.get("model", "waypoint"))
    if kind not in TAKEN:
        raise UsageError(f"`{shown(kind)}` is no model of motion; there are {', '.join(MODELS)}", key="model")
    for name in given:
        if name not in (*SETTINGS, *TAKEN[kind], "model", *FILES):
            raise UsageError(_why_not(name, kind), key=name)
    constructors: dict[str, Callable[..., Scenario]] = {
        "waypoint": Scenario.waypoint, "waypoint-steady": Scenario.waypoint_steady,
        "gauss-markov": Scenario.gauss_markov,
        "manhattan": Scenario.manhattan, "ns2": Scenario.from_ns2, "bonnmotion": Scenario.from_bonnmotion,
        "fcd": Scenario.from_fcd,
    }
    arguments = {name: value for name, value in given.items() if name not in ("model", *FILES)}
    return constructors[kind](*[given[name] for name in kinds], **arguments)


def run(
    prefix: Path, *, loss: float | None = None, repeat: float | None = None, delay: int | tuple[int, int] | None = None,
    channel_seed: int | None = None, notice: bool = False, until: int | None = None, channel_file: Path | None = None, erasure: str | None = None,
    program: Path | None = None, time_limit: float | None = None, overwrite: bool = False,
) -> str:
    """Simulates ``PREFIX.sim``, which has ``PREFIX.json`` beside it, and writes ``PREFIX.trace``.

    Also writes ``PREFIX.manifest.json``.

    Parameters are those of `tora.Scenario.run`.

    Returns
    -------
    str
        The path of the trace.
    """
    asked = Simulation(loss, repeat, delay, channel_seed, notice, until, channel_file, erasure)
    return running.run_files(prefix, asked, program, TIME_LIMIT if time_limit is None else time_limit, overwrite)


def measure(
    scenario: Path, trace: Path, out: Path | None = None, *, traffic: str | float | None = None, hop: int | None = None,
    ttl: int | None = None, version: str | None = None, header: bool = True, overwrite: bool = False,
) -> str:
    """The row of a run as CSV.

    Parameters
    ----------
    scenario, trace : path
        ``PREFIX.json`` and the trace of its run.
    out : path, optional
        A file that the text is written to.
    traffic, hop, ttl
        As of `tora.Run.measure`.
    version : str, optional
        What the program calls itself, for the row; that of ``PREFIX.manifest.json`` beside the trace, if that is there.
    header : bool
        Whether a row with the names of the columns comes first.
    overwrite : bool
        Whether a file that exists is replaced.

    Returns
    -------
    str
        The text, each line with its end.
    """
    load = Load.asked(traffic, hop, ttl)
    found = Run.read(scenario, trace, version=_version(trace) if version is None else word_of(version))
    names = metrics.columns(load is not None)
    row = metrics.measure(found.scenario, found.trace, load, found.version).row
    text = (",".join(names) + "\n" if header else "") + row_text(row, names) + "\n"
    if out is not None:
        write_file(out, text, inputs=[scenario, trace], overwrite=overwrite)
    return text


def verify(manifests: Sequence[Path], *, program: Path | None = None, time_limit: float | None = None) -> list[str]:
    """Makes the runs of manifests again, and compares them byte for byte; see `tora.manifest.verify`.

    Returns
    -------
    list of str
        A line for each run.

    Raises
    ------
    StudyError
        With the first run that differs.
    """
    if not manifests:
        raise UsageError("no manifest is named")
    return [manifest.verify(path, program, TIME_LIMIT if time_limit is None else time_limit) for path in manifests]


def word_of(version: str) -> str:
    """A version as a cell: without what divides cells and lines."""
    return " ".join(version.replace(",", " ").replace('"', " ").split())


def _version(trace: Path) -> str:
    """The version in the manifest beside a trace, if the trace is the one of the manifest."""
    path = f"{os.fspath(trace).removesuffix('.trace')}.manifest.json"
    if not os.path.isfile(path):
        return ""
    told = manifest.read_manifest(path)
    if manifest.digest_of_file(trace) != told["outputs"]["trace"]:
        raise StudyError("the trace is not that of the manifest beside it", file=trace)
    return word_of(str(told["program"].get("version", "")))


def _why_not(name: str, kind: str) -> str:
    """Why an option does not fit a kind of motion."""
    owners = [other for other, taken in TAKEN.items() if name in taken]
    if not owners:
        return "there is no such option"
    if kind in FILES:
        return f"it cannot be combined with {kind}, which has its own motion"
    return f"it cannot be combined with the model {kind}; it belongs to {', '.join(owners)}"
