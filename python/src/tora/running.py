"""Runs of the program `tora` on scenarios: their files and their manifests."""
from __future__ import annotations

import dataclasses
import os
import shutil
import tempfile
from typing import TYPE_CHECKING

from tora import manifest
from tora.building import digest_of
from tora.errors import StudyError, UsageError
from tora.files import Path, check_outputs, naming, reading, write_files
from tora.program import Program
from tora.run import Run
from tora.simulation import Simulation
from tora.trace import Trace

if TYPE_CHECKING:
    from tora.scenario import Scenario

DEFAULT_TIMES = (10, 50, 5, 8)  # of a link end of the program


def words_of(scenario: Scenario, asked: Simulation) -> list[str]:
    """The words of ``tora sim`` for a scenario, without its files."""
    words = ["sim", *asked.words()]
    if tuple(scenario.times) != DEFAULT_TIMES:
        words += ["--times", ",".join(map(str, scenario.times))]
    return words + (["--large"] if scenario.large else [])


def run_scenario(
    scenario: Scenario, asked: Simulation, edge_loss: float | None, prefix: Path | None, program: Path | Program | None,
    time_limit: float, overwrite: bool,
) -> Run:
    """Simulates a scenario; see `tora.Scenario.run`."""
    asked.words()  # refuses what can't be, before anything is made
    if edge_loss is not None:
        if asked.channel_file is not None:
            raise UsageError("it cannot be combined with a channel file, which has its own losses", key="edge_loss")
        scenario = scenario.with_edge_loss(edge_loss)
    found = program if isinstance(program, Program) else Program.find(program)
    if prefix is None:
        return _run_in_folder(scenario, asked, edge_loss, found, time_limit)
    name = os.fspath(prefix)
    texts = scenario.texts(name)
    if edge_loss is not None:
        texts[f"{name}.channel"] = scenario.channel_text(edge_loss)
        asked = dataclasses.replace(asked, channel_file=f"{name}.channel")
    inputs = [] if asked.channel_file is None or edge_loss is not None else [asked.channel_file]
    check_outputs([*texts, f"{name}.trace", f"{name}.manifest.json"], inputs, overwrite)
    output, version = _simulate(scenario, asked, name, texts, found, time_limit)
    return Run(scenario, Trace.read(f"{name}.trace"), version=version, output=output)


def run_files(
    prefix: Path, asked: Simulation, program: Path | Program | None, time_limit: float, overwrite: bool
) -> str:
    """Simulates ``PREFIX.sim``, beside which ``PREFIX.json`` stands; returns the path of the trace."""
    asked.words()
    name = os.fspath(prefix)
    scenario = read_scenario(name)
    found = program if isinstance(program, Program) else Program.find(program)
    inputs = [f"{name}.sim", f"{name}.json", *([] if asked.channel_file is None else [asked.channel_file])]
    check_outputs([f"{name}.trace", f"{name}.manifest.json"], inputs, overwrite)
    _simulate(scenario, asked, name, {}, found, time_limit)
    return f"{name}.trace"


def read_scenario(prefix: str) -> Scenario:
    """The scenario of ``PREFIX.json`` with the lines of ``PREFIX.sim``.

    Refuses a simulation file that is not that of the description.
    """
    from tora.scenario import Scenario

    scenario = Scenario.read(f"{prefix}.json")
    with reading(f"{prefix}.sim") as source:
        lines = source.read().split("\n")
    lines = lines[:-1] if lines[-1] == "" else lines
    if scenario.digest is not None and digest_of(lines) != scenario.digest:
        raise StudyError(f"it is not the simulation file that {prefix}.json describes", file=f"{prefix}.sim")
    return dataclasses.replace(scenario, lines=tuple(lines))


def _run_in_folder(
    scenario: Scenario, asked: Simulation, edge_loss: float | None, program: Program, time_limit: float
) -> Run:
    """Simulates a scenario in a folder that is deleted when the run is, or where it fails."""
    folder = tempfile.mkdtemp(prefix="tora-")
    try:
        run = run_scenario(scenario, asked, edge_loss, os.path.join(folder, "run"), program, time_limit, False)
        return Run(run.scenario, run.trace, version=run.version, output=run.output, folder=folder)
    except BaseException:
        shutil.rmtree(folder, ignore_errors=True)
        raise


def _simulate(
    scenario: Scenario, asked: Simulation, name: str, texts: dict[str, str], program: Program, time_limit: float
) -> tuple[str, str]:
    """Writes the texts, the trace and the manifest of a run, all of them once they are whole.

    Answers what is printed, and the version.
    """
    version = manifest.version_of(program)
    place = os.path.dirname(os.path.realpath(f"{name}.trace"))
    with naming(place):
        work = tempfile.mkdtemp(prefix=".tora-", dir=place)
    try:
        own = {path: os.path.join(work, os.path.basename(path)) for path in texts}
        write_files({own[path]: text for path, text in texts.items()})
        channel = None if asked.channel_file is None else own.get(os.fspath(asked.channel_file), asked.channel_file)
        words = words_of(scenario, dataclasses.replace(asked, channel_file=channel))
        trace, simulation = os.path.join(work, "trace"), own.get(f"{name}.sim", f"{name}.sim")
        output = program.run(*words, "--trace", trace, simulation, time_limit=time_limit).output
        told = manifest.of_run(scenario, asked, program, version, simulation, channel, trace, output)
        write_files({os.path.join(work, "manifest"): told})
        made = own | {f"{name}.trace": trace, f"{name}.manifest.json": os.path.join(work, "manifest")}
        for path, there in made.items():
            with naming(path):
                os.replace(there, os.path.realpath(path))
    finally:
        shutil.rmtree(work, ignore_errors=True)
    return output, version
