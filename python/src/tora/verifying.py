"""Repeats runs of a study, and compares them with its manifest and its table."""
from __future__ import annotations

import hashlib
import json
import os
import tempfile
from collections.abc import Iterator, Sequence
from typing import Any

from tora import comparison_runs, manifest, metrics, sweeping
from tora.errors import StudyError, UsageError, shown
from tora.files import Path, reading
from tora.program import Program
from tora.study import Planned, Study


def verify_study(
    folder: str, names: Sequence[str] = (), everything: bool = False, program: Path | None = None, time_limit: float | None = None,
) -> Iterator[str]:
    """Yields a line for the table, and one for each run that is made again and is the same; of a study, or of an ns-3 comparison.

    Parameters
    ----------
    folder : str
        With ``manifest.json`` and a table.
    names : names of runs
        The first run without it.
    everything : bool
        All runs.
    program : path, optional
        The program of the manifest by default; one with another SHA-256 is refused.
    time_limit : float, optional
        Seconds after which a run is ended; that of the manifest by default.

    Raises
    ------
    StudyError
        Where an input, the program, the table, a run's file or its row differs from the manifest.
    """
    told = _manifest(folder)
    if "study" not in told:
        if program is not None or time_limit is not None:
            raise UsageError("it is not for a comparison", key="--time-limit" if program is None else "--program")
        yield from comparison_runs.verify(folder, told, names, everything)
        return
    study, rows, found = _checked(folder, told, program)
    planned = {run.name: run for run in study.runs()}
    for name in names:
        if name not in planned:
            raise UsageError(f"the study has no run `{shown(name)}`", file=folder)
    yield f"{folder}/study.csv: the table of the manifest, {len(rows)} runs"
    for name, value in sweeping.versions()["libraries"].items():
        if value != told["libraries"].get(name):
            yield f"{name} is {value} here, and was {told['libraries'].get(name)}"
    for name in planned if everything else names or list(planned)[:1]:
        yield _made_again(study, planned[name], told, rows, found, float(time_limit or told["program"]["time_limit"]))


def _checked(folder: str, told: dict[str, Any], program: Path | None) -> tuple[Study, dict[str, str], Program]:
    """The study of a manifest, its rows, and its program; refuses any that is another one, and another input."""
    study = Study.read(folder)
    if json.loads(study.written()) != told["study"]:
        raise StudyError("study.json tells of another study than the manifest", file=os.path.join(folder, "manifest.json"))
    rows = _rows(folder, told)
    found = Program.find(program if program is not None else told["program"]["words"])
    if manifest.digests_of_program(found) != told["program"]["sha256"]:
        raise StudyError("the program is another one than that of the manifest; --program names it", file=found.words[0])
    for name, digest in told["inputs"].items():
        if manifest.digest_of_file(name) != digest:
            raise StudyError("it is not the file that the study was made of", file=name)
    return study, rows, found


def _manifest(folder: str) -> dict[str, Any]:
    """The manifest of a study."""
    path = os.path.join(folder, "manifest.json")
    try:
        with reading(path, "utf-8") as source:
            told = json.load(source)
        for key in ("table", "runs", "libraries", *(("inputs",) if "study" in told else ())):
            told[key]
        for key in ("sha256", *(("words", "time_limit") if "study" in told else ("paths",))):
            told["program"][key]
    except (ValueError, KeyError, TypeError, RecursionError):
        raise StudyError("it is no manifest of a study", file=path) from None
    return dict(told)


def _rows(folder: str, told: dict[str, Any]) -> dict[str, str]:
    """By run its line of the table; refuses a table that is not that of the manifest."""
    path = os.path.join(folder, "study.csv")
    with reading(path, "utf-8") as source:
        text = source.read()
    if hashlib.sha256(text.encode()).hexdigest() != told["table"]:
        raise StudyError("it is not the table of the manifest", file=path)
    return dict(zip(told["runs"], text.splitlines()[1:]))


def _made_again(study: Study, run: Planned, told: dict[str, Any], rows: dict[str, str], program: Program, time_limit: float) -> str:
    """Makes a run again; answers a line where all is the same."""
    with tempfile.TemporaryDirectory(prefix="tora-") as work:
        _, record = sweeping.made(study, run, program, time_limit, os.path.join(work, "run"))
    for what, digest in record["sha256"].items():
        if digest != told["runs"][run.name]["sha256"].get(what):
            raise StudyError(f"the run that is made again has another {what.replace('_', ' ')}", file=run.name)
    if metrics.row_text(record["row"], metrics.columns(study.traffic is not None)) != rows[run.name]:
        raise StudyError("the run that is made again has another row", file=run.name)
    return f"{run.name}: the same {', '.join(what.replace('_', ' ') for what in record['sha256'])} and row"
