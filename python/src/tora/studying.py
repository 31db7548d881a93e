"""The word sweep of `tora-study`: begins a study, and has it made on this machine, or by snakemake on a cluster."""
from __future__ import annotations

import argparse
import fcntl
import multiprocessing
import os
import subprocess
import sys
from collections.abc import Iterator
from contextlib import contextmanager, redirect_stderr, redirect_stdout
from importlib import resources
from typing import Any, TextIO

from tora import sweeping
from tora.errors import StudyError, UsageError, shown
from tora.files import Path, naming, reading
from tora.options import CHANNEL, EDGE_LOSS, FILES, SCENARIO, WHOLE, given, varied_values
from tora.program import Program
from tora.study import Study

SHOWN = 5  # failed runs that are told one by one
LOG = "sweep.log"  # of what makes the runs


def study_of(found: argparse.Namespace) -> Study:
    """The study that the command line asks for."""
    options = given(found, {**SCENARIO, **FILES, **CHANNEL, **EDGE_LOSS})
    nodes = options.pop("nodes", [])
    for word in nodes:
        if not WHOLE.fullmatch(word):
            raise UsageError(f"`{shown(word)}` is no whole number", key="--nodes")
    for name in ("ns2", "bonnmotion", "fcd"):
        if name in options:
            options[name] = os.path.abspath(options[name])
    vary: dict[str, list[Any]] = {}
    for word in found.vary:
        name, values = varied_values(word)
        if name in vary:
            raise UsageError(f"{name} is repeated", key="--vary")
        vary[name] = values
    study = Study([int(word) for word in nodes], found.seeds, vary, options, found.traffic, found.hop, found.ttl, found.keep, found.page)
    study.check()
    return study


@contextmanager
def locked(folder: Path) -> Iterator[int]:
    """Keeps other sweeps out of a folder, for as long as this process lives, or one that has the file descriptor that is yielded."""
    path = os.path.join(folder, ".lock")
    with naming(path), open(path, "w", encoding="ascii") as sink:
        try:
            fcntl.flock(sink, fcntl.LOCK_EX | fcntl.LOCK_NB)
        except BlockingIOError:
            raise StudyError("another sweep is at work in this folder", file=folder) from None
        yield sink.fileno()


def do_sweep(found: argparse.Namespace) -> int:
    """Makes the runs of a study that have no row yet, its table and its pictures; answers the exit status."""
    folder = os.path.abspath(found.folder)
    study = study_of(found)
    if found.batches and found.profile is None:
        raise UsageError("it needs --profile", key="--batches")
    program = Program.find(found.program)
    study.begin(folder)
    with locked(folder) as lock:
        sweeping.begin_program(folder, study, program, found.time_limit, ["tora-study", *found.words])
        for name in (sweeping.ROWS, sweeping.LOGS, sweeping.RUNS):
            os.makedirs(os.path.join(folder, name), exist_ok=True)
        status = make(folder, study, found, lock)
    failed = sweeping.missing(folder, study)
    for run in failed[:SHOWN]:
        print(f"tora-study sweep: the run {run.name} has no row: {_log(folder, run.name)}", file=sys.stderr)
    if len(failed) > SHOWN:
        print(f"tora-study sweep: and {len(failed) - SHOWN} more", file=sys.stderr)
    if status and not failed:
        print(f"tora-study sweep: {_last_line(os.path.join(folder, sweeping.LOGS, LOG))}", file=sys.stderr)
    if status or failed:
        return 1
    print(f"{found.folder}: {study.count()} runs; {', '.join(sweeping.products(study))}")
    return 0


def _last_line(log: str) -> str:
    """The last line of a log that reports an error, and where the log is."""
    with reading(log, "utf-8") as source:
        lines = [line.strip() for line in source if line.strip()]
    told = [line for line in lines if line.startswith("tora-study") or "Error" in line or "exception" in line] or lines
    return f"{told[-1] if told else 'it failed without a word'} ({log})"


def _log(folder: str, name: str) -> str:
    """Why a run failed, where that is known."""
    path = os.path.join(folder, sweeping.LOGS, f"{name}.log")
    if not os.path.exists(path):
        return f"it was not made; logs/{LOG} may say why"
    with reading(path, "utf-8") as source:
        return source.readline().strip()


def make(folder: str, study: Study, found: argparse.Namespace, lock: int) -> int:
    """Has the runs and the table made by a process that holds the lock of the folder, too; answers its exit status."""
    log = os.path.join(folder, sweeping.LOGS, LOG)
    jobs = found.jobs or len(os.sched_getaffinity(0))
    with naming(log), open(log, "a", encoding="utf-8") as sink:
        if found.profile is not None:
            return snakemake(folder, study, found, jobs, sink, lock)
        # a fork has read all modules already
        process = multiprocessing.get_context("fork").Process(target=_make_here, args=(folder, jobs, sink))
        process.start()
        process.join()
        return abs(process.exitcode or 0)


def _make_here(folder: str, jobs: int, sink: TextIO) -> None:
    """Makes a study in this process, whose output goes to a log, and ends with the exit status."""
    for descriptor in (1, 2):
        os.dup2(sink.fileno(), descriptor)
    with redirect_stdout(sink), redirect_stderr(sink):
        status = sweeping.main(["all", folder, str(jobs)])
    sys.exit(status)


def snakemake(folder: str, study: Study, found: argparse.Namespace, jobs: int, sink: TextIO, lock: int) -> int:
    """Has snakemake make a study in batches by a profile; answers its exit status."""
    workflow = resources.files("tora").joinpath("workflow")
    own = workflow.joinpath("profiles", found.profile)
    words = [
        sys.executable, "-m", "snakemake", "--snakefile", str(workflow.joinpath("Snakefile")), "--directory", folder, "--nolock", "--keep-going",
        "--rerun-incomplete", "--rerun-triggers", "mtime", "--profile", str(own) if own.is_dir() else found.profile,
        *(["--jobs", str(jobs)] if found.jobs else []), "--config", f"batches={min(found.batches or 2 * jobs, study.count())}", "jobs=1",
    ]
    environment = os.environ | {"PYTHONPATH": str(resources.files("tora").joinpath(".."))}
    return subprocess.run(words, stdin=subprocess.DEVNULL, stdout=sink, stderr=sink, env=environment, pass_fds=[lock]).returncode
