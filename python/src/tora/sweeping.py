"""The parts of a sweep: a batch of runs, and the table and the manifest of all.

  python -m tora.sweeping all DIR JOBS               makes every run that has no row yet, JOBS at a time, and then the table
  python -m tora.sweeping batch DIR NUMBER OF JOBS   makes the runs NUMBER, NUMBER + OF, .. (from 0) that have no row yet, JOBS at a time
  python -m tora.sweeping table DIR                  makes DIR/study.csv and DIR/manifest.json, once all runs have rows; then DIR/summary.txt,
                                                     and DIR/study.png and DIR/index.html if the study has them

A run leaves DIR/rows/NAME.json, whole or not at all; a run that fails leaves DIR/logs/NAME.log, and the others go on. Exit status: 0 where all is done, else
that of the first failure.
"""
from __future__ import annotations

import functools
import hashlib
import json
import multiprocessing
import os
import platform
import shutil
import sys
import tempfile
from collections.abc import Sequence
from concurrent.futures import ProcessPoolExecutor
from typing import Any

from tora import manifest, metrics
from tora.commands import make_scenario
from tora.errors import StudyError, UsageError
from tora.files import naming, reading, write_file, write_files
from tora.page import page_text
from tora.program import TIME_LIMIT, Program
from tora.study import Planned, Study

ROWS, LOGS, RUNS = "rows", "logs", "runs"
KEPT = ("sim", "json", "trace", "channel", "manifest.json")


def program_of(folder: str) -> tuple[Program, float]:
    """The program of a study, and the seconds that a run may take; refuses one that is not the program that the study began with."""
    path = os.path.join(folder, "program.json")
    with reading(path, "utf-8") as source:
        told = json.load(source)
    program = Program(tuple(told["words"]))
    if manifest.digests_of_program(program) != told["sha256"]:
        raise StudyError("the program is another one than that of the study's first runs", file=program.words[0])
    return program, float(told["time_limit"])


def begin_program(folder: str, study: Study, program: Program, time_limit: float | None, arguments: Sequence[str]) -> None:
    """Writes down the program of a study, and the arguments of its last sweep; refuses another program than that of its first runs."""
    path = os.path.join(folder, "program.json")
    if os.path.exists(path):
        with reading(path, "utf-8") as source:
            told = json.load(source)
        if told["sha256"] != manifest.digests_of_program(program):
            raise StudyError("the program is another one than that of the study's first runs", file=program.words[0])
    else:
        program.version()  # a launcher may compile the program first
        told = {"sha256": manifest.digests_of_program(program)}
    told |= {"words": [os.path.abspath(program.words[0]), *program.words[1:]], "arguments": list(arguments)}
    told |= {"time_limit": TIME_LIMIT if time_limit is None else time_limit}
    told |= {"picture": study.picture(), "page": study.page, "runs": study.count()}
    write_file(path, json.dumps(told, indent=1) + "\n", overwrite=True)


def row_path(folder: str, name: str) -> str:
    """The file of a run's row."""
    return os.path.join(folder, ROWS, f"{name}.json")


def products(study: Study) -> list[str]:
    """The files that a study has once all runs have rows."""
    return ["study.csv", "manifest.json", "summary.txt", *(["study.png"] if study.picture() else []), *(["index.html"] if study.page else [])]


def missing(folder: str, study: Study) -> list[Planned]:
    """The runs that have no row yet."""
    return [run for run in study.runs() if not os.path.exists(row_path(folder, run.name))]


def make_batch(folder: str, number: int, of: int, jobs: int) -> int:
    """Makes the runs of a batch that have no row, this many at a time; returns the exit status."""
    study = Study.read(folder)
    program, time_limit = program_of(folder)
    left = [run for run in study.runs()[number::of] if not os.path.exists(row_path(folder, run.name))]
    one = functools.partial(try_run, folder, study, program, time_limit)
    if jobs <= 1 or len(left) <= 1:
        return max(map(one, left), default=0)
    import scipy.spatial  # noqa: F401  # a fork has read all modules that a run needs
    with ProcessPoolExecutor(min(jobs, len(left)), mp_context=multiprocessing.get_context("fork")) as pool:
        return max(pool.map(one, left))


def make_all(folder: str, jobs: int) -> int:
    """Makes the runs that have no row, and then the table, unless nothing of either is missing; answers the exit status."""
    study = Study.read(folder)
    is_made = not missing(folder, study) and all(os.path.exists(os.path.join(folder, name)) for name in products(study))
    status = make_batch(folder, 0, 1, jobs)
    if not status and not is_made:
        make_table(folder)
    return status


def try_run(folder: str, study: Study, program: Program, time_limit: float, run: Planned) -> int:
    """Makes a run, or leaves a log that says why it failed; returns the exit status."""
    log = os.path.join(folder, LOGS, f"{run.name}.log")
    try:
        make_run(folder, study, run, program, time_limit)
    except StudyError as cause:
        write_file(log, f"{cause}\n", overwrite=True)
        return cause.status
    except KeyboardInterrupt:
        os._exit(130)  # a process of a pool would begin its next run
    if os.path.exists(log):
        os.remove(log)
    return 0


def make_run(folder: str, study: Study, run: Planned, program: Program, time_limit: float) -> None:
    """Makes a run, measures it, and leaves its row; its files and its page, where the study keeps them."""
    with tempfile.TemporaryDirectory(prefix="tora-") as work:
        found, record = made(study, run, program, time_limit, os.path.join(work, "run"))
        if study.page:
            page = page_text(run.name, found.scenario, found.trace)
            write_file(os.path.join(folder, RUNS, f"{run.name}.html"), page, overwrite=True)
        if study.keep:
            for end in KEPT:
                if os.path.exists(f"{work}/run.{end}"):
                    _copy(f"{work}/run.{end}", os.path.join(folder, RUNS, f"{run.name}.{end}"))
    write_file(row_path(folder, run.name), json.dumps(record) + "\n", overwrite=True)


def made(study: Study, run: Planned, program: Program, time_limit: float, prefix: str) -> tuple[Any, dict[str, Any]]:
    """A run, and the record of it: its options, its row, and the SHA-256 of each of its files."""
    scenario = make_scenario(**run.of_scenario())
    found = scenario.run(prefix=prefix, program=program, time_limit=time_limit, **run.of_run())
    row = found.measure(study.traffic, hop=study.hop, ttl=study.ttl).row
    told = manifest.read_manifest(f"{prefix}.manifest.json")
    digests = {**told["inputs"], **told["outputs"]}
    return found, {"name": run.name, "seed": run.seed, "options": run.options, "sha256": digests, "row": row}


def _copy(source: str, target: str) -> None:
    """Copies a file whole, or not at all."""
    with naming(target):
        part = f"{target}.{os.getpid()}.part"
        shutil.copyfile(source, part)
        os.replace(part, target)


def make_table(folder: str) -> None:
    """Writes ``study.csv`` and ``manifest.json``, once all runs have rows; then what shows them."""
    study = Study.read(folder)
    left = missing(folder, study)
    if left:
        cause = f"{len(left)} of {study.count()} runs have no row, the first one {left[0].name}; a table of the others would be of another study"
        raise StudyError(cause, file=folder)
    records = []
    for run in study.runs():
        with reading(row_path(folder, run.name), "utf-8") as source:
            records.append(json.load(source))
    names = metrics.columns(study.traffic is not None)
    table = ",".join(names) + "\n" + "".join(metrics.row_text(record["row"], names) + "\n" for record in records)
    paths = {name: os.path.join(folder, name) for name in ("study.csv", "manifest.json")}
    write_files({paths["study.csv"]: table, paths["manifest.json"]: manifest_text(folder, study, records, table)}, overwrite=True)
    show(folder)


def show(folder: str) -> None:
    """Writes the summary, the picture and the page of a study that has a table."""
    from tora.derived import with_derived  # these take longer to read than a run to make
    from tora.summary import summarize, text_lines
    from tora.table import read_table

    study, path = Study.read(folder), os.path.join(folder, "study.csv")
    table, by = with_derived(read_table(path)), study.picture()
    write_file(os.path.join(folder, "summary.txt"), "\n".join(text_lines(summarize(table))) + "\n", [path], overwrite=True)
    if by is not None:
        from tora import plots
        plots.write_picture(plots.by_column(table, by), os.path.join(folder, "study.png"), [path], overwrite=True)
    if study.page:
        from tora.page.index import write_index
        write_index(folder, overwrite=True)


def manifest_text(folder: str, study: Study, records: list[dict[str, Any]], table: str) -> str:
    """The text of the manifest of a study."""
    with reading(os.path.join(folder, "program.json"), "utf-8") as source:
        program = json.load(source)
    inputs = {str(study.options[name]): manifest.digest_of_file(study.options[name]) for name in ("ns2", "bonnmotion", "fcd") if name in study.options}
    found = Program(tuple(program["words"]))
    arguments, program = program["arguments"], {name: program[name] for name in ("words", "sha256", "time_limit")}
    told = {
        "format": 1, "commit": manifest.commit_of(found), "program": {**program, "version": found.version()}, "arguments": arguments,
        "study": json.loads(study.written()), "seeds": list(range(1, study.seeds + 1)), "inputs": inputs, **versions(),
        "table": hashlib.sha256(table.encode()).hexdigest(), "runs": {record["name"]: {key: record[key] for key in ("seed", "options", "sha256")} for record in records},
    }
    return json.dumps(told, indent=1) + "\n"


def versions() -> dict[str, Any]:
    """The versions of Python and of the libraries that a study is made with."""
    names = (*manifest.LIBRARIES, "matplotlib", "snakemake")
    return {"python": platform.python_version(), "libraries": {name: manifest.library_version(name) for name in names}}


def main(words: Sequence[str]) -> int:
    """Does what the sweep or the workflow asks for; answers the exit status."""
    try:
        if len(words) == 3 and words[0] == "all" and words[2].isdecimal():
            return make_all(words[1], int(words[2]))
        if len(words) == 5 and words[0] == "batch" and all(word.isdecimal() for word in words[2:]):
            return make_batch(words[1], *map(int, words[2:]))
        if len(words) == 2 and words[0] == "table":
            make_table(words[1])
            return 0
        raise UsageError("all DIR JOBS, batch DIR NUMBER OF JOBS, or table DIR is needed; tora-study sweep calls this")
    except StudyError as cause:
        print(f"tora-study: {cause}", file=sys.stderr)
        return cause.status


if __name__ == "__main__":
    sys.exit(main(sys.argv[1:]))
