"""The manifest of a run, ``PREFIX.manifest.json``: what it was made of, so that it can be made again and compared."""
from __future__ import annotations

import dataclasses
import functools
import hashlib
import importlib.metadata
import json
import os
import pathlib
import platform
import subprocess
import tempfile
from typing import TYPE_CHECKING, Any

from tora.errors import StudyError
from tora.files import Path, naming, reading
from tora.program import TIME_LIMIT, Program
from tora.simulation import Simulation

if TYPE_CHECKING:
    from tora.scenario import Scenario

FORMAT = 1
LIBRARIES = ("numpy", "pandas", "scipy", "networkx", "jsonschema")


def of_run(
    scenario: Scenario, asked: Simulation, program: Program, version: str, simulation: Path, channel: Path | None,
    trace: Path, output: str
) -> str:
    """The text of the manifest of a run.

    It is made of the simulation file, the channel file, the trace, and what was printed.
    """
    arguments = {
        name: value for name, value in dataclasses.asdict(asked).items() if value is not None and value is not False
    }
    if channel is not None:
        arguments["channel_file"] = os.path.basename(os.fspath(asked.channel_file or channel))
    inputs = {"simulation": digest_of_file(simulation)} | (
        {} if channel is None else {"channel_file": digest_of_file(channel)}
    )
    told = {
        "format": FORMAT, "arguments": arguments, "times": list(scenario.times), "large": scenario.large,
        "seeds": {"scenario": scenario.seed, "channel": asked.channel_seed},
        "program": {"version": version, "sha256": digests_of_program(program)}, "commit": commit_of(program),
        "inputs": inputs,
        "outputs": {"trace": digest_of_file(trace), "printed": hashlib.sha256(output.encode()).hexdigest()},
        "python": platform.python_version(), "libraries": {name: library_version(name) for name in LIBRARIES},
    }
    return json.dumps(told, indent=1, sort_keys=True) + "\n"


def verify(path: Path, program: Path | Program | None = None, time_limit: float = TIME_LIMIT) -> str:
    """Repeats the run of a manifest, and compares the results with the manifest.

    Answers a line that says what is the same.

    Parameters
    ----------
    path : path
        ``PREFIX.manifest.json``; ``PREFIX.sim`` and a channel file are beside it, and ``PREFIX.trace``, if it is
        there, is compared, too.
    program : path, optional
        As of `tora.program.Program.find`.
    time_limit : float
        Seconds.

    Raises
    ------
    StudyError
        Where a file is not the one that the run was made of, or the trace or what is printed differs, with the first
        line that does.
    """
    told = read_manifest(path)
    prefix = os.fspath(path).removesuffix(".manifest.json")
    if prefix == os.fspath(path):
        raise StudyError("the name of a manifest ends with .manifest.json", file=path)
    found = program if isinstance(program, Program) else Program.find(program)
    arguments = told["arguments"]
    if "channel_file" in arguments:
        arguments = arguments | {"channel_file": os.path.join(os.path.dirname(prefix), arguments["channel_file"])}
        _compare(arguments["channel_file"], told["inputs"].get("channel_file"), "the channel file")
    _compare(f"{prefix}.sim", told["inputs"]["simulation"], "the simulation file")
    if os.path.exists(f"{prefix}.trace"):
        _compare(f"{prefix}.trace", told["outputs"]["trace"], "the trace")
    delay = arguments.get("delay")
    words = ["sim", *Simulation(**(arguments | ({"delay": tuple(delay)} if isinstance(delay, list) else {}))).words()]
    words += ["--times", ",".join(map(str, told["times"]))] + (["--large"] if told["large"] else [])
    with tempfile.TemporaryDirectory(prefix="tora-") as work:
        output = found.run(*words, "--trace", f"{work}/trace", f"{prefix}.sim", time_limit=time_limit).output
        if digest_of_file(f"{work}/trace") != told["outputs"]["trace"]:
            raise StudyError(
                f"the run that is made again has another trace{_first_difference(f'{prefix}.trace', f'{work}/trace')}",
                file=path
            )
    if hashlib.sha256(output.encode()).hexdigest() != told["outputs"]["printed"]:
        raise StudyError("the run that is made again prints something else", file=path)
    is_same = digests_of_program(found) == told["program"]["sha256"]
    by = "the same program" if is_same else f"another program, {version_of(found)}"
    return f"{prefix}: the same trace and output, by {by}"


def digest_of_file(path: Path) -> str:
    """SHA-256 of a file."""
    with naming(path), open(path, "rb") as source:
        return hashlib.file_digest(source, "sha256").hexdigest()


def digests_of_program(program: Program) -> dict[str, str]:
    """SHA-256 of the file of a program, and of what the repository's launcher runs, by their names."""
    return dict(_digests(_identity(program)))


def commit_of(program: Program) -> str | None:
    """The commit of the repository that has the program, with ``+changed`` if files of it differ from it.

    None if it is in no repository. While the program's files do not change, the first answer is used again.
    """
    return _commit(_identity(program))


def version_of(program: Program) -> str:
    """The version that a program prints; it is run again only if its files have changed."""
    return _version(program, _identity(program))


Identity = tuple[tuple[str, int, int, int], ...]  # of each file its path, its number, when it was changed, its size


def _identity(program: Program) -> Identity:
    """A value that changes if the files of a program, or those that the repository's launcher runs, change."""
    path = pathlib.Path(program.words[0])
    files = [path]
    if (path.parent / "crates.txt").is_file():
        files += [path.parent / "crates/tora/out/tora", path.parent / "out/tora_unproved"]
    found = []
    for each in [each for each in files if each.is_file()]:
        state = each.stat()
        found.append((str(each), state.st_ino, state.st_mtime_ns, state.st_size))
    return tuple(found)


@functools.lru_cache
def _digests(identity: Identity) -> tuple[tuple[str, str], ...]:
    """SHA-256 of files, by their names from the folder of the first one."""
    place = os.path.dirname(identity[0][0]) if identity else ""
    return tuple((os.path.relpath(path, place), digest_of_file(path)) for path, *_ in identity)


@functools.lru_cache
def _commit(identity: Identity) -> str | None:
    """The commit of the repository that has the first file."""
    answers = []
    for words in (("rev-parse", "HEAD"), ("status", "--porcelain", "--untracked-files=no")):
        try:
            command = ["git", "-C", os.path.dirname(os.path.realpath(identity[0][0])), *words]
            done = subprocess.run(command, capture_output=True, text=True, timeout=60, stdin=subprocess.DEVNULL)
        except (OSError, IndexError, subprocess.TimeoutExpired):
            return None
        if done.returncode:
            return None
        answers.append(done.stdout.strip())
    return answers[0] + ("+changed" if answers[1] else "")


@functools.lru_cache
def _version(program: Program, identity: Identity) -> str:
    """What a program calls itself."""
    return program.version()


@functools.cache
def library_version(name: str) -> str | None:
    """The version of a library that is installed; it is looked up once in a process."""
    try:
        return importlib.metadata.version(name)
    except importlib.metadata.PackageNotFoundError:
        return None


def read_manifest(path: Path) -> dict[str, Any]:
    """A manifest of a file."""
    try:
        with reading(path, "utf-8-sig", "strict") as source:
            told = json.load(source)
    except json.JSONDecodeError as cause:
        raise StudyError(cause.msg, file=path, line=cause.lineno) from None
    except (ValueError, RecursionError):
        raise StudyError("no manifest", file=path) from None
    if not isinstance(told, dict) or told.get("format") != FORMAT:
        raise StudyError(f"no manifest of format {FORMAT}", file=path)
    kinds = {"arguments": dict, "times": list, "large": bool, "program": dict, "inputs": dict, "outputs": dict}
    for key, kind in kinds.items():
        if not isinstance(told.get(key), kind):
            raise StudyError("it is missing, or of another type", file=path, key=key)
    for key, part in (("inputs", "simulation"), ("outputs", "trace"), ("outputs", "printed"), ("program", "sha256")):
        if part not in told[key]:
            raise StudyError("it is missing", file=path, key=f"{key}.{part}")
    known = {each.name for each in dataclasses.fields(Simulation)}
    for name in told["arguments"]:
        if name not in known:
            raise StudyError("there is no such argument", file=path, key=f"arguments.{name}")
    return told


def _compare(path: Path, digest: Any, what: str) -> None:
    """Refuses a file that has another digest."""
    if digest_of_file(path) != digest:
        raise StudyError(f"{what} is not that of the manifest", file=path)


def _first_difference(one: str, other: str) -> str:
    """Where two files differ first, if both are there."""
    if not os.path.exists(one):
        return ""
    with reading(one) as first, reading(other) as second:
        for number, (mine, yours) in enumerate(zip(first, second), 1):
            if mine != yours:
                return f", from line {number} on"
    return ", which is longer or shorter"
