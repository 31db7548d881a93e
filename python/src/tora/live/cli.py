"""Compares `tora-routes` with other routing daemons in network namespaces of this machine.

Each run is a network of hosts with one protocol, at rest and under faults on the way of its data. A run that OUT has
already is not made again, so the same command goes on. OUT then has `live.csv` (a row for each phase of a run),
`tables.md`, `mended.svg` and `cost.svg`.
"""
from __future__ import annotations

import argparse
import contextlib
import csv
import multiprocessing
import os
import pathlib
import platform
import shutil
import signal
import subprocess
import sys
import time
from collections.abc import Iterator, Sequence
from multiprocessing.connection import wait

from tora.errors import StudyError, UsageError
from tora.files import write_file

from tora.live.experiment import COLUMNS, FAULTS, Experiment, Plan
from tora.live.hosts import shield
from tora.live.protocols import GROUPS, PROTOCOLS
from tora.live.topologies import KINDS, network
from tora.program import Program

NEEDED = ("ip", "nft", "iperf3", "nsenter", "sysctl")


def parser() -> argparse.ArgumentParser:
    """The parser of the command line."""
    found = argparse.ArgumentParser(
        prog="run", description=__doc__, allow_abbrev=False, formatter_class=argparse.RawDescriptionHelpFormatter
    )
    found.add_argument("out", metavar="OUT", help="the folder of what is measured")
    found.add_argument(
        "--protocols",
        default="tora babeld bird",
        help=f"of {', '.join(PROTOCOLS)}; bird is bird-babel and bird-ospf (tora babeld bird)",
    )
    found.add_argument(
        "--timings",
        default="default equal",
        help="default, and equal for hello times set equal to those of TORA (both)",
    )
    found.add_argument("--topologies", default=" ".join(KINDS), help=f"of {', '.join(KINDS)} (all)")
    found.add_argument("--nodes", default="10 30", help="numbers of hosts (10 30)")
    found.add_argument("--faults", default=" ".join(FAULTS), help=f"of {', '.join(FAULTS)} (all)")
    found.add_argument("--seeds", type=int, default=20, help="seeds from 1 to this one (20)")
    found.add_argument("--rest", type=float, default=30.0, help="seconds at rest (30)")
    found.add_argument("--most", type=float, default=60.0, help="seconds in which a route may come back (60)")
    found.add_argument("--every", type=int, default=1000, help="microseconds from one packet to the next (1000)")
    found.add_argument("--jobs", type=int, default=1, help="runs at once (1)")
    found.add_argument(
        "--shield",
        action="store_true",
        help="give daemons and traffic a real-time priority, so that other work of the machine does not slow them",
    )
    found.add_argument("--no-tcp", action="store_true", help="without iperf3")
    found.add_argument(
        "--program",
        metavar="PATH",
        help="the program tora; else the variable TORA, the repository's ./tora, or `tora` of the path",
    )
    found.add_argument("--report", action="store_true", help="make no run, only the tables and plots of what OUT has")
    found.add_argument(
        "--keep", action="store_true", help="keep the configurations and logs of the runs under OUT/runs"
    )
    return found


def words_of(text: str, key: str, known: Sequence[str]) -> list[str]:
    """The words of an option, each a known one, none twice."""
    found = text.split()
    for at, word in enumerate(found):
        if word not in known:
            raise UsageError(f"`{word}` is none of {', '.join(known)}", key=key)
        if word in found[:at]:
            raise UsageError(f"`{word}` is repeated", key=key)
    if not found:
        raise UsageError("it is empty", key=key)
    return found


def plans(found: argparse.Namespace) -> Iterator[Plan]:
    """The runs, one seed after another, so that a comparison that is broken off has whole seeds."""
    told = " ".join(part for word in found.protocols.split() for part in GROUPS.get(word, (word,)))
    protocols = words_of(told, "--protocols", list(PROTOCOLS))
    timings = words_of(found.timings, "--timings", ("default", "equal"))
    topologies = words_of(found.topologies, "--topologies", KINDS)
    sizes = [int(it) for it in words_of(found.nodes, "--nodes", [str(it) for it in range(4, 65)])]
    faults = tuple(words_of(found.faults, "--faults", FAULTS))
    for key, value in (
        ("--seeds", found.seeds),
        ("--rest", found.rest),
        ("--most", found.most),
        ("--every", found.every),
        ("--jobs", found.jobs),
    ):
        if not value > 0:
            raise UsageError(f"`{value}` is not above 0", key=key)
    for nodes in sizes:
        for topology in topologies:
            network(topology, nodes, 1)  # refuses what can't be
    for seed in range(1, found.seeds + 1):
        for nodes in sizes:
            for topology in topologies:
                for name in protocols:
                    for timing in timings:
                        if timing in PROTOCOLS[name].timings:
                            yield Plan(
                                name,
                                timing,
                                topology,
                                nodes,
                                seed,
                                faults,
                                found.every,
                                found.rest,
                                found.most,
                                tcp=not found.no_tcp,
                                shield=found.shield,
                            )


def main(words: Sequence[str] | None = None) -> int:
    """Does what the command line asks for; answers the exit status."""
    found = parser().parse_args(words)
    try:
        for number in (signal.SIGINT, signal.SIGTERM):  # a shell lets a process in the background ignore the first
            signal.signal(number, signal.default_int_handler)
        return _done(found)
    except StudyError as cause:
        print(f"live/run: {cause}", file=sys.stderr)
        return cause.status
    except KeyboardInterrupt:
        print("live/run: broken off; the same command goes on", file=sys.stderr)
        return 130


def _done(found: argparse.Namespace) -> int:
    """Makes the runs that are missing, and the report."""
    out = pathlib.Path(found.out)
    held = list(plans(found))
    failed = 0
    if not found.report:
        if os.geteuid() != 0:
            raise UsageError("network namespaces need root")
        missing = next((it for it in NEEDED if shutil.which(it) is None), None)
        if missing:
            packages = "iproute2, nftables, iperf3, util-linux, procps"
            raise UsageError(f"the program {missing} is missing (packages {packages})")
        program = Program.find(found.program)
        able = _able({it.protocol for it in held})
        (out / "rows").mkdir(parents=True, exist_ok=True)
        _describe(out, found, program)
        todo = [it for it in held if it.protocol in able and not (out / "rows" / f"{it.name}.csv").exists()]
        failed = _make(todo, out, program, found.keep, found.jobs)
    _gather(out)
    from tora.live import report

    for name in report.write(out):
        print(out / name)
    return 1 if failed else 0


def _able(names: set[str]) -> set[str]:
    """The protocols that can be run here; the others are told."""
    found = set()
    for name in sorted(names):
        missing = PROTOCOLS[name].missing()
        if missing is None:
            found.add(name)
        else:
            print(f"live/run: {name} is left out: {missing}", file=sys.stderr)
    return found


def _make(todo: Sequence[Plan], out: pathlib.Path, program: Program, keep: bool, jobs: int) -> int:
    """Makes runs, so many at once, each in a process of its own; answers how many failed."""
    failed = 0
    under_way: dict[int, multiprocessing.Process] = {}
    try:
        for at, plan in enumerate(todo, 1):
            if len(under_way) == jobs:
                failed += _ended(under_way)
            process = multiprocessing.Process(target=_run, args=(plan, out, program, keep, f"{at} of {len(todo)}"))
            process.start()
            under_way[process.sentinel] = process
        while under_way:
            failed += _ended(under_way)
    finally:
        for process in under_way.values():
            process.terminate()
        for process in under_way.values():
            process.join()
    return failed


def _ended(under_way: dict[int, multiprocessing.Process]) -> int:
    """Waits until some runs have ended, and forgets them; answers how many of them failed."""
    ended = [under_way.pop(it) for it in wait(list(under_way)) if isinstance(it, int)]
    return sum(it.exitcode != 0 for it in ended)


def _run(plan: Plan, out: pathlib.Path, program: Program, keep: bool, place: str) -> None:
    """Makes a run and writes its rows; ends this process with status 1 where that fails."""
    if plan.shield:
        shield()
    signal.signal(signal.SIGINT, signal.SIG_IGN)  # the process that started this one ends it by the other signal
    folder = out / "runs" / plan.name
    shutil.rmtree(folder, ignore_errors=True)
    folder.mkdir(parents=True)
    begin = time.monotonic()
    try:
        rows = Experiment(plan, folder, program.words[0]).run()
    except (StudyError, OSError) as cause:
        print(f"live/run: {plan.name} ({place}) failed: {cause}; its logs are in {folder}", file=sys.stderr)
        sys.exit(1)
    except KeyboardInterrupt:
        sys.exit(130)
    part = out / "rows" / f"{plan.name}.csv.part"
    with open(part, "w", newline="") as sink:
        writer = csv.DictWriter(sink, COLUMNS, lineterminator="\n")
        writer.writeheader()
        writer.writerows({name: _cell(value) for name, value in row.items()} for row in rows)
    os.replace(part, part.with_suffix(""))
    if not keep:
        shutil.rmtree(folder)
        with contextlib.suppress(OSError):
            folder.parent.rmdir()
    print(f"{plan.name} ({place}): {time.monotonic() - begin:.0f} s", flush=True)


def _cell(value: object) -> object:
    """A cell of CSV."""
    return "" if value is None else f"{value:.6g}" if isinstance(value, float) else value


def _gather(out: pathlib.Path) -> None:
    """Puts the rows of all runs into one table."""
    files = sorted((out / "rows").glob("*.csv"))
    if not files:
        raise StudyError("there is no run", file=out)
    lines = [",".join(COLUMNS)]
    for path in files:
        own = path.read_text().splitlines()
        if own[0] != lines[0]:
            raise StudyError("it has other columns; it is of another version of this program", file=path, line=1)
        lines += own[1:]
    write_file(out / "live.csv", "\n".join(lines) + "\n", overwrite=True)


def _describe(out: pathlib.Path, found: argparse.Namespace, program: Program) -> None:
    """Notes with what the runs are made, each time that some are."""
    versions = {
        "tora": [*program.words, "--version"],
        "babeld": ["babeld", "-V"],
        "bird": ["bird", "--version"],
        "iperf3": ["iperf3", "--version"],
    }
    lines = [f"## {time.strftime('%Y-%m-%d', time.gmtime())}", f"command: {' '.join(sys.argv[1:])}"]
    lines += [
        f"kernel: {platform.release()}; processors: {os.cpu_count()}; "
        f"load: {' '.join(f'{it:.2f}' for it in os.getloadavg())}"
    ]
    for name, words in versions.items():
        with contextlib.suppress(OSError):
            told = subprocess.run(words, capture_output=True, text=True, check=False)
            lines.append(f"{name}: {next(iter((told.stdout + told.stderr).strip().splitlines()), '-')}")
    with open(out / "machine.txt", "a") as sink:
        sink.write("\n".join(lines) + "\n\n")
