"""Random partitions: rings of nodes that lose their destination, and how they come to rest under each choice of erasure."""
from __future__ import annotations

import concurrent.futures
import dataclasses
import math
import os
import random
import tempfile
from collections.abc import Iterable
from typing import Any

import pandas as pd

from tora import stats
from tora.errors import StudyError, UsageError
from tora.files import write_file
from tora.metrics import time_to_rest
from tora.program import TIME_LIMIT, Program
from tora.resting import COLUMNS, row_of
from tora.scenario import Scenario
from tora.simulation import ERASURES, check_erasure
from tora.trace import Trace

DESTINATION = 99
QUIET = 150  # rounds after the last event
DELAYS = (1, 2, 4, 8)  # greatest delays of a datagram, in rounds

Link = tuple[int, int]


@dataclasses.dataclass(frozen=True)
class Partition:
    """A ring of nodes whose destination is cut off, and what happens to it.

    Attributes
    ----------
    seed : int
        What the partition is drawn from; the channel has the same seed.
    nodes : int
        Nodes of the ring, 3 to 8. Half of the rings have one to three chords, too.
    delay : int
        Rounds of 100 ms that a datagram takes at most; it takes 1 at least.
    text : str
        The simulation file: its last line asks whether everything is at rest, `QUIET` rounds after the last event.
    """

    seed: int
    nodes: int
    delay: int
    text: str


def draw_partition(seed: int, is_mended: bool = False) -> Partition:
    """A partition that is drawn from a seed.

    One to three nodes ask for the destination, then it is parted. They ask again 10 to 40 times, every one to six rounds; before a quarter
    of these times a link is parted, and mended one to six rounds later. Where it `is_mended` the last event is that the destination comes
    back; all else is the same.
    """
    if seed < 0:
        raise UsageError("the seed is below 0", key="seed")
    drawn = random.Random(seed)
    nodes = drawn.randint(3, 8)
    links = _links(drawn, nodes)
    lines = [f"dests {DESTINATION}", *(f"link {a} {b}" for a, b in links), f"link 1 {DESTINATION}", "rounds 40"]
    lines += [f"need {drawn.randint(1, nodes)} {DESTINATION}" for _ in range(drawn.randint(1, 3))]
    lines += [f"rounds {drawn.randint(1, 8)}", f"part 1 {DESTINATION}"]
    askers = [drawn.randint(1, nodes) for _ in range(drawn.randint(1, 3))]
    every = drawn.randint(1, 6)
    for _ in range(drawn.randint(10, 40)):
        lines += [f"need {node} {DESTINATION}" for node in askers]
        if drawn.random() < 0.25:
            a, b = drawn.choice(links)
            lines += [f"part {a} {b}", f"rounds {drawn.randint(1, 6)}", f"mend {a} {b}"]
        lines.append(f"rounds {every}")
    lines += [f"mend 1 {DESTINATION}"] * is_mended
    lines += [f"rounds {QUIET}", "rest"]
    return Partition(seed, nodes, drawn.choice(DELAYS), "".join(f"{line}\n" for line in lines))


def _links(drawn: random.Random, nodes: int) -> list[Link]:
    """A ring, half of the time with chords."""
    links = [(node, node % nodes + 1) for node in range(1, nodes + 1)]
    if drawn.random() < 0.5:
        for _ in range(drawn.randint(1, 3)):
            a, b = drawn.sample(range(1, nodes + 1), 2)
            if (a, b) not in links and (b, a) not in links:
                links.append((a, b))
    return links


def rest_of(partition: Partition, erasure: str, program: Program, time_limit: float = TIME_LIMIT) -> dict[str, Any]:
    """How a partition comes to rest, where all nodes make this of erased levels.

    Returns
    -------
    dict
        By the columns of `tora.resting.COLUMNS` their values. Whether it is at rest, `QUIET` rounds after its last event, is what the
        program answers; where it is not, the time and what stands at rest are None, and control packets are those until the end.

    Raises
    ------
    StudyError
        Where the program fails, or says anything but ``rest yes`` or ``rest no``.
    """
    check_erasure(erasure)
    with tempfile.TemporaryDirectory() as folder:
        path, trace = (os.path.join(folder, f"{partition.seed}.{kind}") for kind in ("sim", "trace"))
        write_file(path, partition.text)
        words = ["--channel", f"delay=1-{partition.delay}", "--seed", str(partition.seed), "--erasure", erasure, "--trace", trace]
        told = program.run("sim", "--notice", *words, path, time_limit=time_limit).output
        if told not in ("rest yes\n", "rest no\n"):
            raise StudyError(f"seed {partition.seed}: the program does not say whether everything is at rest", file=program.words[0])
        return row_of(time_to_rest(Scenario.from_simulation(path), Trace.read(trace), told == "rest yes\n"))


def storm_table(
    seeds: Iterable[int], program: Program, erasures: Iterable[str] = ERASURES, jobs: int | None = None, time_limit: float = TIME_LIMIT,
    is_mended: bool = False,
) -> pd.DataFrame:
    """Runs partitions under each choice of erasure.

    Parameters
    ----------
    seeds : iterable of int
        A partition for each; one that is repeated is refused.
    jobs : int, optional
        Runs at a time; as many as processors.
    is_mended : bool
        Whether the destination comes back in the end.

    Returns
    -------
    DataFrame
        A row for each run: ``erasure``, ``nodes``, ``delay_most`` (rounds), ``seed``, and the columns of `tora.resting.COLUMNS`, of which
        ``at_rest`` is 1 or 0.
    """
    held, chosen = list(seeds), list(erasures)
    if len(set(held)) < len(held):
        raise UsageError("a value is repeated", key="seeds")
    if len(set(chosen)) < len(chosen):
        raise UsageError("a value is repeated", key="erasures")
    runs = [(draw_partition(seed, is_mended), erasure) for seed in held for erasure in chosen]
    with concurrent.futures.ThreadPoolExecutor(jobs or os.cpu_count()) as pool:
        rests = pool.map(lambda run: rest_of(run[0], run[1], program, time_limit), runs)
        rows = [
            {"erasure": erasure, "nodes": it.nodes, "delay_most": it.delay, "seed": it.seed, **rest}
            for (it, erasure), rest in zip(runs, rests, strict=True)
        ]
    return pd.DataFrame(rows, columns=["erasure", "nodes", "delay_most", "seed", *COLUMNS]).astype(dict.fromkeys(COLUMNS, "Int64"))


def storm_counts(table: pd.DataFrame, by: str = "delay_most") -> pd.DataFrame:
    """How the runs of each value of a column and each choice of erasure came to rest.

    Returns
    -------
    DataFrame
        The column; ``erasure``; ``runs``; ``not_at_rest``, how many of them; ``rest_median`` and ``rest_95``, ticks that half and 95 % of the
        runs took at most to come to rest, infinite where that is one that did not; ``control_mean`` and ``control_most``, control packets
        of a run after its last change; ``loops`` and ``dead_ends`` at rest, by the runs that are.
    """
    rows = []
    for (value, erasure), runs in table.groupby([by, "erasure"], sort=True):
        rest = runs["rest_ticks"].astype(float).fillna(math.inf).to_numpy()
        control = runs["control_after_change"]
        rows.append({
            by: value, "erasure": erasure, "runs": len(runs), "not_at_rest": int(len(runs) - runs["at_rest"].sum()),
            "rest_median": stats.quantile(rest, 0.5), "rest_95": stats.quantile(rest, 0.95), "control_mean": float(control.mean()),
            "control_most": int(control.max()), "loops": _mean(runs["loops_at_rest"]), "dead_ends": _mean(runs["dead_ends_at_rest"]),
        })
    return pd.DataFrame(rows)


def _mean(cells: pd.Series[int]) -> float:
    """The mean of the cells that are there, NaN of none."""
    return float(cells.dropna().astype(float).mean())


def count_lines(table: pd.DataFrame) -> list[str]:
    """The counts by delay, and by size, as text."""
    parts = [storm_counts(table, by).to_string(index=False, float_format="{:.4g}".format, na_rep="-").splitlines() for by in ("delay_most", "nodes")]
    return [*parts[0], "", *parts[1]]
