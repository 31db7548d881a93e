"""The runs of the ns-3 comparison, for ``ns3/compare/Snakefile``: what they are, and their table with a manifest."""
from __future__ import annotations

import csv
import hashlib
import io
import itertools
import json
import os
import re
import subprocess
from collections.abc import Iterator, Sequence
from typing import Any

from tora import manifest, sweeping
from tora.errors import StudyError, UsageError, shown
from tora.files import reading, write_files
from tora.program import Program

DEFAULTS: dict[str, Any] = {"protocols": "TORA AODV OLSR DSDV", "nodes": "20", "speeds": "0 5 10", "flows": "5", "seeds": 5, "words": ""}
VARIED = ("nodes", "speed", "flows", "seed", "protocol", "label")  # words of tora-compare that the comparison sets
PROTOCOL = re.compile(r"(TORA|AODV|OLSR|DSDV)(:[a-z]+=[A-Za-z0-9.,]+(,[a-z]+=[A-Za-z0-9.,]+)*)?")
NUMBER = re.compile(r"[0-9]{1,6}(\.[0-9]{1,6})?")


def parts_of(config: dict[str, Any]) -> dict[str, list[str]]:
    """The values by the name of what varies; refuses repeated and invalid values.

    Parameters
    ----------
    config : dict
        Keys of `DEFAULTS`; values are separated by blanks.
    """
    told = DEFAULTS | {name: value for name, value in config.items() if name in DEFAULTS}
    found = {name: str(told[name]).split() for name in ("protocols", "nodes", "speeds", "flows")}
    if not re.fullmatch("[1-9][0-9]{0,5}", str(told["seeds"])):
        raise UsageError(f"`{told['seeds']}` is not 1 to 999999", key="seeds")
    found["seeds"] = [str(seed) for seed in range(1, int(told["seeds"]) + 1)]
    for name, values in found.items():
        if not values:
            raise UsageError("it has no value", key=name)
        seen: list[object] = []
        for value in values:
            if not (PROTOCOL if name == "protocols" else NUMBER).fullmatch(value):
                raise UsageError(f"`{value}` is no {'protocol' if name == 'protocols' else 'number'}", key=name)
            same = value if name == "protocols" else float(value)
            if same in seen:
                raise UsageError(f"{value} stands twice: its runs would be counted twice", key=name)
            seen.append(same)
    for word in str(told["words"]).split():
        if word.removeprefix("--").partition("=")[0] in VARIED:
            raise UsageError(f"the comparison sets {word}", key="words")
    return found


def runs_of(config: dict[str, Any]) -> dict[str, list[str]]:
    """By the name of a run the words of tora-compare."""
    parts = parts_of(config)
    more = str(config.get("words", "")).split()
    found = {}
    for protocol, nodes, speed, flows, seed in itertools.product(*(parts[name] for name in ("protocols", "nodes", "speeds", "flows", "seeds"))):
        name = "-".join([re.sub("[:,=]", "_", protocol), nodes, speed, flows, seed])
        own = [f"--{word}" for word in re.split(r",(?=[a-z]+=)", protocol.partition(":")[2]) if word]
        label = protocol.replace(",", ";")
        found[name] = [
            f"--label={label}", f"--protocol={protocol.partition(':')[0]}", *own, f"--nodes={nodes}", f"--speed={speed}", f"--flows={flows}",
            f"--seed={seed}", *more,
        ]
    return found


def files_of(compare: str) -> list[str]:
    """The program tora-compare, and the libraries of TORA that it loads: that of the module, and libtora."""
    try:
        told = subprocess.run(("ldd", compare), capture_output=True, text=True, timeout=60, stdin=subprocess.DEVNULL).stdout
    except (OSError, subprocess.TimeoutExpired):
        return [compare]
    return [compare, *(os.path.realpath(path) for path in re.findall(r"lib(?:ns3-)?tora\.so\S* => (/\S+)", told))]


def write_table(config: dict[str, Any], compare: str) -> None:
    """Writes ``compare.csv`` and ``manifest.json`` in this folder of the rows of all runs."""
    runs, head, lines, digests = runs_of(config), "", [], {}
    for name in runs:
        with reading(f"rows/{name}.csv", "utf-8") as source:
            text = source.read()
        rows = text.splitlines()
        if len(rows) != 2 or (head and rows[0] != head):
            raise StudyError("a row with the names of its columns is needed, the same as of the other runs", file=f"rows/{name}.csv")
        head = rows[0]
        lines.append(rows[1])
        digests[name] = hashlib.sha256(text.encode()).hexdigest()
    _check_seeds(head, lines, runs)
    table = "\n".join([head, *lines, ""])
    paths = files_of(compare)
    programs = {os.path.basename(path): manifest.digest_of_file(path) for path in paths}
    told = {
        "format": 1, "commit": manifest.commit_of(Program((compare,))), "program": {"sha256": programs, "paths": paths},
        "arguments": {name: config[name] for name in sorted(config) if name in DEFAULTS}, "seeds": parts_of(config)["seeds"], **sweeping.versions(),
        "table": hashlib.sha256(table.encode()).hexdigest(), "runs": {name: {"words": words, "sha256": {"row": digests[name]}} for name, words in runs.items()},
    }
    write_files({"compare.csv": table, "manifest.json": json.dumps(told, indent=1) + "\n"}, overwrite=True)


def write_times(config: dict[str, Any]) -> None:
    """Writes ``times.csv`` in this folder: the processor time and the greatest memory of each run, as `timed` wrote them."""
    runs, columns = runs_of(config), ("nodes", "speed", "flows", "seed")
    lines = [",".join(("protocol", *columns, "seconds", "megabytes"))]
    for name, told in runs.items():
        words = dict(word.removeprefix("--").split("=", 1) for word in told if "=" in word)
        with reading(f"times/{name}.tsv", "utf-8") as source:
            row = next(csv.DictReader(source, delimiter="\t"), {})
        if not {"seconds", "megabytes"} <= row.keys():
            raise StudyError("it has no line of seconds and megabytes", file=f"times/{name}.tsv")
        lines.append(",".join((words["label"], *(words[it] for it in columns), row["seconds"], row["megabytes"])))
    write_files({"times.csv": "\n".join([*lines, ""])}, overwrite=True)


def _check_seeds(head: str, lines: Sequence[str], runs: dict[str, list[str]]) -> None:
    """Refuses a row that is not of its run."""
    for name, row in zip(runs, csv.DictReader(io.StringIO("\n".join([head, *lines])))):
        words = dict(word.removeprefix("--").split("=", 1) for word in runs[name] if "=" in word)
        for column in ("nodes", "flows", "seed"):
            if row.get(column) != words[column]:
                raise StudyError(f"it has the {column} {row.get(column)}, and not {words[column]}", file=f"rows/{name}.csv")


def verify(folder: str, told: dict[str, Any], names: Sequence[str], everything: bool) -> Iterator[str]:
    """Yields a line for the table of a comparison, and one for each run that is made again and has the same row.

    Parameters
    ----------
    folder : str
    told : dict
        Its manifest.
    names : names of runs
        The first run where there are none.
    everything : bool
        All runs.
    """
    with reading(os.path.join(folder, "compare.csv"), "utf-8") as source:
        if hashlib.sha256(source.read().encode()).hexdigest() != told["table"]:
            raise StudyError("it is not the table of the manifest", file=os.path.join(folder, "compare.csv"))
    paths = told["program"]["paths"]
    for path in paths:
        if manifest.digest_of_file(path) != told["program"]["sha256"].get(os.path.basename(path)):
            raise StudyError("the program is another one than that of the manifest", file=path)
    for name in names:
        if name not in told["runs"]:
            raise UsageError(f"the comparison has no run `{shown(name)}`", file=folder)
    yield f"{folder}/compare.csv: the table of the manifest, {len(told['runs'])} runs"
    for name in told["runs"] if everything else names or list(told["runs"])[:1]:
        output = Program((paths[0],)).run("--header=1", *told["runs"][name]["words"]).output
        if hashlib.sha256(output.encode()).hexdigest() != told["runs"][name]["sha256"]["row"]:
            raise StudyError("the run that is made again has another row", file=name)
        yield f"{name}: the same row"
