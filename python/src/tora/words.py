"""What each word of the command `tora-study` does; each function takes the words of the command line, and answers the exit status."""
from __future__ import annotations

import argparse
import os
import sys
from collections.abc import Iterable, Sequence

from tora import commands, heights, metrics, page, plots, verifying
from tora.broadcasts import broadcasts
from tora.comparison import TORA, report
from tora.derived import with_derived
from tora.errors import UsageError, shown
from tora.files import check_outputs, write_file, write_files
from tora.options import CHANNEL, EDGE_LOSS, FILES, SCENARIO, flag_of, given
from tora.plots import kind_of
from tora.page.index import write_index
from tora.program import TIME_LIMIT, Program
from tora.records import record_text
from tora.run import Run
from tora.scenario import Scenario
from tora.storms import count_lines, storm_table
from tora.summary import Summary, compare, csv_text, markdown_lines, summarize, text_lines
from tora.table import Table, read_table, table_of
from tora.trace import Trace



def tell(lines: Iterable[str], output: str | None = None, inputs: Sequence[str] = (), overwrite: bool = False) -> int:
    """Prints lines, or writes them to a file."""
    text = "".join(f"{line}\n" for line in lines)
    if output is None:
        sys.stdout.write(text)
    else:
        write_file(output, text, inputs, overwrite)
    return 0


def do_make(found: argparse.Namespace) -> int:
    """Makes a scenario."""
    options = given(found, {**SCENARIO, **FILES, **EDGE_LOSS})
    seed = {} if found.seed is None else {"seed": found.seed}
    for note in commands.make(found.prefix, **seed, **options, channel_file=found.channel_file, overwrite=found.overwrite):
        print(f"tora-study make: {note}", file=sys.stderr)
    return 0


def do_run(found: argparse.Namespace) -> int:
    """Simulates a scenario."""
    commands.run(
        found.prefix, **given(found, CHANNEL), channel_file=found.channel_file, program=found.program, time_limit=found.time_limit, overwrite=found.overwrite
    )
    return 0


def do_storms(found: argparse.Namespace) -> int:
    """Runs random partitions, and reports how they come to rest."""
    outputs = [name for name in (found.output, found.plot) if name is not None]
    check_outputs(outputs, overwrite=found.overwrite)
    if found.plot is not None:
        kind_of(found.plot)
    limit = TIME_LIMIT if found.time_limit is None else found.time_limit
    table = storm_table(range(found.runs), Program.find(found.program), jobs=found.jobs, time_limit=limit, is_mended=found.mended)
    text = table.to_csv(index=False, lineterminator="\n")
    if found.output is not None:
        write_file(found.output, text, overwrite=found.overwrite)
    if found.plot is not None:
        plots.write_picture(plots.drawn(table_of(text.encode(), "storms"), "storms"), found.plot, overwrite=found.overwrite)
    return tell(count_lines(table))


def do_measure(found: argparse.Namespace) -> int:
    """Measures a run."""
    inputs = [found.scenario, found.trace]
    if found.output is not None:
        check_outputs([found.output], inputs, found.overwrite)
    if not found.loops:
        text = commands.measure(found.scenario, found.trace, traffic=found.traffic, hop=found.hop, ttl=found.ttl)
        return tell(text.splitlines(), found.output, inputs, found.overwrite)
    if found.traffic is not None:
        raise UsageError("it cannot be combined with --traffic", key="--loops")
    held = Run.read(found.scenario, found.trace)
    return tell(metrics.loop_lines(held.measure().loops), found.output, inputs, found.overwrite)


def _table(found: argparse.Namespace) -> Table:
    """The requested table with the values computed from it, and only the selected runs."""
    table = with_derived(read_table(found.table, found.design))
    wanted: dict[str, str] = {}
    for name, value in found.where:
        if name in wanted:
            raise UsageError(f"{name} is repeated", key="--where")
        wanted[name] = value
    return table.where(wanted) if wanted else table


def do_summary(found: argparse.Namespace) -> int:
    """Summarizes a table."""
    if found.output is not None:
        check_outputs([found.output], [found.table], found.overwrite)
    chosen = [name for name in ("report", "growth", "against") if getattr(found, name)]
    for name in chosen[1:]:
        raise UsageError(f"it cannot be combined with {flag_of(chosen[0])}", key=flag_of(name))
    if chosen and (found.statistic, found.interval) != (None, None):
        raise UsageError(f"it cannot be combined with {flag_of(chosen[0])}", key="--statistic" if found.statistic else "--interval")
    for name, is_given, other in (("--ratio", found.ratio, "against"), ("--tora", found.tora is not None, "report")):
        if is_given and not getattr(found, other):
            raise UsageError(f"it needs {flag_of(other)}", key=name)
    return tell(_summary_lines(found, _table(found)), found.output, [found.table], found.overwrite)


def _summary_lines(found: argparse.Namespace, table: Table) -> list[str]:
    """The lines that are asked for."""
    if found.report or found.growth:
        name = "--report" if found.report else "--growth"
        if found.format != "text":
            raise UsageError(f"it cannot be combined with {name}", key="--format")
        if not found.report:
            return plots.growth_lines(table, found.growth, found.measures, found.pool)
        if found.measures or found.pool:
            raise UsageError("it has columns of its own", key=name)
        if found.tora is not None and found.report != "aims":
            raise UsageError("it needs --report aims", key="--tora")
        return report(table, found.report, found.tora or TORA)
    if found.against:
        held = compare(table, dict(found.against), found.measures, ratio=found.ratio, pool=found.pool)
    else:
        held = summarize(table, found.measures, statistic=found.statistic or "mean", method=found.interval, pool=found.pool)
    return _formed(held, found.format)


def _formed(held: Summary, form: str) -> list[str]:
    """The lines of a summary in a form."""
    return csv_text(held).splitlines() if form == "csv" else markdown_lines(held) if form == "markdown" else text_lines(held)


def do_plot(found: argparse.Namespace) -> int:
    """Draws a picture."""
    if found.kind == "heights":
        return _plot_heights(found)
    if found.kind == "packets":
        return _plot_packets(found)
    kind_of(found.output)
    check_outputs([found.output], [found.table], found.overwrite)
    table = _table(found)
    figure = plots.drawn(
        table, found.kind, getattr(found, "by", None), found.measures, statistic=found.statistic, method=found.interval, pool=found.pool
    )
    plots.write_picture(figure, found.output, [found.table], found.overwrite)
    return 0


def _plot_packets(found: argparse.Namespace) -> int:
    """Draws the control packets of a run."""
    kind_of(found.output)
    check_outputs([found.output], [found.trace], found.overwrite)
    rounds = None
    if found.rounds is not None:
        parts = found.rounds.split("-")
        if len(parts) != 2 or not all(part.isascii() and part.isdecimal() and len(part) < 20 for part in parts):
            raise UsageError(f"`{shown(found.rounds)}` is not FIRST-LAST", key="--rounds")
        rounds = int(parts[0]), int(parts[1])
    plots.write_picture(broadcasts(Trace.read(found.trace), found.destination, rounds), found.output, [found.trace], found.overwrite)
    return 0


def _plot_heights(found: argparse.Namespace) -> int:
    """Draws the heights of a run."""
    held = Run.read(found.scenario, found.trace)
    if found.list:
        if found.output is not None:
            raise UsageError("it cannot be combined with --list", key="--output")
        return tell(heights.break_lines(heights.breaks(held, found.destination)))
    if found.output is None:
        raise UsageError("it is needed", key="--output")
    if found.rounds is None:
        rounds = heights.rounds_around(held, found.destination, found.number or 1)
    elif all(word.isascii() and word.isdecimal() and len(word) < 20 for word in found.rounds):
        rounds = [int(word) for word in found.rounds]
    else:
        raise UsageError(f"`{','.join(found.rounds)}` are no rounds", key="--rounds")
    paths = {clock: f"{found.output}-{clock}.{found.format}" for clock in rounds}
    check_outputs(paths.values(), [found.scenario, found.trace], found.overwrite)
    figures = heights.heights(held, found.destination, rounds)
    files = {paths[clock]: plots.picture(figure, found.format) for clock, figure in figures.items()}
    write_files(files, [found.scenario, found.trace], found.overwrite)
    return tell(f"{paths[clock]}: destination {found.destination}, round {clock}" for clock in figures)


def do_page(found: argparse.Namespace) -> int:
    """Makes a page, or reads one."""
    inputs = found.inputs
    if found.read is not None:
        if inputs or any(getattr(found, name) is not None for name in ("output", "place", "program", "time_limit", *CHANNEL)):
            raise UsageError("it takes no other input or option", key="--read")
        return tell(map(record_text, page.read_page(found.read).records))
    is_run_now = len(inputs) == 1 and inputs[0].endswith(".sim")
    for name in [*given(found, CHANNEL), *(it for it in ("program", "time_limit") if getattr(found, it) is not None)]:
        if not is_run_now:
            raise UsageError("it needs a simulation file that is run now", key=flag_of(name))
    if len(inputs) == 1 and os.path.isdir(inputs[0]):
        for name in ("output", "place"):
            if getattr(found, name) is not None:
                raise UsageError("it is not for the folder of a study", key=flag_of(name))
        write_index(inputs[0], found.overwrite)
        return 0
    if not 1 <= len(inputs) <= 2:
        raise UsageError("SCENARIO.json and TRACE, FILE.sim, a trace, or the folder of a study is needed (--help)")
    title = os.path.basename(inputs[0] if is_run_now else inputs[-1]).rsplit(".", 1)[0]
    output = found.output or f"{title}.html"
    everything = [*inputs, *([found.place] if found.place else [])]
    check_outputs([output], everything, found.overwrite)
    scenario, trace = _played(found, is_run_now)
    write_file(output, page.page_text(title, scenario, trace, found.place), everything, found.overwrite)
    return 0


def _played(found: argparse.Namespace, is_run_now: bool) -> tuple[Scenario, Trace]:
    """The run that a page plays."""
    inputs = found.inputs
    if is_run_now:
        program = Program.find(found.program)
        limit = TIME_LIMIT if found.time_limit is None else found.time_limit
        held = Scenario.from_simulation(inputs[0]).run(**given(found, CHANNEL), program=program, time_limit=limit)
        return held.scenario, held.trace
    trace = Trace.read(inputs[-1])
    if len(inputs) == 1:
        return Scenario.from_trace(trace), trace
    if inputs[0].endswith(".sim"):
        return Scenario.from_simulation(inputs[0], **({"times": trace.header.times} if trace.header else {})), trace
    return Scenario.read(inputs[0]), trace


def do_verify(found: argparse.Namespace) -> int:
    """Makes runs again."""
    if os.path.isdir(found.inputs[0]):
        if found.all and found.inputs[1:]:
            raise UsageError("it cannot be combined with names of runs", key="--all")
        return tell(verifying.verify_study(found.inputs[0], found.inputs[1:], found.all, found.program, found.time_limit))
    if found.all:
        raise UsageError("it is of a study", key="--all")
    return tell(commands.verify(found.inputs, program=found.program, time_limit=found.time_limit))
