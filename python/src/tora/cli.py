"""The command `tora-study`: make, run, sweep, storms, measure, summary, plot, page, verify.

Exit status: 0 if all is done; 1 if an input is bad or a run failed; 2 if the command line asks for something impossible. One line says what is wrong.
"""
from __future__ import annotations

import argparse
import importlib
import os
import sys
from collections.abc import Callable, Sequence

from tora import __version__
from tora.errors import StudyError
from tora.options import (
    CHANNEL, EDGE_LOSS, FILES, SCENARIO, STATUSES, Flag, Once, Parser, above_zero, add_options, add_output, count, names, setting, text, whole,
)

Body = Callable[[argparse.Namespace], int]
PROGRAM = "The program is the one of --program, of the environment variable TORA, the repository's ./tora, or `tora` on the path, in this order."


def main(words: Sequence[str] | None = None) -> int:
    """Does what the command line asks for; answers the exit status."""
    held = sys.argv[1:] if words is None else list(words)
    try:
        return ended(held)
    except SystemExit as cause:
        return int(cause.code or 0)


def ended(words: Sequence[str]) -> int:
    """Runs the command of the words; a refusal is reported in one line on standard error."""
    found = parser().parse_args(words)
    found.words = list(words)
    body: Body = found.body
    try:
        status = body(found)
        sys.stdout.flush()
        return status
    except StudyError as cause:
        print(f"tora-study {found.word}: {cause}", file=sys.stderr)
        return cause.status
    except BrokenPipeError:
        os.dup2(os.open(os.devnull, os.O_WRONLY), sys.stdout.fileno())
        return 1
    except OSError as cause:
        print(f"tora-study {found.word}: {cause.filename or 'standard output'}: {cause.strerror or cause}", file=sys.stderr)
        return 1
    except ModuleNotFoundError as cause:
        print(f"tora-study {found.word}: {missing(cause)}", file=sys.stderr)
        return 1
    except MemoryError:
        print(f"tora-study {found.word}: out of memory", file=sys.stderr)
        return 1
    except KeyboardInterrupt:
        print(f"tora-study {found.word}: broken off; the same command goes on", file=sys.stderr)
        return 130


def missing(cause: ModuleNotFoundError) -> str:
    """Names the Python package that is missing, and the one of Debian that has it."""
    package = (cause.name or str(cause)).partition(".")[0]
    return f"the Python package {package} is missing (Debian: python3-{package})"


def parser() -> Parser:
    """The parser of the command line."""
    found = Parser(prog="tora-study", description=__doc__)
    found.add_argument("--version", action="version", version=f"tora-study {__version__}")
    words = found.add_subparsers(dest="word", metavar="WORD", required=True, parser_class=Parser)
    for add in (_add_make, _add_run, _add_sweep, _add_storms, _add_measure, _add_summary, _add_plot, _add_page, _add_verify):
        add(words)
    return found


def _add_word(words: argparse._SubParsersAction[Parser], name: str, help_: str, text_: str) -> Parser:
    """Adds a word, whose body is the function of its name in `tora.words`."""
    def body(found: argparse.Namespace) -> int:
        if name == "sweep":  # its runs share the processors, so numpy is to start no threads
            os.environ |= {"OMP_NUM_THREADS": "1", "OPENBLAS_NUM_THREADS": "1"}
        # matplotlib and scipy are read only where they are needed
        done: Body = getattr(importlib.import_module("tora.studying" if name == "sweep" else "tora.words"), f"do_{name}")
        return done(found)

    added = words.add_parser(name, help=help_, description=f"{help_[0].upper()}{help_[1:]}.\n\n{text_}", epilog=STATUSES)
    added.set_defaults(body=body)
    return added


def _add_program(added: Parser) -> None:
    """Adds the program and its time limit."""
    added.add_argument("--program", metavar="PATH", action=Once, type=text, help="the program tora (TORA, ./tora, or the one on the path)")
    added.add_argument("--time-limit", metavar="SECONDS", action=Once, type=above_zero, help="seconds after which a run is ended, above 0 (3600)")


def _add_load(added: Parser) -> None:
    """Adds the options of data packets."""
    added.add_argument("--traffic", metavar="RATE", action=Once, help="also measure data packets: this many a second of each flow, above 0, such as 4 or 0.5")
    added.add_argument("--hop", metavar="TICKS", action=Once, type=whole, help="with --traffic: ticks of 100 ms for a hop, 1 or more (1)")
    added.add_argument("--ttl", metavar="HOPS", action=Once, type=whole, help="with --traffic: greatest number of hops of a packet, 1 or more (32)")


def _add_make(words: argparse._SubParsersAction[Parser]) -> None:
    """The word make."""
    added = _add_word(
        words, "make", "make a scenario of moving nodes",
        "Writes PREFIX.sim, the simulation file, and PREFIX.json, its description. Motion, destinations and flows come from the seed, so the\n"
        "same options make the same files. Two nodes have a link while they are within --range of each other; a round is 100 ms.",
    )
    added.add_argument("prefix", metavar="PREFIX", type=text, help="how the names of the files begin")
    added.add_argument("--seed", metavar="NUMBER", action=Once, type=whole, help="0 to 2^64 - 1 (1)")
    added.add_argument("--channel-file", metavar="FILE", action=Once, type=text, help="also write a file of losses that rise with the distance")
    add_options(added, EDGE_LOSS, "losses by distance")
    add_options(added, SCENARIO, "the scenario")
    add_options(added, FILES, "motion from a file instead of a model")
    added.add_argument("--overwrite", action=Flag, default=False, help="replace files that exist")


def _add_run(words: argparse._SubParsersAction[Parser]) -> None:
    """The word run."""
    added = _add_word(
        words, "run", "simulate a scenario",
        "Simulates PREFIX.sim, which `tora-study make` wrote beside PREFIX.json. Writes PREFIX.trace, and PREFIX.manifest.json, from which\n"
        f"`tora-study verify` repeats the run.\n{PROGRAM}",
    )
    added.add_argument("prefix", metavar="PREFIX", type=text, help="how the names of the files begin")
    added.add_argument("--channel-file", metavar="FILE", action=Once, type=text, help="losses by link and round, such as `make --channel-file` writes")
    add_options(added, CHANNEL, "the channel and the run")
    _add_program(added)
    added.add_argument("--overwrite", action=Flag, default=False, help="replace files that exist")


def _add_sweep(words: argparse._SubParsersAction[Parser]) -> None:
    """The word sweep."""
    added = _add_word(
        words, "sweep", "make the runs of a study, its table and its pictures",
        "Runs every size with every value of each --vary and every seed. FOLDER gets study.csv (a row for each run), manifest.json, summary.txt and\n"
        "study.png. The same command continues a sweep that was interrupted. A value that is given twice is refused, and so is an option that is\n"
        f"both given and varied. With --profile, snakemake makes the runs on a cluster.\n{PROGRAM}",
    )
    added.add_argument("folder", metavar="FOLDER", type=text, help="a new folder, or one of the same study")
    added.add_argument("--nodes", metavar="NUMBER,..", action=Once, type=names, help="sizes, 2 to 64 nodes, or to 1024 with --large, such as 10,20,40")
    added.add_argument("--seeds", metavar="NUMBER", action=Once, type=count, required=True, help="use the seeds from 1 to this number; at most 1000000 runs in all")
    added.add_argument(
        "--vary", metavar="NAME=VALUE,..", action="append", default=[],
        help="run with each of these values of an option below; a comma within a value is a colon: times=10:50:5:8,5:20:5:8",
    )
    _add_load(added)
    added.add_argument("--keep", action=Flag, default=False, help="keep each run's files in FOLDER/runs")
    added.add_argument("--page", action=Flag, default=False, help="make a page that plays each run, and FOLDER/index.html")
    added.add_argument("--jobs", metavar="NUMBER", action=Once, type=count, help="runs at a time, 1 or more (as many as processors)")
    added.add_argument("--batches", metavar="NUMBER", action=Once, type=count, help="with --profile: number of jobs into which the runs are divided, 1 or more (two for each of --jobs)")
    added.add_argument("--profile", metavar="PROFILE", action=Once, type=text, help="a profile of snakemake, or `slurm` for the one of this package")
    _add_program(added)
    add_options(added, SCENARIO, "options of each scenario", leave_out=["nodes"])
    add_options(added, FILES, "motion from a file instead of a model")
    add_options(added, CHANNEL | EDGE_LOSS, "options of each run")


def _add_storms(words: argparse._SubParsersAction[Parser]) -> None:
    """The word storms."""
    added = _add_word(
        words, "storms", "how networks come to rest after a partition",
        "Draws a ring of 3 to 8 nodes from each seed, cuts off its destination, and asks 150 rounds after the last event whether it is at rest:\n"
        "once with nodes that forget the levels that they erased, and once with nodes that remember them. Prints how many rings are not at rest,\n"
        "the time to rest in ticks of 100 ms, control packets after the last event, and loops and dead ends at rest, by the greatest delay of a\n"
        f"datagram in rounds of 100 ms and by the size of the ring. docs/explanation/after-a-partition.md explains this.\n{PROGRAM}",
    )
    added.add_argument("--runs", metavar="NUMBER", action=Once, type=count, default=400, help="how many networks; their seeds count from 0 (400)")
    added.add_argument("--mended", action=Flag, default=False, help="let the destination come back as the last event")
    added.add_argument("--plot", metavar="FILE", action=Once, type=text, help="also draw a picture, .png, .svg or .pdf")
    added.add_argument("--jobs", metavar="NUMBER", action=Once, type=count, help="runs at a time, 1 or more (as many as processors)")
    _add_program(added)
    add_output(added, "also write a row for each run, as CSV")


def _add_measure(words: argparse._SubParsersAction[Parser]) -> None:
    """The word measure."""
    added = _add_word(
        words, "measure", "measure a run to a row of CSV",
        "Prints the names of the columns and the row of a run. docs/studies/reference.md explains the columns.",
    )
    added.add_argument("scenario", metavar="SCENARIO.json", help="what `make` wrote")
    added.add_argument("trace", metavar="TRACE", help="what `run` wrote")
    added.add_argument("--loops", action=Flag, default=False, help="print each loop of next hops instead of the row")
    _add_load(added)
    add_output(added, "write to a file")


def _add_table(added: Parser) -> None:
    """Adds a table, and which of its runs are meant."""
    added.add_argument("table", metavar="TABLE.csv", help="a table of runs: of a study, of the ns-3 comparison, or any with --design")
    added.add_argument("--measures", metavar="COLUMN,..", action=Once, type=names, default=[], help="the columns to summarize (those of the kind of table)")
    added.add_argument(
        "--where", metavar="COLUMN=VALUE", action="append", type=setting, default=[],
        help="only runs whose design has this value; may be given several times",
    )
    added.add_argument(
        "--pool", metavar="COLUMN,..", action=Once, type=names, default=[],
        help="combine runs with different values of these columns in one interval; the header says so",
    )
    added.add_argument(
        "--design", metavar="COLUMN,..", action=Once, type=names, help="the columns that say what was set; needed for a table of an unknown kind"
    )
    added.add_argument("--statistic", metavar="NAME", action=Once, help="mean, median, or a quantile such as q0.95 (numpy's rule `linear`)")
    added.add_argument(
        "--interval", metavar="METHOD", action=Once, choices=["bca", "order", "student"],
        help="95 %% interval: bca (bootstrap; usual for a mean), order (order statistics; usual for a median), or student, which is refused "
        "where it is not sound",
    )


def _add_summary(words: argparse._SubParsersAction[Parser]) -> None:
    """The word summary."""
    added = _add_word(
        words, "summary", "summarize a table of runs",
        "Prints a row for each group of runs and each measure. A group is all runs with the same design; nothing is pooled unless --pool says so.\n"
        "The header names the statistic, how its intervals are made, and what was pooled.",
    )
    _add_table(added)
    added.add_argument(
        "--against", metavar="COLUMN=VALUE", action="append", type=setting, default=[],
        help="compare with these runs, in pairs of the same seed and design; p-values are corrected by Holm",
    )
    added.add_argument("--ratio", action=Flag, default=False, help="with --against: ratios instead of differences")
    added.add_argument("--growth", metavar="COLUMN", action=Once, type=text, help="print exponents of power laws over a column instead of the summary")
    added.add_argument("--report", action=Once, choices=["runs", "aims", "losses"], help="a table of the ns-3 comparison in Markdown")
    added.add_argument(
        "--tora", metavar="NAME", action=Once, type=text,
        help="with --report aims: the protocol that is compared with AODV and OLSR (TORA)",
    )
    added.add_argument("--format", action=Once, choices=["text", "csv", "markdown"], default="text", help="(text)")
    add_output(added, "write to a file")


def _add_plot(words: argparse._SubParsersAction[Parser]) -> None:
    """The word plot."""
    added = _add_word(
        words, "plot", "draw a table of runs, or the heights of a run", "Each picture ends in .png, .svg or .pdf; the same input gives the same bytes."
    )
    kinds = added.add_subparsers(dest="kind", metavar="KIND", required=True, parser_class=Parser)
    tables = {
        "by": "measures over a column, with a line for each group", "overview": "routes, breaks, broadcasts and stretch over a column",
        "growth": "measures on logarithmic axes, and the power laws that fit", "notice": "measures by speed, loss and notice of parted links",
        "comparison": "the protocols of the ns-3 comparison over the greatest speed", "rest": "time to rest by nodes and delay, for choices of erasure",
        "storms": "how partitions come to rest, by nodes and by delay, for choices of erasure",
    }
    for name, text_ in tables.items():
        kind = kinds.add_parser(name, help=text_, description=f"{text_[0].upper()}{text_[1:]}.", epilog=STATUSES)
        _add_table(kind)
        if name in ("by", "overview", "growth"):
            kind.add_argument("--by", metavar="COLUMN", action=Once, type=text, default="nodes", help="a column of numbers (nodes)")
        add_output(kind, "the picture, .png, .svg or .pdf", needed=True)
    _add_heights(kinds)
    _add_packets(kinds)


def _add_packets(kinds: argparse._SubParsersAction[Parser]) -> None:
    """The kind packets of the word plot."""
    kind = kinds.add_parser(
        "packets", help="QRY, UPD and CLR of a run over time", epilog=STATUSES,
        description="How many QRY, UPD and CLR are broadcast in each second of a run, and with --rounds which node broadcasts what.",
    )
    kind.add_argument("trace", metavar="TRACE", help="what `run` wrote, or `tora sim --trace`")
    kind.add_argument("--destination", metavar="DESTINATION", action=Once, type=whole, help="only packets of this destination (all)")
    kind.add_argument("--rounds", metavar="FIRST-LAST", action=Once, type=text, help="rounds to show node by node (none)")
    add_output(kind, "the picture, .png, .svg or .pdf", needed=True)


def _add_heights(kinds: argparse._SubParsersAction[Parser]) -> None:
    """The kind heights of the word plot."""
    kind = kinds.add_parser(
        "heights", help="heights around a break of a route", epilog=STATUSES,
        description="Draws the heights for a destination before, in and after the round of a break, with the nodes at their places. Writes PREFIX-ROUND.png for each round.",
    )
    kind.add_argument("scenario", metavar="SCENARIO.json", help="what `make` wrote")
    kind.add_argument("trace", metavar="TRACE", help="what `run` wrote")
    kind.add_argument("destination", metavar="DESTINATION", type=whole, help="a destination of the scenario")
    which = kind.add_mutually_exclusive_group()
    which.add_argument("--break", dest="number", metavar="NUMBER", action=Once, type=count, help="around this break of a route, from 1 (1)")
    which.add_argument("--rounds", metavar="ROUND,..", action=Once, type=names, help="at the ends of these rounds, from 1")
    which.add_argument("--list", action=Flag, default=False, help="list the breaks of routes")
    kind.add_argument("-o", "--output", metavar="PREFIX", action=Once, type=text, help="how the names of the pictures begin")
    kind.add_argument("--format", action=Once, choices=["png", "svg", "pdf"], default="png", help="(png)")
    kind.add_argument("--overwrite", action=Flag, default=False, help="replace files that exist")


def _add_page(words: argparse._SubParsersAction[Parser]) -> None:
    """The word page."""
    added = _add_word(
        words, "page", "make a page that plays a run, for any browser",
        "  page SCENARIO.json TRACE   a run of a scenario, its nodes where the motion puts them\n"
        "  page FILE.sim [TRACE]      a simulation file, with its trace, or run now\n"
        "  page TRACE                 a trace alone, with the links that it names\n"
        "  page FOLDER                FOLDER/index.html of a study, with a link to the page of each run\n"
        "  page --read PAGE           prints the trace that a page holds\n\n"
        f"The page is one file that loads nothing. {PROGRAM}",
    )
    added.add_argument("inputs", metavar="INPUT", nargs="*", help="as above")
    added.add_argument("--place", metavar="FILE", action=Once, type=text, help="places of nodes that do not move, a line NODE X Y for each, in metres (nodes are placed by force)")
    added.add_argument("--read", metavar="PAGE", action=Once, type=text, help="print the trace that a page holds")
    add_options(added, CHANNEL, "of a simulation file that is run now")
    _add_program(added)
    add_output(added, "the page (the last input with the ending .html, in this folder)")


def _add_verify(words: argparse._SubParsersAction[Parser]) -> None:
    """The word verify."""
    added = _add_word(
        words, "verify", "repeat runs, and compare the results",
        "  verify PREFIX.manifest.json ..   runs of `tora-study run`\n"
        "  verify FOLDER [RUN ..]           runs of a study, or of an ns-3 comparison (the first one), and its table\n\n"
        f"A file, a trace or a row that differs is reported, with status 1. {PROGRAM}",
    )
    added.add_argument("inputs", metavar="INPUT", nargs="+", help="as above")
    added.add_argument("--all", action=Flag, default=False, help="of a study: repeat every run")
    _add_program(added)


if __name__ == "__main__":
    sys.exit(main())
