#!/usr/bin/python3
"""Checks runs against their laws, and makes the inputs of these checks.

usage: dev/oracle.py agree SIMULATION OUTPUT TRACE
       dev/oracle.py rest [--networks 200] [--seed 1] [--keep FOLDER]
       dev/oracle.py drive [--ticks 100] [--loss 0] [--seed 1] [--need N,D].. [--large] [--keep FOLDER] FILE
       dev/oracle.py capture LIST OUT

  agree      compares the heights that `tora sim SIMULATION` printed with those of its TRACE
  rest       runs random networks until they are at rest, and compares the output with the laws of worlds at rest
  drive      drives the world of FILE by `tora drive`, and compares it with `tora sim` of the same events
  capture    writes a list of datagrams as a capture for Wireshark

The modules tora.oracle, tora.driving and tora.capture of python/ do the work and document it. For rest and drive the program is that of
--program, else of the environment variable TORA, else the repository's ./tora. Exit status: 0 if all agrees; 1 if something
differs, or a file or an answer is not valid; 2 for wrong usage.
"""
import argparse
import pathlib
import sys

sys.path.insert(0, str(pathlib.Path(__file__).resolve().parents[1] / "python" / "src"))

from tora.capture import capture  # noqa: E402
from tora.driving import drive  # noqa: E402
from tora.errors import StudyError  # noqa: E402
from tora.oracle import agree, rest  # noqa: E402
from tora.options import Parser, number, whole  # noqa: E402


def need(word):
    """A node and a destination."""
    node, mark, destination = word.partition(",")
    if not mark:
        raise argparse.ArgumentTypeError(f"`{word[:40]}` is not N,D")
    return whole(node), whole(destination)


def parser():
    """The parser of the command line."""
    found = Parser(prog="oracle.py", description=__doc__)
    words = found.add_subparsers(dest="word", metavar="WORD", required=True, parser_class=Parser)
    added = words.add_parser("agree")
    for name in ("simulation", "output", "trace"):
        added.add_argument(name, metavar=name.upper())
    added = words.add_parser("rest")
    added.add_argument("--networks", type=whole, default=200)
    added.add_argument("--seed", type=whole, default=1)
    added.add_argument("--keep", metavar="FOLDER")
    added.add_argument("--program", metavar="PATH")
    added = words.add_parser("drive")
    added.add_argument("--ticks", type=whole, default=100)
    added.add_argument("--loss", type=number, default=0.0)
    added.add_argument("--seed", type=whole, default=1)
    added.add_argument("--need", type=need, action="append", default=[], metavar="N,D")
    added.add_argument("--large", action="store_true")
    added.add_argument("--keep", metavar="FOLDER")
    added.add_argument("--program", metavar="PATH")
    added.add_argument("file", metavar="FILE")
    added = words.add_parser("capture")
    for name in ("list", "out"):
        added.add_argument(name, metavar=name.upper())
    return found


def done(words):
    """Does what the words ask for; answers the lines to be told."""
    if words.word == "agree":
        found = agree(words.simulation, words.output, words.trace)
        return [f"{found.lines} printed lines agree with {found.routes} route records"]
    if words.word == "rest":
        return rest(words.networks, words.seed, keep=words.keep, program=words.program).lines()
    if words.word == "drive":
        how = {"ticks": words.ticks, "loss": words.loss, "seed": words.seed, "needs": words.need}
        return drive(words.file, **how, large=words.large, keep=words.keep, program=words.program).lines()
    return [f"{capture(words.list, words.out)} datagrams"]


def main():
    words = parser().parse_args()
    try:
        print("\n".join(done(words)))
        return 0
    except StudyError as cause:
        print(f"oracle.py {words.word}: {cause}", file=sys.stderr)
        return cause.status
    except OSError as cause:
        print(f"oracle.py {words.word}: {cause.filename or 'standard output'}: {cause.strerror}", file=sys.stderr)
        return 1


if __name__ == "__main__":
    sys.exit(main())
