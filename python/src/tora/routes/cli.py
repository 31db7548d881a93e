"""The command `tora-routes`: runs a node of TORA and keeps the routes of this host's kernel by it."""
from __future__ import annotations

import argparse
import logging
import os
import sys
from collections.abc import Sequence

from tora import __version__
from tora.errors import StudyError
from tora.program import Program
from tora.routes.configuration import PROTOCOL, read

LEVELS = ("error", "warn", "info", "debug")
TEXT = f"""Runs `tora node` and keeps the routes of this host's kernel by the next hops that it finds,
until a signal ends it.

CONFIG is a file of TOML:

  node = "1.toml"                    the configuration of `tora node`
  source = ["10.99.0.1"]             this host's own addresses, if it sends by the routes
  [[neighbour]]                      one for each link of the node
  node = 2
  interface = "eth0"
  via = ["10.77.0.2", "fe80::2"]     its addresses there: one of IPv4, one of IPv6, or both
  [[destination]]                    one for each destination
  node = 4
  prefixes = ["10.99.0.4/32", "fd99::4/128"]

and, where another value than this one is needed, in the first lines
  protocol = {PROTOCOL}    table = 254    metric = 32    device = "tora"

A packet without a route goes into the TUN device of this name. The node is then asked for the
route, and the packet is sent when the route is there. A link ends at once when its interface goes
down or loses its carrier, or when its neighbour's address does not answer.
When this command or the node ends, even by `kill -9`, the routes are removed within a second.
"""
STATUSES = """Exit status: 0 if a signal ended it or all is done; 1 if the configuration is at fault or the kernel
refuses something; 2 usage; 3 if the node has ended or does not answer.
It needs root, or CAP_NET_ADMIN and CAP_NET_RAW."""


def parser() -> argparse.ArgumentParser:
    """The parser of the command line."""
    found = argparse.ArgumentParser(
        prog="tora-routes",
        description=TEXT,
        epilog=STATUSES,
        allow_abbrev=False,
        formatter_class=argparse.RawDescriptionHelpFormatter,
    )
    found.add_argument("config", metavar="CONFIG", help="the configuration")
    what = found.add_mutually_exclusive_group()
    what.add_argument("--check", action="store_true", help="read the configuration and the node's, and end")
    what.add_argument("--flush", action="store_true", help="remove the routes that a run may have left, and end")
    found.add_argument(
        "--program",
        metavar="PATH",
        help="the program tora; else the variable TORA, the repository's ./tora, or `tora` of the path",
    )
    found.add_argument(
        "--log",
        metavar="LEVEL",
        choices=LEVELS,
        default="info",
        help=f"log what is of this level or graver: {', '.join(LEVELS)} (info)",
    )
    found.add_argument("--version", action="version", version=f"tora-routes {__version__}")
    return found


def main(words: Sequence[str] | None = None) -> int:
    """Does what the command line asks for; answers the exit status."""
    found = parser().parse_args(words)
    logging.basicConfig(
        format="%(levelname)s %(message)s",
        level="WARNING" if found.log == "warn" else found.log.upper(),
        stream=sys.stderr,
    )
    try:
        return _done(found)
    except StudyError as cause:
        print(f"tora-routes: {cause}", file=sys.stderr)
        return cause.status
    except OSError as cause:
        print(f"tora-routes: {cause.filename or 'the system'}: {cause.strerror or cause}", file=sys.stderr)
        return 1
    except KeyboardInterrupt:
        return 130


def _counted(count: int, name: str) -> str:
    """A count with the name of what is counted, in the plural but for one."""
    plural = f"{name}es" if name.endswith("x") else f"{name}s"
    return f"{count} {name if count == 1 else plural}"


def _done(found: argparse.Namespace) -> int:
    """Does what the words ask for."""
    held = read(found.config)
    if found.check:
        count = sum(map(len, held.prefixes.values()))
        print(
            f"tora-routes: {found.config}: ok, {_counted(len(held.neighbours), 'neighbour')}, "
            f"{_counted(len(held.prefixes), 'destination')}, {_counted(count, 'prefix')}",
            file=sys.stderr,
        )
        return 0
    try:
        from tora.routes import daemon
    except ImportError as cause:
        raise StudyError(f"the module {cause.name} is missing (package python3-pyroute2)") from None
    if found.flush:
        print(f"tora-routes: {_counted(daemon.flush(held), 'route')} removed", file=sys.stderr)
        return 0
    program = Program.find(found.program)
    if os.geteuid() != 0:
        logging.getLogger("tora-routes").debug("not root: CAP_NET_ADMIN and CAP_NET_RAW are needed")
    daemon.Daemon(held, program).run()
    return 0
