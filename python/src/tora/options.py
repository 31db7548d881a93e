"""The options of the command line that several words share, and how their texts are read.

Whether a value is within its bounds, and whether options go together, is tested by what is called with them.
"""
from __future__ import annotations

import argparse
import dataclasses
import re
import textwrap
from collections.abc import Callable, Sequence
from typing import Any, NoReturn

from tora.errors import UsageError, shown
from tora.motion import MODELS, OWN

WHOLE = re.compile(r"-?[0-9]{1,40}")
NUMBER = re.compile(r"-?([0-9]{1,40}\.?[0-9]*|\.[0-9]+)([eE][-+]?[0-9]{1,3})?")
STATUSES = "Exit status: 0 if all is done; 1 if an input is bad or a run failed; 2 if the command line asks for something impossible."


class Formatter(argparse.RawDescriptionHelpFormatter):
    """Fills the paragraphs of a description. An indented line stays a separate line, wrapped below its last column."""

    def _fill_text(self, text: str, width: int, indent: str) -> str:
        """The lines of a text, each at most so long."""
        parts: list[str] = []
        for line in text.splitlines():
            if parts and parts[-1] and line and not line.startswith(" ") and not parts[-1].startswith(" "):
                parts[-1] += f" {line}"
            else:
                parts.append(line)
        return "\n".join(line for part in parts for line in self._filled(part, width, indent))

    @staticmethod
    def _filled(paragraph: str, width: int, indent: str) -> list[str]:
        """The lines of a paragraph, or one empty line."""
        head = re.match(r" +(?:\S+ )*? {2,}(?=\S)| *", paragraph)
        assert head is not None
        return textwrap.wrap(paragraph, width, initial_indent=indent, subsequent_indent=indent + " " * len(head[0]), break_on_hyphens=False) or [""]


class Parser(argparse.ArgumentParser):
    """A parser that says what is wrong in one line, and takes no option by a part of its name."""

    def __init__(self, *args: Any, **more: Any) -> None:
        more.setdefault("allow_abbrev", False)
        more.setdefault("formatter_class", Formatter)
        super().__init__(*args, **more)

    def error(self, message: str) -> NoReturn:
        """Ends with status 2."""
        self.exit(2, f"{self.prog}: {' '.join(message.split())} (--help)\n")


class Once(argparse.Action):
    """Keeps a value; an option that is repeated is refused."""

    def __call__(self, parser: argparse.ArgumentParser, namespace: argparse.Namespace, values: Any, option_string: str | None = None) -> None:
        """Takes the value of an option."""
        held = namespace.__dict__.setdefault("_given", set())
        if self.dest in held:
            parser.error(f"{option_string} is repeated")
        held.add(self.dest)
        setattr(namespace, self.dest, self.const if self.nargs == 0 else values)


class Flag(Once):
    """Keeps True; an option that is repeated is refused."""

    def __init__(self, option_strings: Sequence[str], dest: str, **more: Any) -> None:
        super().__init__(option_strings, dest, nargs=0, const=True, **more)


def whole(text: str) -> int:
    """A whole number."""
    if not WHOLE.fullmatch(text):
        raise argparse.ArgumentTypeError(f"`{shown(text)}` is no whole number")
    return int(text)


def number(text: str) -> float:
    """A number."""
    if not NUMBER.fullmatch(text):
        raise argparse.ArgumentTypeError(f"`{shown(text)}` is no number")
    return float(text)


def above_zero(text: str) -> float:
    """A number above 0."""
    value = number(text)
    if not value > 0:
        raise argparse.ArgumentTypeError(f"`{shown(text)}` is not above 0")
    return value


def count(text: str) -> int:
    """A whole number from 1."""
    value = whole(text)
    if value < 1:
        raise argparse.ArgumentTypeError(f"`{shown(text)}` is not 1 or more")
    return value


def text(word: str) -> str:
    """A word that is not empty."""
    if not word:
        raise argparse.ArgumentTypeError("it is empty")
    return word


def _pair(mark: str, example: str) -> Callable[[str], tuple[float, float]]:
    """Two numbers with a mark between them."""
    def pair(word: str) -> tuple[float, float]:
        found = re.fullmatch(rf"([0-9]+\.?[0-9]*){mark}([0-9]+\.?[0-9]*)", word, re.ASCII)
        if not found:
            raise argparse.ArgumentTypeError(f"`{shown(word)}` is not of the form {example}")
        return float(found[1]), float(found[2])
    return pair


def times(word: str) -> tuple[int, ...]:
    """The four times of a link end."""
    if not re.fullmatch(r"[0-9]{1,20}(,[0-9]{1,20}){3}", word, re.ASCII):
        raise argparse.ArgumentTypeError(f"`{shown(word)}` is not four numbers, as 10,50,5,8")
    return tuple(int(part) for part in word.split(","))


def delay(word: str) -> int | tuple[int, int]:
    """Rounds, or the least and the most of them."""
    found = re.fullmatch(r"([0-9]{1,9})(?:-([0-9]{1,9}))?", word, re.ASCII)
    if not found:
        raise argparse.ArgumentTypeError(f"`{shown(word)}` is not rounds, as 2 or 1-3")
    return int(found[1]) if found[2] is None else (int(found[1]), int(found[2]))


def yes(word: str) -> bool:
    """1 or 0."""
    if word not in ("0", "1"):
        raise argparse.ArgumentTypeError(f"`{shown(word)}` is not 0 or 1")
    return word == "1"


def names(word: str) -> list[str]:
    """Names with commas between them, none of them twice."""
    found = word.split(",")
    for at, name in enumerate(found):
        if not name or name in found[:at]:
            raise argparse.ArgumentTypeError(f"`{shown(name)}` is repeated" if name else "a name is empty")
    return found


def setting(word: str) -> tuple[str, str]:
    """``COLUMN=VALUE``."""
    name, mark, value = word.partition("=")
    if not name or not mark:
        raise argparse.ArgumentTypeError(f"`{shown(word)}` is not COLUMN=VALUE")
    return name, value


@dataclasses.dataclass(frozen=True)
class Option:
    """An option of a scenario or of its run: how its text is read, and what help says."""

    read: Callable[[str], Any]
    metavar: str
    help: str
    is_flag: bool = False


SCENARIO = {
    "nodes": Option(whole, "NUMBER", "nodes: 2 to 64, or to 1024 with --large (20)"),
    "model": Option(str, "MODEL", f"how nodes move: {', '.join(MODELS)} (waypoint)"),
    "speed": Option(_pair("-", "1-3"), "A-B", "least and greatest speed, 0.000001 to 10000000 m/s (1-3)"),
    "pause": Option(number, "SECONDS", "waypoint models: longest stop at a way point in seconds, 0 or more (10)"),
    "settle": Option(number, "SECONDS", "waypoint: seconds of motion before the first round, 0 or more (1000)"),
    "area": Option(_pair("x", "500x300"), "WxH", "width and height, 0.01 to 10000000 m each"),
    "degree": Option(number, "NUMBER", "without --area: a square in which a node has this many neighbours on average, 0.000001 to 1000000 (6)"),
    "rounds": Option(whole, "ROUNDS", "length of the run in rounds of 100 ms, 1 to 2^64 - 1 (1200)"),
    "sample": Option(whole, "ROUNDS", "rounds between updates of the links by the motion, 1 to 10000 (10)"),
    "range": Option(number, "METRES", "how far a link reaches, 0.01 to 10000000 m (100)"),
    "need": Option(whole, "ROUNDS", "rounds between the needs of every flow, 1 or more (10)"),
    "limit": Option(whole, "LINKS", "greatest number of links of a node, 1 to 32, or to 255 with --large (32 or 255)"),
    "destinations": Option(whole, "NUMBER", "how many destinations, 1 to 64 (4)"),
    "flows": Option(whole, "NUMBER", "how many flows, 0 to 65536; 0 means as many as nodes (0)"),
    "times": Option(times, "HELLO,SILENCE,RETRY,TRIES", "times of a link end in ticks of 100 ms, each 1 or more (10,50,5,8)"),
    "heights": Option(whole, "ROUNDS", "rounds between `heights` lines, 0 for none (0)"),
    "large": Option(yes, "", "up to 1024 nodes with 255 links each", is_flag=True),
    "alpha": Option(number, "NUMBER", "gauss-markov: memory of speed and direction, 0 to 1 (0.75)"),
    "mean_speed": Option(number, "M/S", "gauss-markov: mean speed, m/s (the middle of --speed)"),
    "speed_deviation": Option(number, "M/S", "gauss-markov: standard deviation of speeds, m/s (0.5)"),
    "direction_deviation": Option(number, "RADIANS", "gauss-markov: standard deviation of directions, 0 to 1000 (0.5)"),
    "interval": Option(number, "SECONDS", "gauss-markov: seconds between draws, 0.1 to 1000 (1)"),
    "blocks": Option(whole, "NUMBER", "manhattan: blocks along each side, 1 to 1000 (5)"),
    "acceleration": Option(number, "M/S2", "manhattan: greatest change of speed in a second, m/s (0.5)"),
    "safety_distance": Option(number, "METRES", "manhattan: closer than this many metres, a node is no faster than the node ahead (5)"),
}
FILES = {
    "ns2": Option(text, "FILE", "motion from a setdest file of ns-2, plain or .gz"),
    "bonnmotion": Option(text, "FILE", "motion from a BonnMotion file, plain or .gz"),
    "coordinates": Option(whole, "2|3", "bonnmotion: coordinates of a way point (2)"),
    "fcd": Option(text, "FILE", "motion from floating car data of SUMO, plain or .gz"),
    "absent": Option(text, "WHAT", "fcd: what to do with a vehicle while it is absent (refuse)"),
}
CHANNEL = {
    "loss": Option(number, "SHARE", "share of datagrams that are lost, 0 to 1, in steps of 0.000001 (0)"),
    "repeat": Option(number, "SHARE", "share of the others that arrive twice, likewise (0)"),
    "delay": Option(delay, "ROUNDS", "rounds of 100 ms after which a datagram arrives, such as 2 or 1-3, 0 to 10000 (0)"),
    "channel_seed": Option(whole, "NUMBER", "seed of the random numbers of the channel, 0 to 2^64 - 1 (0)"),
    "notice": Option(yes, "", "both ends notice at once that a link is parted", is_flag=True),
    "until": Option(whole, "ROUNDS", "simulate and measure only this many rounds, 1 or more"),
    "erasure": Option(text, "WORD", "what nodes do with erased levels: plain or remembered (plain)"),
}
EDGE_LOSS = {"edge_loss": Option(number, "SHARE", "losses rise with the distance up to this share at the range, 0 to 1; they are written to a channel file")}
OF_RUN = (*CHANNEL, *EDGE_LOSS)  # what is told to `Scenario.run`
VARIED = {name: option for name, option in (SCENARIO | CHANNEL | EDGE_LOSS).items() if name not in ("nodes", "heights", "large")}  # what a study may vary
assert {name for own in OWN.values() for name in own} <= set(SCENARIO)


def flag_of(name: str) -> str:
    """The option of a name."""
    return "--" + name.replace("_", "-")


def add_options(parser: argparse.ArgumentParser, options: dict[str, Option], title: str, leave_out: Sequence[str] = ()) -> None:
    """Adds options, each of which may be given once; a missing one is None."""
    group = parser.add_argument_group(title)
    for name, option in options.items():
        if name in leave_out:
            continue
        if option.is_flag:
            group.add_argument(flag_of(name), action=Flag, default=None, help=option.help)
        else:
            group.add_argument(flag_of(name), type=option.read, action=Once, metavar=option.metavar, help=option.help)


def add_output(parser: argparse.ArgumentParser, text_of: str, needed: bool = False) -> None:
    """Adds ``-o`` and ``--overwrite``."""
    parser.add_argument("-o", "--output", metavar="FILE", action=Once, type=text, required=needed, help=text_of)
    parser.add_argument("--overwrite", action=Flag, default=False, help="replace a file that exists")


def given(words: argparse.Namespace, options: dict[str, Option]) -> dict[str, Any]:
    """The options that were given, by their names."""
    return {name: getattr(words, name) for name in options if getattr(words, name, None) is not None}


def varied_values(word: str) -> tuple[str, list[Any]]:
    """The name and the values of one ``--vary NAME=VALUE,..``; a comma within a value is written as a colon.

    Raises
    ------
    UsageError
        Where the name is none that may vary, a value is none, or a value is repeated, however it is spelled.
    """
    option, mark, text_ = word.partition("=")
    name = option.replace("-", "_")
    if not mark or name not in VARIED or "_" in option:
        raise UsageError(f"`{shown(word)}` is not NAME=VALUE,.. with an option that may vary, as speed=1-3,1-20", key="--vary")
    values: list[Any] = []
    for part in text_.split(","):
        try:
            value = VARIED[name].read(part.replace(":", ","))
        except argparse.ArgumentTypeError as cause:
            raise UsageError(f"{option}: {cause}", key="--vary") from None
        if value in values:
            raise UsageError(f"{option}: `{shown(part)}` is repeated: its runs would be counted twice", key="--vary")
        values.append(value)
    return name, values


def value_text(value: Any) -> str:
    """A value as the name of a run has it: a comma within it as a colon."""
    if isinstance(value, bool):
        return "1" if value else "0"
    if isinstance(value, (tuple, list)):
        return (":" if len(value) == 4 else "-").join(value_text(part) for part in value)
    return f"{value:.12g}" if isinstance(value, float) else str(value)
