"""Movement files of other tools, in and out: `setdest` of ns-2, BonnMotion, and floating car data (FCD) of SUMO.

Files whose name ends with ``.gz`` are compressed. Of three coordinates the third is left out.
"""
from __future__ import annotations

import gzip
import math
import os
import re
import xml.sax
import xml.sax.handler
import zlib
from collections.abc import Callable, Iterator, Sequence
from xml.sax.saxutils import quoteattr

from tora.errors import StudyError, UsageError, shown
from tora.files import Path, naming, write_file
from tora.ways import Way, position

MOST_METRES = 10_000_000  # of a place from the origin, and of a speed in a second; also of seconds in a movement file
NUMBER = r"([-+]?(?:[0-9]+\.?[0-9]*|\.[0-9]+)(?:[eE][-+]?[0-9]+)?)"
START = re.compile(r"\$node_\(([0-9]{1,20})\)\s+set\s+([XYZ])_\s+" + NUMBER)
MOVE = re.compile(
    r"\$ns_\s+at\s+" + NUMBER + r'\s+"\$node_\(([0-9]{1,20})\)\s+setdest\s+' + r"\s+".join([NUMBER] * 3) + '"'
)

Move = tuple[float, int, int, float, float, float]  # seconds, line, node, x, y, metres a second


def read_ns2(path: Path) -> list[Way]:
    """The ways of a `setdest` file of ns-2; a new destination breaks off the move before it.

    Raises
    ------
    StudyError
        With the line at fault.
    """
    path = os.fspath(path)
    start: dict[int, dict[str, float]] = {}
    moves = list(_ns2_moves(path, start))
    if sorted(start) != list(range(len(start))) or not all({"X", "Y"} <= set(place) for place in start.values()):
        raise StudyError("nodes have to be 0, 1, 2 .. without a gap, each with X_ and Y_", file=path)
    ways: list[Way] = [[(0.0, start[node]["X"], start[node]["Y"])] for node in range(len(start))]
    for time, line, node, x, y, speed in sorted(moves):
        if node >= len(ways):
            raise StudyError(f"node {node} has no first position", file=path, line=line)
        if time < 0 or speed < 0:
            raise StudyError("a time or a speed is below 0", file=path, line=line)
        _move(ways[node], time, x, y, speed)
    return ways


def read_bonnmotion(path: Path, coordinates: int = 2) -> list[Way]:
    """The ways of a BonnMotion file, one line a node: time and coordinates again and again.

    Parameters
    ----------
    path : path
    coordinates : int
        2 or 3.

    Raises
    ------
    StudyError
        With the line at fault.
    """
    if coordinates not in (2, 3):
        raise UsageError(f"{coordinates} is not 2 or 3", key="coordinates")
    path, width = os.fspath(path), coordinates + 1
    ways = []
    for number, line in _lines(path):
        try:
            values = list(map(float, line.split()))
        except ValueError:
            raise StudyError("a word is no number", file=path, line=number) from None
        if len(values) % width or not all(map(math.isfinite, values)):
            raise StudyError(
                f"{len(values)} numbers, not a multiple of {width}, or one is not finite", file=path, line=number
            )
        if not all(abs(value) <= MOST_METRES for value in values):
            raise StudyError("a number is too large", file=path, line=number)
        way = [(values[at], values[at + 1], values[at + 2]) for at in range(0, len(values), width)]
        if any(one[0] > other[0] for one, other in zip(way, way[1:])):
            raise StudyError("times go back", file=path, line=number)
        ways.append(way)
    return ways


def read_fcd(path: Path, absent: str = "refuse") -> list[Way]:
    """The ways of the vehicles and persons of floating car data of SUMO, in the order in which they come.

    Parameters
    ----------
    path : path
    absent : str
        What becomes of a vehicle that is not in every time step: with ``refuse`` the file is refused; with ``rest`` the
        vehicle is at its first place before it comes, and at its last one after it has left.

    Raises
    ------
    StudyError
        With the line at fault.
    """
    if absent not in ("refuse", "rest"):
        raise UsageError(f"`{shown(absent)}` is not refuse or rest", key="absent")
    path = os.fspath(path)
    steps = _FcdSteps(path, absent == "rest")
    try:
        xml.sax.parseString(_text(path).encode(), steps)
    except xml.sax.SAXParseException as cause:
        raise StudyError(f"no XML: {cause.getMessage()}", file=path, line=cause.getLineNumber()) from None
    if not steps.ways:
        raise StudyError("no vehicle in a file of floating car data", file=path)
    return list(steps.ways.values())


def write_ns2(path: Path, ways: Sequence[Way], *, inputs: Sequence[Path] = (), overwrite: bool = False) -> None:
    """Writes ways as a `setdest` file of ns-2; node 1 of a scenario is its node 0.

    A `setdest` file begins at 0 seconds: what is before is left out.
    """
    lines = []
    for node, way in enumerate(ways):
        x, y = position(way, 0.0)
        lines += [f"$node_({node}) set X_ {x!r}", f"$node_({node}) set Y_ {y!r}", f"$node_({node}) set Z_ 0.0"]
    for node, way in enumerate(ways):
        here: tuple[float, float, float] = (0.0, *position(way, 0.0))
        for point in [point for point in way if point[0] > 0]:
            length = math.dist(here[1:], point[1:])
            if length:
                speed = length / (point[0] - here[0])
                lines.append(f'$ns_ at {here[0]!r} "$node_({node}) setdest {point[1]!r} {point[2]!r} {speed!r}"')
            here = point
    _write(path, "\n".join(lines) + "\n", inputs, overwrite)


def write_bonnmotion(path: Path, ways: Sequence[Way], *, inputs: Sequence[Path] = (), overwrite: bool = False) -> None:
    """Writes ways as a BonnMotion file of two coordinates, one line a node."""
    text = "".join(" ".join(repr(value) for point in way for value in point) + "\n" for way in ways)
    _write(path, text, inputs, overwrite)


def write_fcd(
    path: Path, ways: Sequence[Way], *, until: float | None = None, step: float = 1.0, inputs: Sequence[Path] = (),
    overwrite: bool = False,
) -> None:
    """Writes the places of ways as floating car data of SUMO.

    They are those at every `step` seconds from 0 to `until` seconds, in centimetres; to the last way point of all where
    that is not told.
    """
    last = max(way[-1][0] for way in ways) if until is None else until
    lines = ["<fcd-export>"]
    for at in range(int(last / step + 1e-9) + 1):
        lines.append(f'    <timestep time="{at * step:.2f}">')
        for node, way in enumerate(ways, 1):
            x, y = position(way, at * step)
            lines.append(f"        <vehicle id={quoteattr(str(node))} x=\"{x:.2f}\" y=\"{y:.2f}\"/>")
        lines.append("    </timestep>")
    _write(path, "\n".join([*lines, "</fcd-export>"]) + "\n", inputs, overwrite)


READERS: dict[str, Callable[..., list[Way]]] = {"ns2": read_ns2, "bonnmotion": read_bonnmotion, "fcd": read_fcd}
WRITERS: dict[str, Callable[..., None]] = {"ns2": write_ns2, "bonnmotion": write_bonnmotion, "fcd": write_fcd}


class _FcdSteps(xml.sax.handler.ContentHandler):
    """The vehicles of the time steps of a file."""

    def __init__(self, path: str, may_be_absent: bool) -> None:
        """Before the first step."""
        super().__init__()
        self.path, self.may_be_absent = path, may_be_absent
        self.ways: dict[str, Way] = {}
        self.time: float | None = None
        self.steps = 0
        self.here: set[str] = set()

    def refused(self, cause: str) -> StudyError:
        """The refusal of the current line."""
        locator = self._locator  # type: ignore[attr-defined]
        return StudyError(cause, file=self.path, line=locator.getLineNumber())

    def startElement(self, name: str, attrs: xml.sax.xmlreader.AttributesImpl) -> None:
        """Takes a time step, a vehicle or a person."""
        if name == "timestep":
            time = self.number(attrs, "time")
            if self.time is not None and time <= self.time:
                raise self.refused("times go back")
            self.time, self.here, self.steps = time, set(), self.steps + 1
        elif name in ("vehicle", "person"):
            self.take(attrs)
        elif name not in ("fcd-export", "container"):
            raise self.refused(f"no element of floating car data: {shown(name)}")

    def take(self, attrs: xml.sax.xmlreader.AttributesImpl) -> None:
        """Takes a vehicle."""
        if self.time is None or "id" not in attrs:
            raise self.refused("a vehicle without an id, or outside of a time step")
        who = str(attrs["id"])
        if who in self.here:
            raise self.refused(f"the vehicle `{shown(who)}` is repeated in a time step")
        way = self.ways.setdefault(who, [])
        if len(way) != self.steps - 1 and not self.may_be_absent:
            raise self.refused(f"the vehicle `{shown(who)}` is not in every time step before (absent: refuse)")
        self.here.add(who)
        way.append((self.time, self.number(attrs, "x"), self.number(attrs, "y")))

    def endElement(self, name: str) -> None:
        """Ends a time step."""
        if name == "timestep" and not self.may_be_absent and len(self.here) != len(self.ways):
            who = next(who for who in self.ways if who not in self.here)
            raise self.refused(f"the vehicle `{shown(who)}` is gone (absent: refuse)")

    def number(self, attrs: xml.sax.xmlreader.AttributesImpl, name: str) -> float:
        """The number of an attribute."""
        text = str(attrs[name]) if name in attrs else ""
        if not re.fullmatch(NUMBER, text) or abs(float(text)) > MOST_METRES:
            raise self.refused(f"`{name}` is no number, or too large: `{shown(text)}`")
        return float(text)


def _move(way: Way, time: float, x: float, y: float, speed: float) -> None:
    """A node has a new destination from a time on."""
    here_x, here_y = position(way, time)
    while way and way[-1][0] >= time:  # times rise, so what is broken off stands at the end
        way.pop()
    way.append((time, here_x, here_y))
    length = math.hypot(x - here_x, y - here_y)
    if length and speed > 0:
        way.append((time + length / speed, x, y))


def _ns2_moves(path: str, start: dict[int, dict[str, float]]) -> Iterator[Move]:
    """Yields the moves of a `setdest` file; the first positions go to `start`."""
    for number, line in _lines(path):
        if found := MOVE.fullmatch(line):
            time, x, y, speed = _numbers(path, number, (found[1], *found.groups()[2:]))
            yield time, number, int(found[2]), x, y, speed
        elif "$god_" in line:  # hop counts that the generator foretells; nothing moves by them
            continue
        elif found := START.fullmatch(line):
            (metres,) = _numbers(path, number, (found[3],))
            start.setdefault(int(found[1]), {})[found[2]] = metres
        else:
            raise StudyError(f"no line of a setdest file: {shown(line)}", file=path, line=number)


def _numbers(path: str, line: int, words: Sequence[str]) -> tuple[float, ...]:
    """Words of a line as numbers, none of which is too large."""
    values = tuple(map(float, words))
    if max(values) > MOST_METRES or min(values) < -MOST_METRES:
        raise StudyError("a number is too large", file=path, line=line)
    return values


def _lines(path: str) -> Iterator[tuple[int, str]]:
    """Yields the lines of a file that are not empty and no comment, with their numbers."""
    for number, text in enumerate(_text(path).split("\n"), 1):
        line = text.strip()
        if line and not line.startswith("#"):
            yield number, line


def _text(path: str) -> str:
    """The text of a file, which may be compressed and may begin with a byte order mark; its lines end with LF."""
    try:
        with naming(path), open(path, "rb") as source:
            data = source.read()
        text = (gzip.decompress(data) if path.endswith(".gz") else data).decode("utf-8-sig").replace("\r\n", "\n")
    except (EOFError, UnicodeDecodeError, gzip.BadGzipFile, zlib.error):
        raise StudyError("neither a text nor a compressed text", file=path) from None
    if not text or text.isspace():
        raise StudyError("the file is empty", file=path, line=1)
    return text


def _write(path: Path, text: str, inputs: Sequence[Path], overwrite: bool) -> None:
    """Writes a file, compressed where its name ends so."""
    data = text.encode()
    write_file(path, gzip.compress(data, mtime=0) if os.fspath(path).endswith(".gz") else data, inputs, overwrite)
