"""Reads the configuration of `tora-routes`: a file of TOML that maps the numbers of nodes to addresses, prefixes and
interfaces."""
from __future__ import annotations

import dataclasses
import ipaddress
import re
import tomllib
from collections.abc import Mapping
from typing import Any

from tora.errors import StudyError, shown
from tora.files import Path, naming
from tora.routes.place import line_of

Address = ipaddress.IPv4Address | ipaddress.IPv6Address
Network = ipaddress.IPv4Network | ipaddress.IPv6Network

PROTOCOL = 84  # of the routes; no name of rt_protos of iproute2 has it
TABLE = 254  # the main table
METRIC = 32  # of a route that TORA found
LAST_METRIC = 1 << 24  # of the route into the TUN device, after every other route
DEVICE = "tora"
MOST_NODE = (1 << 32) - 1
MOST_NAME = 15  # characters of the name of an interface
KEYS = ("node", "source", "protocol", "table", "metric", "device", "neighbour", "destination")
NAME = re.compile(r"[^\s/:]{1,15}")


@dataclasses.dataclass(frozen=True)
class Neighbour:
    """A neighbour: its number, the interface to it, and the addresses that it has there, at most one of each version of
    IP."""

    node: int
    interface: str
    via: tuple[Address, ...]

    def via_of(self, version: int) -> Address | None:
        """The address of a version of IP, if there is one."""
        return next((it for it in self.via if it.version == version), None)


@dataclasses.dataclass(frozen=True)
class Configuration:
    """What a configuration says.

    Attributes
    ----------
    path : str
        The file that it was read from.
    node : str
        The path of the configuration of `tora node`.
    own : int
        The number of the node.
    sources : tuple of addresses
        The host's own addresses, at most one of each version, that it sends from.
    protocol, table, metric : int
        Of the routes in the kernel.
    device : str
        The TUN device that takes packets without a route.
    neighbours : mapping
        By the number of the node.
    prefixes : mapping
        By the number of a destination its prefixes.
    """

    path: str
    node: str
    own: int
    sources: tuple[Address, ...]
    protocol: int
    table: int
    metric: int
    device: str
    neighbours: Mapping[int, Neighbour]
    prefixes: Mapping[int, tuple[Network, ...]]

    def source_of(self, version: int) -> Address | None:
        """The host's own address of a version of IP, if there is one."""
        return next((it for it in self.sources if it.version == version), None)


class _Table:
    """A table of the text, which refuses its values with their key and line."""

    def __init__(self, path: str, text: str, values: dict[str, Any], name: str | None = None, index: int = 0) -> None:
        self.path, self.text, self.values, self.name, self.index = path, text, values, name, index

    def refused(self, key: str, cause: str) -> StudyError:
        """The error of a key."""
        told = key if self.name is None else f"{self.name}[{self.index + 1}].{key}"
        return StudyError(cause, file=self.path, line=line_of(self.text, key, self.name, self.index), key=told)

    def only(self, known: tuple[str, ...]) -> None:
        """Refuses a key that is none."""
        for key in sorted(self.values):
            if key not in known:
                raise self.refused(key, f"there is no such key; keys are {', '.join(known)}")

    def need(self, key: str) -> Any:
        """A value that has to be there."""
        if key not in self.values:
            raise self.refused(key, "the key is missing")
        return self.values[key]

    def number(self, key: str, least: int, most: int, default: int | None = None) -> int:
        """A whole number within bounds."""
        value = self.need(key) if default is None else self.values.get(key, default)
        if not isinstance(value, int) or isinstance(value, bool) or not least <= value <= most:
            raise self.refused(key, f"`{shown(str(value))}` is no whole number from {least} to {most}")
        return value

    def word(self, key: str, default: str | None = None) -> str:
        """A text that is not empty."""
        value = self.need(key) if default is None else self.values.get(key, default)
        if not isinstance(value, str) or not value or "\0" in value:
            raise self.refused(key, f"`{shown(str(value))}` is no text, or an empty one")
        return value

    def interface(self, key: str, default: str | None = None) -> str:
        """The name of an interface."""
        value = self.word(key, default)
        if not NAME.fullmatch(value) or value in (".", ".."):
            raise self.refused(
                key,
                f"`{shown(value)}` is no name of an interface: 1 to {MOST_NAME} characters without blank, `/` and `:`",
            )
        return value

    def texts(self, key: str) -> list[str]:
        """A list of texts."""
        value = self.need(key)
        if not isinstance(value, list) or not value or not all(isinstance(it, str) for it in value):
            raise self.refused(key, "the value is no list of texts, or an empty one")
        return value

    def addresses(self, key: str, texts: list[str]) -> tuple[Address, ...]:
        """At most one address of each version of IP, of one host."""
        found: list[Address] = []
        for text in texts:
            try:
                address = ipaddress.ip_address(text)
            except ValueError:
                raise self.refused(key, f"`{shown(text)}` is no address of IPv4 or IPv6") from None
            if address.is_multicast or address.is_unspecified or getattr(address, "scope_id", None) is not None:
                raise self.refused(key, f"`{shown(text)}` is no address of one host without a zone")
            if any(it.version == address.version for it in found):
                raise self.refused(key, f"`{shown(text)}` is the second address of IPv{address.version}")
            found.append(address)
        return tuple(found)

    def networks(self, key: str, texts: list[str]) -> tuple[Network, ...]:
        """Prefixes."""
        found: list[Network] = []
        for text in texts:
            try:
                network = ipaddress.ip_network(text)
            except ValueError:
                raise self.refused(
                    key, f"`{shown(text)}` is no prefix of IPv4 or IPv6, or has bits after its length"
                ) from None
            if network.is_multicast:
                raise self.refused(key, f"`{shown(text)}` is a prefix of groups")
            found.append(network)
        return tuple(found)


def read(path: Path) -> Configuration:
    """Reads a configuration, and of the configuration of the node that it names the numbers.

    Raises
    ------
    StudyError
        With the file, the line and the key at fault.
    """
    name = str(path)
    text, values = _values(name)
    table = _Table(name, text, values)
    table.only(KEYS)
    node = table.word("node")
    own, peers, dests = _numbers(node)
    source = table.addresses("source", table.texts("source")) if "source" in values else ()
    neighbours = _neighbours(table, node, peers)
    prefixes = _prefixes(table, node, own, dests)
    device = table.interface("device", DEVICE)
    for at, neighbour in enumerate(neighbours.values()):
        if neighbour.interface == device:
            raise _table_of(table, "neighbour", at).refused("interface", f"`{device}` is the TUN device of tora-routes")
    return Configuration(
        name,
        node,
        own,
        source,
        table.number("protocol", 5, 255, PROTOCOL),
        table.number("table", 1, MOST_NODE, TABLE),
        table.number("metric", 1, LAST_METRIC - 1, METRIC),
        device,
        neighbours,
        prefixes,
    )


def _values(path: str) -> tuple[str, dict[str, Any]]:
    """The text of a file, and what it holds."""
    with naming(path), open(path, "rb") as source:
        data = source.read()
    try:
        text = data.decode("utf-8")
    except UnicodeDecodeError as cause:
        raise StudyError(
            "the file is no text in UTF-8", file=path, line=data.count(b"\n", 0, cause.start) + 1
        ) from None
    try:
        return text, tomllib.loads(text)
    except tomllib.TOMLDecodeError as cause:
        place = re.search(r" \(at line (\d+), column \d+\)$", str(cause))
        told = str(cause) if place is None else str(cause)[: place.start()]
        raise StudyError(told, file=path, line=int(place[1]) if place else None) from None


def _numbers(path: str) -> tuple[int, list[int], list[int]]:
    """The numbers in the configuration of a node: its own, its neighbours and its destinations. What else it says the
    node itself checks."""
    text, values = _values(path)
    table = _Table(path, text, values)
    own = table.number("node", 1, MOST_NODE)
    dests = table.need("dests")
    if not isinstance(dests, list) or not all(isinstance(it, int) for it in dests):
        raise table.refused("dests", "the value is no list of whole numbers")
    peers = [_table_of(table, "link", at).number("peer", 1, MOST_NODE) for at in range(_count(table, "link"))]
    return own, peers, dests


def _count(table: _Table, name: str) -> int:
    """How many tables an array of tables has; refuses what is none, or is empty."""
    value = table.need(name)
    if not isinstance(value, list) or not value or not all(isinstance(it, dict) for it in value):
        raise table.refused(name, f"there is no `[[{name}]]`")
    return len(value)


def _table_of(table: _Table, name: str, index: int) -> _Table:
    """One table of an array of tables."""
    return _Table(table.path, table.text, table.values[name][index], name, index)


def _neighbours(table: _Table, node: str, peers: list[int]) -> dict[int, Neighbour]:
    """The neighbours: just those of the node's links."""
    found: dict[int, Neighbour] = {}
    for at in range(_count(table, "neighbour")):
        own = _table_of(table, "neighbour", at)
        own.only(("node", "interface", "via"))
        number = own.number("node", 1, MOST_NODE)
        if number not in peers:
            raise own.refused("node", f"{node} has no link to {number}")
        if number in found:
            raise own.refused("node", f"the neighbour {number} stands before")
        via = own.addresses("via", own.texts("via"))
        found[number] = Neighbour(number, own.interface("interface"), via)
    missing = next((it for it in peers if it not in found), None)
    if missing is not None:
        raise table.refused("neighbour", f"the neighbour {missing} of {node} is missing")
    return found


def _prefixes(table: _Table, node: str, own: int, dests: list[int]) -> dict[int, tuple[Network, ...]]:
    """The prefixes of the destinations; those of the node itself are left out."""
    found: dict[int, tuple[Network, ...]] = {}
    holder: dict[Network, int] = {}
    for at in range(_count(table, "destination")):
        one = _table_of(table, "destination", at)
        one.only(("node", "prefixes"))
        number = one.number("node", 1, MOST_NODE)
        if number not in dests and number != own:
            raise one.refused("node", f"{number} is not among the dests of {node}")
        if number in found:
            raise one.refused("node", f"the destination {number} stands before")
        found[number] = one.networks("prefixes", one.texts("prefixes"))
        for network in found[number]:
            if network in holder:
                raise one.refused("prefixes", f"the prefix {network} is one of node {holder[network]}")
            holder[network] = number
    found.pop(own, None)
    return found
