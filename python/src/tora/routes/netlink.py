"""Messages of rtnetlink for which pyroute2 is too slow: those between a lost carrier and a new route.

The numbers are those of linux/netlink.h and linux/rtnetlink.h.
"""
from __future__ import annotations

import ipaddress
import socket
import struct
from collections.abc import Iterator
from typing import Any

from tora.routes.table import Route

HEADER = struct.Struct("=LHHLL")  # length, kind, flags, number, port
ATTRIBUTE = struct.Struct("=HH")  # length, kind
ROUTE = struct.Struct("=8BL")  # family, bits of the prefix, of the source, service, table, protocol, scope, type, flags
INTERFACE = struct.Struct("=BxHiLL")  # family, type, index, flags, change
NEIGHBOUR = struct.Struct("=BxxxiHBB")  # family, index, state, flags, type
REQUEST, ACKNOWLEDGED, REPLACE, CREATE = 0x1, 0x4, 0x100, 0x400
ERROR, SET_ROUTE, REMOVE_ROUTE = 2, 24, 25
KINDS = {16: "RTM_NEWLINK", 17: "RTM_DELLINK", 28: "RTM_NEWNEIGH"}  # that are read
PREFIX, INTERFACE_OF, GATEWAY, METRIC, SOURCE, TABLE = 1, 4, 5, 6, 7, 15  # attributes of a route
NAME, ADDRESS = 3, 1  # of an interface, of a neighbour
UNICAST = 1
ONLINK = 4  # the gateway is at the interface, whatever its prefixes are
FAMILY: dict[int, int] = {4: socket.AF_INET, 6: socket.AF_INET6}


class Netlink:
    """A conversation with the kernel."""

    def __init__(self, groups: int = 0) -> None:
        self._socket = socket.socket(socket.AF_NETLINK, socket.SOCK_RAW, socket.NETLINK_ROUTE)
        self._socket.bind((0, groups))
        self._number = 0

    def fileno(self) -> int:
        """The socket, to wait for."""
        return self._socket.fileno()

    def ask(self, kind: int, flags: int, body: bytes) -> int:
        """Asks for something; answers the number of the error, 0 for none."""
        self._number += 1
        head = HEADER.pack(HEADER.size + len(body), kind, REQUEST | ACKNOWLEDGED | flags, self._number, 0)
        self._socket.send(head + body)
        while True:
            for kind_of_answer, number, answer in messages_of(self._socket.recv(1 << 16)):
                if kind_of_answer == ERROR and number == self._number:
                    return -int(struct.unpack_from("=i", answer)[0])

    def events(self) -> list[dict[str, Any]]:
        """What the kernel told of interfaces and neighbours, in the form that pyroute2 gives it."""
        read = [event_of(kind, body) for kind, _, body in messages_of(self._socket.recv(1 << 16, socket.MSG_DONTWAIT))]
        return [it for it in read if it is not None]

    def close(self) -> None:
        """Ends the conversation."""
        self._socket.close()


def route_message(route: Route, table: int, protocol: int, index: int | None) -> bytes:
    """The body of a request to set a route at the interface of this number, or with None to take it away."""
    told = [(PREFIX, route.prefix.network_address.packed), (METRIC, _number(route.metric)), (TABLE, _number(table))]
    flags = 0
    if index is not None:
        told.append((INTERFACE_OF, _number(index)))
        if route.source is not None:
            told.append((SOURCE, route.source.packed))
        if route.via is not None:
            told.append((GATEWAY, route.via.packed))
            flags = ONLINK
    family, bits = FAMILY[route.prefix.version], route.prefix.prefixlen
    head = ROUTE.pack(family, bits, 0, 0, table if table < 256 else 0, protocol, 0, UNICAST, flags)
    return head + b"".join(_attribute(kind, data) for kind, data in told)


def _number(value: int) -> bytes:
    """A number of four bytes, in the order of the machine."""
    return struct.pack("=L", value)


def _attribute(kind: int, data: bytes) -> bytes:
    """An attribute, filled up to a multiple of four bytes."""
    size = ATTRIBUTE.size + len(data)
    return ATTRIBUTE.pack(size, kind) + data + bytes(-size % 4)


def messages_of(data: bytes) -> Iterator[tuple[int, int, bytes]]:
    """The messages in what the kernel sent: kind, number and body of each."""
    while len(data) >= HEADER.size:
        size, kind, _, number, _ = HEADER.unpack_from(data)
        yield kind, number, data[HEADER.size : size]
        data = data[size + -size % 4 :]


def _attributes(data: bytes) -> dict[int, bytes]:
    """Attributes by their kind."""
    found = {}
    while len(data) >= ATTRIBUTE.size:
        size, kind = ATTRIBUTE.unpack_from(data)
        found[kind] = data[ATTRIBUTE.size : size]
        data = data[max(size + -size % 4, ATTRIBUTE.size) :]
    return found


def event_of(kind: int, body: bytes) -> dict[str, Any] | None:
    """A message of an interface or a neighbour; None of another kind."""
    event = KINDS.get(kind)
    if event is None:
        return None
    if event == "RTM_NEWNEIGH":
        _, index, state, _, _ = NEIGHBOUR.unpack_from(body)
        address = _attributes(body[NEIGHBOUR.size :]).get(ADDRESS, b"")
        told = [("NDA_DST", str(ipaddress.ip_address(address)))] if len(address) in (4, 16) else []
        return {"event": event, "ifindex": index, "state": state, "attrs": told}
    family, _, index, flags, _ = INTERFACE.unpack_from(body)
    name = _attributes(body[INTERFACE.size :]).get(NAME, b"").rstrip(b"\0").decode("utf-8", "replace")
    return {"event": event, "family": family, "index": index, "flags": flags, "attrs": [("IFLA_IFNAME", name)]}
