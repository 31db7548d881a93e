"""The kernel's routes and interfaces."""
from __future__ import annotations

import errno
import ipaddress
import os
import socket
from collections.abc import Iterator, Mapping, Sequence
from typing import Any

from pyroute2.iproute.linux import IPRoute
from pyroute2.netlink.exceptions import NetlinkError

from tora.errors import StudyError
from tora.routes.events import address_of
from tora.routes.netlink import CREATE, FAMILY, REMOVE_ROUTE, REPLACE, SET_ROUTE, Netlink, route_message
from tora.routes.table import Route, Routes

ANY = {socket.AF_INET: "0.0.0.0", socket.AF_INET6: "::"}
LINK_GROUP, NEIGHBOUR_GROUP = 0x1, 0x4  # of rtnetlink.h: RTMGRP_LINK, RTMGRP_NEIGH
GONE = (errno.ESRCH, errno.ENOENT, errno.ENODEV)
FORBIDDEN = (errno.EPERM, errno.EACCES)
NOT_ALLOWED = "the kernel lets this process change no routes: root or CAP_NET_ADMIN is needed"


class RouteRefused(Exception):
    """The kernel does not take a route now: its interface is down, or has no address of this version."""


class Kernel:
    """The routes of one table and one protocol number."""

    def __init__(self, table: int, protocol: int) -> None:
        self._table, self._protocol = table, protocol
        self._netlink, self._requests = IPRoute(), Netlink()

    def close(self) -> None:
        """Ends the conversations with the kernel."""
        self._netlink.close()
        self._requests.close()

    def set(self, route: Route, index: int) -> None:
        """Sets a route at the interface of this number, in place of one with its prefix and metric.

        Raises
        ------
        RouteRefused
            Where the kernel does not take it now.
        StudyError
            Where this process may not set routes.
        """
        body = route_message(route, self._table, self._protocol, index)
        _refuse(self._requests.ask(SET_ROUTE, CREATE | REPLACE, body), route)

    def remove(self, route: Route) -> None:
        """Takes a route away; one that is gone already is no fault."""
        error = self._requests.ask(REMOVE_ROUTE, 0, route_message(route, self._table, self._protocol, None))
        if error not in GONE:
            _refuse(error, route)

    def routes(self) -> Routes:
        """The routes that the kernel has."""
        names = {it["index"]: dict(it["attrs"]).get("IFLA_IFNAME", "") for it in self.interfaces()}
        found: Routes = {}
        for family in FAMILY.values():
            for message in self._netlink.route("dump", family=family, table=self._table, proto=self._protocol):
                attributes = dict(message["attrs"])
                if message["proto"] == self._protocol and attributes.get("RTA_TABLE", message["table"]) == self._table:
                    route = _route(message, attributes, family, names)
                    found[route.place] = route
        return found

    def flush(self) -> int:
        """Takes all routes away; answers how many there were."""
        found = self.routes()
        for route in found.values():
            self.remove(route)
        return len(found)

    def interfaces(self) -> Iterator[Mapping[str, Any]]:
        """The interfaces, as messages."""
        yield from self._netlink.get_links()

    def bring_up(self, index: int) -> None:
        """Sets an interface up."""
        try:
            self._netlink.link("set", index=index, state="up")
        except NetlinkError as cause:
            if cause.code in FORBIDDEN:
                raise StudyError(NOT_ALLOWED) from None
            raise


class Events:
    """What the kernel tells of interfaces and neighbours from now on."""

    def __init__(self) -> None:
        self._netlink = Netlink(LINK_GROUP | NEIGHBOUR_GROUP)

    def fileno(self) -> int:
        """The socket, to wait for."""
        return self._netlink.fileno()

    def messages(self) -> Sequence[Mapping[str, Any]] | None:
        """The messages that came; None where some were lost, so that all has to be asked for again."""
        try:
            return self._netlink.events()
        except OSError as cause:
            if cause.errno == errno.ENOBUFS:
                return None
            raise

    def close(self) -> None:
        """Ends the conversation with the kernel."""
        self._netlink.close()


def _route(message: Mapping[str, Any], attributes: Mapping[str, Any], family: int, names: Mapping[int, str]) -> Route:
    """The route of a message."""
    prefix = ipaddress.ip_network(
        f"{attributes.get('RTA_DST', ANY[socket.AddressFamily(family)])}/{message['dst_len']}"
    )
    return Route(
        prefix,
        names.get(attributes.get("RTA_OIF", 0), ""),
        attributes.get("RTA_PRIORITY", 0),
        address_of(attributes.get("RTA_GATEWAY")),
        address_of(attributes.get("RTA_PREFSRC")),
    )


def _refuse(error: int, route: Route) -> None:
    """Refuses by the number of an error, 0 for none: what is forbidden for good, and another for this route."""
    if error in FORBIDDEN:
        raise StudyError(NOT_ALLOWED)
    if error:
        raise RouteRefused(f"{route}: {os.strerror(error)}")
