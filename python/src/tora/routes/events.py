"""What the kernel tells of interfaces and neighbours, and which links of the node end by it."""
from __future__ import annotations

import ipaddress
from collections.abc import Mapping
from typing import Any

from tora.routes.configuration import Address, Configuration

UP, LOWER_UP = 0x1, 0x10000  # flags of an interface (if.h): it is set up, and it has a carrier
FAILED = 0x20  # a neighbour that does not answer (neighbour.h, NUD_FAILED)
ABLE = UP | LOWER_UP


class Interfaces:
    """The interfaces of a host: which are usable, and which neighbours are behind each."""

    def __init__(self, held: Configuration) -> None:
        self._held = held
        self._names: dict[int, str] = {}
        self._flags: dict[str, int] = {}

    @property
    def usable(self) -> set[str]:
        """The names of the interfaces that are up and have a carrier."""
        return {name for name, flags in self._flags.items() if flags & ABLE == ABLE}

    def index_of(self, name: str) -> int | None:
        """The number of an interface, None where there is none of this name."""
        return next((index for index, held in self._names.items() if held == name), None)

    def take(self, message: Mapping[str, Any]) -> list[int]:
        """Takes a message of the kernel; answers the neighbours whose links end by it, ascending.

        Parameters
        ----------
        message : mapping
            As pyroute2 reads it: `event`, `index`, `flags`, `attrs` of a link; `event`, `ifindex`, `state`, `attrs` of
            a neighbour.
        """
        attributes = dict(message.get("attrs", ()))
        event = message.get("event")
        if event in ("RTM_NEWLINK", "RTM_DELLINK") and message.get("family", 0) == 0:
            return self._take_interface(event, message, attributes)
        if event == "RTM_NEWNEIGH" and message.get("state", 0) & FAILED:
            return self._take_neighbour(message, attributes)
        return []

    def _take_interface(self, event: str, message: Mapping[str, Any], attributes: Mapping[str, Any]) -> list[int]:
        """Takes what an interface has become."""
        index, name = int(message["index"]), attributes.get("IFLA_IFNAME")
        before = self.usable
        old = self._names.pop(index, None)
        if old is not None:
            self._flags.pop(old, None)
        if event == "RTM_NEWLINK" and isinstance(name, str):
            self._names[index] = name
            self._flags[name] = int(message.get("flags", 0))
        gone = before - self.usable
        return sorted(node for node, it in self._held.neighbours.items() if it.interface in gone)

    def _take_neighbour(self, message: Mapping[str, Any], attributes: Mapping[str, Any]) -> list[int]:
        """Takes that a neighbour's address does not answer."""
        interface, address = self._names.get(int(message.get("ifindex", 0))), address_of(attributes.get("NDA_DST"))
        return sorted(
            node
            for node, it in self._held.neighbours.items()
            if it.interface == interface and address is not None and address in it.via
        )


def address_of(text: object) -> Address | None:
    """An address of a message, None of something else."""
    try:
        return ipaddress.ip_address(text) if isinstance(text, str) else None
    except ValueError:
        return None
