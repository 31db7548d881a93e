"""Where a packet of IP goes to, and which node has that address."""
from __future__ import annotations

from collections.abc import Mapping

from tora.routes.configuration import Network

IPV4_LEAST, IPV6_LEAST = 20, 40  # bytes of a header
DESTINATION = {4: slice(16, 20), 6: slice(24, 40)}
BITS = {4: 32, 6: 128}


def destination_of(packet: bytes) -> tuple[int, int] | None:
    """The version of a packet of IP and its destination as a number; None of bytes that are no such packet."""
    version = packet[0] >> 4 if packet else 0
    if version not in DESTINATION or len(packet) < (IPV4_LEAST if version == 4 else IPV6_LEAST):
        return None
    return version, int.from_bytes(packet[DESTINATION[version]], "big")


class Holders:
    """Finds the node whose prefix an address is in; of several prefixes the longest decides."""

    def __init__(self, prefixes: Mapping[int, tuple[Network, ...]]) -> None:
        self._nodes: dict[tuple[int, int, int], int] = {
            (it.version, it.prefixlen, int(it.network_address)): node for node, own in prefixes.items() for it in own
        }
        self._lengths = {
            version: sorted({length for other, length, _ in self._nodes if other == version}, reverse=True)
            for version in BITS
        }

    def node_of(self, version: int, address: int) -> int | None:
        """The node of an address, None where no prefix has it."""
        for length in self._lengths[version]:
            behind = BITS[version] - length
            node = self._nodes.get((version, length, address >> behind << behind))
            if node is not None:
                return node
        return None
