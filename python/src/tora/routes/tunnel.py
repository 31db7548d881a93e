"""A TUN device that takes the packets without a route, and raw sockets that send them once their route stands."""
from __future__ import annotations

import contextlib
import fcntl
import ipaddress
import os
import socket
import struct

from tora.errors import StudyError

DEVICE = "/dev/net/tun"
TUNSETIFF = 0x400454CA  # if_tun.h
IFF_TUN, IFF_NO_PI, IFF_TUN_EXCL = 0x0001, 0x1000, 0x8000
MOST_PACKET = 65_536


class Tunnel:
    """The device; it is gone when this process ends, in whatever way."""

    def __init__(self, name: str) -> None:
        self.name = name
        try:
            self._file = os.open(DEVICE, os.O_RDWR | os.O_NONBLOCK | os.O_CLOEXEC)
        except OSError as cause:
            raise StudyError(cause.strerror or str(cause), file=DEVICE) from None
        try:
            fcntl.ioctl(
                self._file, TUNSETIFF, struct.pack("16sH22x", name.encode(), IFF_TUN | IFF_NO_PI | IFF_TUN_EXCL)
            )
        except OSError as cause:
            os.close(self._file)
            raise StudyError(f"the device `{name}` can't be made: {cause.strerror}", file=DEVICE) from None

    def fileno(self) -> int:
        """The file, to wait for."""
        return self._file

    def packets(self, most: int = 64) -> list[bytes]:
        """The packets that came, at most so many."""
        found: list[bytes] = []
        with contextlib.suppress(BlockingIOError):
            while len(found) < most:
                found.append(os.read(self._file, MOST_PACKET))
        return found

    def close(self) -> None:
        """Takes the device away."""
        os.close(self._file)


class Sender:
    """Sends packets of IP as they are, by the routes of the kernel."""

    def __init__(self) -> None:
        self._sockets = {
            4: socket.socket(socket.AF_INET, socket.SOCK_RAW, socket.IPPROTO_RAW),
            6: socket.socket(socket.AF_INET6, socket.SOCK_RAW, socket.IPPROTO_RAW),
        }
        for it in self._sockets.values():
            it.setblocking(False)

    def send(self, version: int, destination: int, packet: bytes) -> bool:
        """Sends a packet to its destination; answers whether the kernel took it."""
        address = ipaddress.IPv4Address(destination) if version == 4 else ipaddress.IPv6Address(destination)
        try:
            self._sockets[version].sendto(packet, (str(address), 0))
        except OSError:
            return False
        return True

    def close(self) -> None:
        """Closes the sockets."""
        for it in self._sockets.values():
            it.close()
