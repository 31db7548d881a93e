"""Writes UDP datagrams as a capture that Wireshark reads (pcap), as they would be seen on the loopback."""
from __future__ import annotations

import os
import struct
from collections.abc import Iterator

from tora.errors import StudyError
from tora.files import Path, reading, write_file

FROM, TO = 40012, 40021  # ports
MOST_BYTES = 65_507  # of a UDP datagram of IPv4
LOOPBACK = b"\x7f\0\0\1"


def capture(path: Path, out: Path, *, overwrite: bool = False) -> int:
    """Writes the capture of a list of datagrams; answers how many there are.

    Each line of the list is a datagram: its bytes in hexadecimal, and after ``|`` words that are for the reader;
    blanks in the bytes don't matter. A line may be empty or begin with ``#``. Datagram number N goes from port 40012 of
    127.0.0.1 to port 40021 at N tenths of a second, so that the same list makes the same bytes.

    Raises
    ------
    StudyError
        With the line of the list that is no bytes, or more than a datagram has.
    """
    found = [_packet(datagram) for datagram in _datagrams(os.fspath(path))]
    data = struct.pack("<IHHiIII", 0xA1B2C3D4, 2, 4, 0, 0, 65535, 1)
    for number, packet in enumerate(found, 1):
        data += struct.pack("<IIII", number // 10, number % 10 * 100_000, len(packet), len(packet)) + packet
    write_file(out, data, inputs=[path], overwrite=overwrite)
    return len(found)


def _checksum(data: bytes) -> int:
    """The checksum of a header of IPv4."""
    total: int = sum(struct.unpack(f">{len(data) // 2}H", data))
    while total >> 16:
        total = (total & 0xFFFF) + (total >> 16)
    return ~total & 0xFFFF


def _packet(datagram: bytes) -> bytes:
    """A datagram in a frame of Ethernet with no addresses, as a capture of the loopback has it."""
    udp = struct.pack(">HHHH", FROM, TO, 8 + len(datagram), 0) + datagram
    head = struct.pack(">BBHHHBBH4s4s", 0x45, 0, 20 + len(udp), 0, 0x4000, 64, 17, 0, LOOPBACK, LOOPBACK)
    head = head[:10] + struct.pack(">H", _checksum(head)) + head[12:]
    return bytes(12) + b"\x08\x00" + head + udp


def _datagrams(path: str) -> Iterator[bytes]:
    """Yields the datagrams of a list."""
    with reading(path, "utf-8") as text:
        for number, line in enumerate(text, 1):
            if not line.strip() or line.startswith("#"):
                continue
            try:
                found = bytes.fromhex("".join(line.partition("#")[0].partition("|")[0].split()))
            except ValueError:
                raise StudyError("no bytes in hexadecimal", file=path, line=number) from None
            if len(found) > MOST_BYTES:
                raise StudyError(f"{len(found)} bytes; a datagram has at most {MOST_BYTES}", file=path, line=number)
            yield found
