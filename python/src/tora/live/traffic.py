"""Numbered packets: `send SOURCE DESTINATION MICROSECONDS FILE` and `receive ADDRESS FILE`, until a signal ends them.

Both write records of 16 bytes into their file: the number of a packet, and when it was sent, in nanoseconds of the
monotonic clock of the machine.
"""
from __future__ import annotations

import pathlib
import socket
import struct
import sys
import time
from signal import SIGTERM, signal

PORT = 9000
RECORD = struct.Struct("=QQ")
SIZE = 64  # bytes of data of a packet
FLUSH = 0.1  # seconds


class Records:
    """The records of a file that is being written."""

    def __init__(self, path: pathlib.Path) -> None:
        self._path, self._read = path, 0
        self._moments: dict[int, float] = {}

    def read(self) -> dict[int, float]:
        """By the number of a packet the second in which it was sent, in the order of the records so far."""
        if self._path.exists():
            with open(self._path, "rb") as source:
                source.seek(self._read)
                data = source.read()
            whole = len(data) - len(data) % RECORD.size
            self._read += whole
            self._moments.update((number, moment / 1e9) for number, moment in RECORD.iter_unpack(data[:whole]))
        return self._moments


def send(source: str, destination: str, every: float, path: str) -> None:
    """Sends a packet every so many seconds; one that the kernel does not take counts as sent."""
    out = socket.socket(socket.AF_INET, socket.SOCK_DGRAM)
    out.bind((source, 0))
    number, begin, last = 0, time.monotonic(), 0.0
    padding = bytes(SIZE - RECORD.size)
    with open(path, "ab", buffering=1 << 16) as records:
        while True:
            number += 1
            wait = begin + number * every - time.monotonic()
            if wait > 0:
                time.sleep(wait)
            record = RECORD.pack(number, time.monotonic_ns())
            try:
                out.sendto(record + padding, (destination, PORT))
            except OSError:
                pass  # no route
            records.write(record)
            if time.monotonic() - last > FLUSH:
                last = time.monotonic()
                records.flush()


def receive(address: str, path: str) -> None:
    """Receives packets."""
    held = socket.socket(socket.AF_INET, socket.SOCK_DGRAM)
    held.setsockopt(socket.SOL_SOCKET, socket.SO_RCVBUF, 1 << 22)
    held.setsockopt(socket.SOL_SOCKET, socket.SO_RCVTIMEO, struct.pack("@ll", 0, int(FLUSH * 1e6)))
    held.bind((address, PORT))
    last = 0.0
    with open(path, "ab", buffering=1 << 16) as records:
        while True:
            try:
                records.write(held.recv(SIZE)[: RECORD.size])
            except BlockingIOError:
                pass  # none has come for a while
            if time.monotonic() - last > FLUSH:
                last = time.monotonic()
                records.flush()


def main(words: list[str]) -> None:
    """Does what the words say, until a signal."""
    signal(SIGTERM, lambda *_: sys.exit(0))
    if words[0] == "send":
        send(words[1], words[2], int(words[3]) / 1e6, words[4])
    else:
        receive(words[1], words[2])


if __name__ == "__main__":
    main(sys.argv[1:])
