"""Stands between two interfaces where the kernel has no netem: it hands on each frame 50 ms later, either way, and loses a fifth of
them, by random numbers from a seed. At most 10,000 frames wait; one that comes then is lost. Until it is ended it prints each second
how many it has handed on and how many it has lost.
usage: relay.py INTERFACE INTERFACE"""
import collections
import random
import select
import socket
import sys
import time

LOSS, DELAY, ROOM = 0.2, 0.05, 10_000
ALL, IPV4, UDP, FRAGMENT = 3, b"\x08\x00", 17, 0x1FFF


def opened(interface):
    it = socket.socket(socket.AF_PACKET, socket.SOCK_RAW, socket.htons(ALL))
    it.bind((interface, ALL))
    it.setblocking(False)
    return it


def without_sum(frame):
    """A UDP datagram over IPv4 that says that it has no checksum: its sender leaves the sum to a card, and there is none here."""
    if frame[12:14] != IPV4 or frame[23] != UDP or int.from_bytes(frame[20:22], "big") & FRAGMENT:
        return frame
    at = 14 + 4 * (frame[14] & 15) + 6
    return frame[:at] + b"\0\0" + frame[at + 2:]


def came(it):
    """The frames that are there, without those that this process has sent."""
    while True:
        try:
            frame, where = it.recvfrom(65_536)
        except BlockingIOError:
            return
        if where[2] != socket.PACKET_OUTGOING:
            yield frame


def main():
    ends = [opened(name) for name in sys.argv[1:3]]
    other = {ends[0]: ends[1], ends[1]: ends[0]}
    rng = random.Random(43)
    waiting = collections.deque()
    handed, lost, told = 0, 0, time.monotonic()
    while True:
        now = time.monotonic()
        ready, _, _ = select.select(ends, [], [], max(0, waiting[0][0] - now) if waiting else 1)
        now = time.monotonic()
        for end in ready:
            for frame in came(end):
                if rng.random() < LOSS or len(waiting) >= ROOM:
                    lost += 1
                else:
                    waiting.append((now + DELAY, other[end], frame))
        while waiting and waiting[0][0] <= now:
            _, end, frame = waiting.popleft()
            try:
                end.send(without_sum(frame))
                handed += 1
            except OSError:
                lost += 1  # the interface is down, or its queue is full
        if now - told >= 1:
            told = now
            print(handed, lost, flush=True)


main()
