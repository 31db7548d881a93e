"""Floods the nodes of examples/namespaces/attacked with forged frames until it is ended; it prints how many it has sent, each second."""
import hashlib
import hmac
import random
import socket
import time

PORTS = [(1, 2), (2, 1), (2, 3), (3, 2), (3, 4), (4, 3)]  # a node, and the neighbour whose link it is
KEY = bytes(range(32))  # a key, and none of theirs


def frame(rng, sender, receiver):
    """A HELLO, DATA or ACK of the neighbour, mostly with the greatest life, which without a key shuts the neighbour out."""
    version, kind = rng.choice([1, 2]), rng.choice([1, 1, 1, 2, 3])
    payload = bytes(rng.randrange(256) for _ in range({1: 0, 2: 24, 3: 8}[kind]))
    life = rng.choice([1 << 62, 1 << 62, 1, 2, 3, rng.randrange(1, 1 << 62)])
    return (bytes([version, kind]) + len(payload).to_bytes(2, "big") + sender.to_bytes(4, "big") + receiver.to_bytes(4, "big")
            + life.to_bytes(8, "big") + rng.choice([0, 1, 2, 3]).to_bytes(8, "big") + payload)


def tagged(rng, text):
    kind = rng.randrange(4)
    if kind == 0:
        return text
    if kind == 1:
        return text + bytes(rng.randrange(256) for _ in range(16))
    tag = hmac.new(KEY, text, hashlib.sha256).digest()
    return text + (tag[:16] if kind == 2 else tag[:rng.randrange(16)])


def main():
    rng = random.Random(43)
    out = socket.socket(socket.AF_INET, socket.SOCK_DGRAM)
    sent, told = 0, time.monotonic()
    while True:
        for _ in range(100):
            node, neighbour = rng.choice(PORTS)
            try:
                out.sendto(tagged(rng, frame(rng, neighbour, node)), (f"10.77.0.{node}", 7000 + neighbour))
                sent += 1
            except OSError:
                pass  # the bridge or the node is not up
        if time.monotonic() - told >= 1:
            told = time.monotonic()
            print(sent, flush=True)
        time.sleep(0.005)


main()
