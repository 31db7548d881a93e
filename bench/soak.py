"""The ring of bench/soak.sh."""
import os
import random
import subprocess
import sys
import tempfile
import time

TOP, MINUTES, SEED = sys.argv[1], float(sys.argv[2]), int(sys.argv[3])
PROGRAM = TOP + "/crates/tora/out/tora"
RING = [1, 2, 3, 4, 5]
DESTINATION = 1
BASE = 42000
# The longest that a route may stay away, in seconds: a lost neighbour is noticed after five.
LONGEST = 60


def neighbours(n):
    at = RING.index(n)
    return sorted({RING[at - 1], RING[(at + 1) % len(RING)]})


def port(n, k):
    return BASE + 10 * n + k


def life_files(folder, n):
    return [f"{folder}/life{n}/life-{k}" for k in neighbours(n)]


def slot_of(text, at):
    bound, complement = int.from_bytes(text[at:at + 8], "big"), int.from_bytes(text[at + 8:at + 16], "big")
    return bound if len(text) >= at + 16 and bound == complement ^ ((1 << 64) - 1) else 0


def tear(path, rng):
    """Overwrites half of the lesser slot, as a write that was cut off may."""
    text = bytearray(open(path, "rb").read())
    at = 0 if slot_of(text, 0) <= slot_of(text, 16) else 16
    if len(text) < at + 16:
        return False
    half = at + rng.choice([0, 8])
    text[half:half + 8] = bytes(rng.randrange(256) for _ in range(8))
    with open(path, "wb") as it:
        it.write(text)
    return True


class Node:
    def __init__(self, n, folder):
        self.n, self.config, self.out = n, f"{folder}/n{n}.toml", f"{folder}/out{n}"
        with open(self.config, "w") as it:
            it.write(f'node = {n}\ndests = [{DESTINATION}]\nlife_dir = "{folder}/life{n}"\n')
            for k in neighbours(n):
                it.write(f"\n[[link]]\npeer = {k}\nlocal = {port(n, k)}\nremote = {port(k, n)}\n")
        self.start()

    def start(self):
        with open(self.out, "wb") as out, open(self.out + ".log", "ab") as log:
            self.process = subprocess.Popen([PROGRAM, "node", self.config], stdin=subprocess.PIPE, stdout=out, stderr=log)

    def tell(self, command):
        self.process.stdin.write(command.encode() + b"\n")
        self.process.stdin.flush()

    def kill(self):
        self.process.kill()
        self.process.wait()

    def table(self):
        """The height, the next hop and the entries of the last table that it prints."""
        before = os.path.getsize(self.out)
        self.tell("show")
        for _ in range(100):
            time.sleep(0.02)
            text = open(self.out).read()[before:]
            if text.startswith("to ") and text.endswith("\n"):
                break
        else:
            return None, "-", {}
        time.sleep(0.02)
        lines = [it.split(" ") for it in open(self.out).read()[before:].splitlines()]
        return lines[0][3], lines[0][7], {int(it[1]): it[2] for it in lines[1:] if it[0] == "via"}

    def memory(self):
        for line in open(f"/proc/{self.process.pid}/status"):
            if line.startswith("VmRSS"):
                return int(line.split()[1])


def walk(tables, n):
    met = [n]
    while met[-1] != DESTINATION and len(met) <= len(RING):
        hop = tables[met[-1]][1]
        if hop == "-":
            return None
        met.append(int(hop))
    return met if met[-1] == DESTINATION else None


def is_exact(tables):
    """All links are up, and each entry that is known is the neighbour's height. An entry may be missing: after a restart a node
    hears of a neighbour's height only once that changes or the node asks."""
    for n, (_, _, entries) in tables.items():
        if sorted(entries) != neighbours(n) or any(it not in ("-", tables[k][0]) for k, it in entries.items()):
            return False
    return True


def settle(nodes, wanted):
    """Asks for routes until every walk reaches the destination (and until all entries are exact, where wanted). Answers how
    long it took, or None."""
    begin = time.monotonic()
    while time.monotonic() - begin < LONGEST:
        tables = {n: it.table() for n, it in nodes.items()}
        if all(walk(tables, n) for n in RING) and (not wanted or is_exact(tables)):
            return time.monotonic() - begin
        for n, (_, hop, _) in tables.items():
            if hop == "-" and n != DESTINATION:
                nodes[n].tell(f"need {DESTINATION}")
        time.sleep(0.2)
    return None


def main():
    print(f"seed {SEED}", flush=True)
    rng = random.Random(SEED)
    with tempfile.TemporaryDirectory() as folder:
        nodes = {n: Node(n, folder) for n in RING}
        try:
            first = settle(nodes, False)
            if first is None:
                sys.exit("no route was found at the start")
            before = {n: it.memory() for n, it in nodes.items()}
            kills, torn, slowest, end = 0, 0, 0.0, time.monotonic() + 60 * MINUTES
            while time.monotonic() < end:
                n = rng.choice(RING)
                nodes[n].kill()
                kills += 1
                if kills % 3 == 0:
                    torn += tear(rng.choice(life_files(folder, n)), rng)
                time.sleep(rng.choice([0, 0.5, 6]))
                nodes[n].start()
                time.sleep(0.5)
                took = settle(nodes, False)
                if took is None:
                    for it in RING:
                        print(it, nodes[it].table())
                    sys.exit(f"kill {kills}, of node {n}: routes did not come back in {LONGEST} seconds")
                slowest = max(slowest, took)
                time.sleep(rng.uniform(0, 2))
            last = settle(nodes, True)
            after = {n: it.memory() for n, it in nodes.items()}
            print(f"{kills} kills, {torn} torn life files, {kills} repairs, the slowest {slowest:.1f} s")
            print("memory in KiB, soon after the first start and at the end: " + ", ".join(f"node {n} {before[n]} {after[n]}" for n in RING))
            if last is None:
                for n, it in nodes.items():
                    print(n, it.table())
                sys.exit("at the end a link is down, a known entry is not the neighbour's height, or a walk does not reach the destination")
            print("at the end each known entry is the neighbour's height, and every walk reaches the destination")
        finally:
            for it in nodes.values():
                it.kill()


main()
