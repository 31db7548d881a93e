"""The inputs of bench/fuzz.sh."""
import glob
import hashlib
import hmac
import os
import random
import re
import resource
import select
import socket
import subprocess
import sys
import tempfile
import threading
import time

TOP, SECONDS, SEED, KEPT = sys.argv[1], float(sys.argv[2]), int(sys.argv[3]), sys.argv[4]
WITH_KEYS = sys.argv[5:] == ["--keys"]
PROGRAM = TOP + "/crates/tora/out/tora"
HANG = 20
# The exit statuses of the manual page that a file can bring about: its end, a fault, and refused memory. (`node --check` opens no
# socket and no life file.)
STATUSES = {0, 1, 5}
NUMBERS = ["0", "1", "2", "3", "4", "7", "8", "16", "31", "32", "33", "64", "65", "255", "256", "1000", "10000", "10001", "65535", "65536",
           "4294967295", "4294967296", "9223372036854775807", "18446744073709551615", "18446744073709551616", "-1", "00", "1,2", "-"]


def examples(pattern):
    return [open(it, "rb").read() for it in sorted(glob.glob(TOP + "/examples/" + pattern))]


def mutated_bytes(rng, text):
    text = bytearray(text)
    for _ in range(rng.choice([1, 1, 2, 4, 16])):
        at = rng.randrange(len(text) + 1)
        kind = rng.randrange(5)
        if kind == 0 and at < len(text):
            text[at] ^= 1 << rng.randrange(8)
        elif kind == 1 and at < len(text):
            text[at] = rng.choice([0, 1, 9, 10, 13, 32, 45, 48, 57, 127, 128, 255])
        elif kind == 2:
            del text[at:at + rng.choice([1, 2, 8, 64])]
        elif kind == 3:
            text[at:at] = bytes(rng.randrange(256) for _ in range(rng.choice([1, 2, 8])))
        else:
            end = min(len(text), at + rng.choice([4, 40, 4096]))
            text[at:at] = text[at:end]
    return bytes(text)


def mutated_words(rng, text):
    lines = text.split(b"\n")
    for _ in range(rng.choice([1, 1, 2, 4])):
        at = rng.randrange(len(lines))
        words = lines[at].split(b" ")
        kind = rng.randrange(6)
        if kind == 0:
            words[rng.randrange(len(words))] = rng.choice(NUMBERS).encode()
        elif kind == 1:
            other = rng.choice(lines).split(b" ")
            words[rng.randrange(len(words))] = rng.choice(other)
        elif kind == 2:
            words.append(rng.choice(NUMBERS).encode())
        elif kind == 3:
            del words[rng.randrange(len(words))]
        if kind == 4:
            lines.insert(at, rng.choice(lines))
        elif kind == 5:
            del lines[at]
            lines = lines or [b""]
        else:
            lines[at] = b" ".join(words)
    return b"\n".join(lines)


def mutated(rng, text):
    return rng.choice([mutated_bytes, mutated_words, mutated_words])(rng, text)


def bounded(text):
    """A simulation whose rounds are few enough to end in time."""
    return re.sub(rb"rounds (\d+)", lambda it: b"rounds %d" % (int(it[1]) % 200 if int(it[1]) <= 10_000 else int(it[1])), text)


def keep(name, text, why):
    os.makedirs(KEPT, exist_ok=True)
    path = f"{KEPT}/{name}"
    with open(path, "wb") as it:
        it.write(text)
    print(f"{path}: {why}")


def limits():
    resource.setrlimit(resource.RLIMIT_AS, (4 << 30, 4 << 30))


def run(words, given, folder):
    try:
        ran = subprocess.run([PROGRAM, *words], input=given, cwd=folder, stdout=subprocess.DEVNULL, stderr=subprocess.DEVNULL,
                             timeout=HANG, preexec_fn=limits)
        return ran.returncode
    except subprocess.TimeoutExpired:
        return None


def files(rng):
    sets = {"replay": examples("*.replay"), "sim": examples("*.sim"), "node": examples("*/n*.toml")}
    counts, statuses, wrong = dict.fromkeys(sets, 0), {}, 0
    end = time.monotonic() + SECONDS
    with tempfile.TemporaryDirectory() as folder:
        while time.monotonic() < end:
            word = rng.choice([*sets])
            text = mutated(rng, rng.choice(sets[word]))
            if word == "replay":
                status = run(["replay"], text, folder)
            else:
                text = bounded(text) if word == "sim" else text
                path = folder + "/input"
                with open(path, "wb") as it:
                    it.write(text)
                status = run([word, path] if word == "sim" else [word, "--check", path], b"", folder)
            counts[word] += 1
            statuses[word, status] = statuses.get((word, status), 0) + 1
            if status not in STATUSES:
                wrong += 1
                keep(f"{word}-{SEED}-{counts[word]}", text, "it hangs" if status is None else f"status {status}")
    for word, count in counts.items():
        of = ", ".join(f"{n} times status {status}" for (other, status), n in sorted(statuses.items(), key=str) if other == word)
        print(f"{word}: {count} inputs; {of}")
    return wrong


def frame(rng, heads):
    """A datagram: a frame's head with some of its fields right, or any bytes, or what was seen with bytes changed."""
    kind = rng.randrange(3)
    if kind == 0:
        return bytes(rng.randrange(256) for _ in range(rng.choice([0, 1, 27, 28, 36, 44, 52, 76, 560, 561, 1400])))
    version, type_ = rng.choice([0, 1, 1, 1, 2, 2, 3]), rng.choice([0, 1, 1, 2, 2, 3, 4])
    payload = bytes(rng.randrange(256) for _ in range(rng.choice([0, 8, 16, 24, 48, 532])))
    life = lambda: rng.choice([0, 1, 5, 16, 17, 1 << 62, (1 << 62) + 1, rng.randrange(1 << 63)])
    sender, receiver = rng.choice(heads)
    text = (bytes([version, type_]) + len(payload).to_bytes(2, "big") + sender.to_bytes(4, "big") + receiver.to_bytes(4, "big")
            + life().to_bytes(8, "big") + life().to_bytes(8, "big") + payload)
    return text if kind == 1 else mutated_bytes(rng, text)


class Node:
    def __init__(self, number, folder, config=None):
        config = config or f"{TOP}/examples/line-of-four/n{number}.toml"
        self.process = subprocess.Popen([PROGRAM, "node", config], cwd=folder, stdin=subprocess.PIPE, stdout=open(f"{folder}/out{number}", "wb"),
                                        stderr=open(f"{folder}/log{number}", "wb"))
        self.out = f"{folder}/out{number}"

    def tell(self, command):
        self.process.stdin.write(command.encode() + b"\n")
        self.process.stdin.flush()

    def route(self):
        self.tell("show")
        time.sleep(0.1)
        tables = [it for it in open(self.out).read().splitlines() if it.startswith("to 4 ")]
        return tables[-1] if tables else ""


def routed(nodes, tries):
    for _ in range(tries):
        if " hop 2" in nodes[1].route():
            return True
        nodes[1].tell("need 4")
        time.sleep(0.05)
    return False


def datagrams(rng):
    """Random datagrams at node 2's ports. Those that name no neighbour may not cost the route. Those that name the other end of a link
    are forged: a HELLO with a life above the neighbour's own shuts it out until node 2 begins anew. So the route has to come back
    once they stop, or else once node 2 was killed and started again on its life files."""
    with tempfile.TemporaryDirectory() as folder:
        nodes = {n: Node(n, folder) for n in (1, 2, 3, 4)}
        try:
            if not routed(nodes, 100):
                print("no route was found before the first datagram")
                return 1
            sender = socket.socket(socket.AF_INET, socket.SOCK_DGRAM)
            sent, lost = 0, 0
            for heads in ([(7, 2), (2, 1), (4, 2), (1, 9)], [(1, 2), (3, 2)]):
                end = time.monotonic() + SECONDS / 2
                while time.monotonic() < end:
                    for _ in range(50):
                        sender.sendto(frame(rng, heads), ("127.0.0.1", rng.choice([41221, 41223])))
                        sent += 1
                    lost += heads[0][0] == 7 and " hop 2" not in nodes[1].route()
            ended = [n for n, it in nodes.items() if it.process.poll() is not None]
            back = "by itself" if routed(nodes, 100) else None
            if back is None and not ended:
                nodes[2].process.kill()
                nodes[2].process.wait()
                nodes[2] = Node(2, folder)
                back = "once node 2 was started again" if routed(nodes, 300) else None
            print(f"{sent} datagrams at node 2: nodes that ended {ended or 'none'}; without a neighbour's number the route was missing "
                  f"{lost} times; behind those with one it {'came back ' + back if back else 'did NOT come back'}")
            return int(bool(ended) or back is None or lost > 0)
        finally:
            for it in nodes.values():
                it.process.kill()
                it.process.wait()


class Relay(threading.Thread):
    """Stands between nodes 1 and 2, hands on what each sends to the other, and keeps it."""

    WAYS = [(41512, 41421), (41521, 41412)]  # a port of the relay that a node sends to, and the port of the other node

    def __init__(self):
        super().__init__(daemon=True)
        self.sockets = []
        for port, _ in self.WAYS:
            it = socket.socket(socket.AF_INET, socket.SOCK_DGRAM)
            it.bind(("127.0.0.1", port))
            self.sockets.append(it)
        self.seen = [[], []]

    def run(self):
        while True:
            for it in select.select(self.sockets, [], [])[0]:
                way = self.sockets.index(it)
                text = it.recv(2048)
                self.seen[way] = [*self.seen[way][-4999:], text]
                it.sendto(text, ("127.0.0.1", self.WAYS[way][1]))


def keyed_configurations(folder):
    """The nodes of examples/line-of-four-keyed, with the relay between 1 and 2, and a key for each link."""
    for n in (1, 2, 3, 4):
        text = open(f"{TOP}/examples/line-of-four-keyed/n{n}.toml").read()
        if n < 3:
            other = 3 - n
            text = text.replace(f"remote = 414{other}{n}", f"remote = {Relay.WAYS[n - 1][0]}")
        with open(f"{folder}/n{n}.toml", "w") as it:
            it.write(text)
        for name in re.findall(r'key_file = "(.*)"', text):
            if not os.path.exists(f"{folder}/{name}"):
                with open(os.open(f"{folder}/{name}", os.O_CREAT | os.O_WRONLY, 0o600), "wb") as it:
                    it.write(subprocess.run([PROGRAM, "key"], stdout=subprocess.PIPE, check=True).stdout)


def forged(rng, seen):
    """A datagram of somebody who doesn't know the key, but has heard what went over the link."""
    kind = rng.randrange(6)
    text = frame(rng, [(1, 2), (3, 2), (2, 1), (7, 2)])
    if rng.randrange(3) == 0:  # a HELLO of the neighbour with the greatest life
        text = (bytes([rng.choice([1, 2]), 1, 0, 0]) + (1).to_bytes(4, "big") + (2).to_bytes(4, "big")
                + (1 << 62).to_bytes(8, "big") + rng.choice([0, 1, 2, 17]).to_bytes(8, "big"))
    real = rng.choice(seen) if seen else b""
    if kind == 0:
        return text
    if kind == 1:
        return text + hmac.new(bytes(range(32)), text, hashlib.sha256).digest()[:16]
    if kind == 2:
        return text + real[-16:]
    if kind == 3:
        return real[:-rng.randrange(1, 17)]
    if kind == 4:
        return mutated_bytes(rng, real)
    return real


def keyed_datagrams(rng):
    """Datagrams at the ports of nodes 1 and 2, whose links have keys. The route has to stand under them, and to come back under them once
    node 2 was killed and started again; real datagrams of its lives before come then, too."""
    with tempfile.TemporaryDirectory() as folder:
        keyed_configurations(folder)
        relay = Relay()
        relay.start()
        nodes = {n: Node(n, folder, f"{folder}/n{n}.toml") for n in (1, 2, 3, 4)}
        try:
            if not routed(nodes, 100):
                print("no route was found before the first datagram")
                return 1
            sender = socket.socket(socket.AF_INET, socket.SOCK_DGRAM)
            sent = lost = looks = 0

            def flood():
                for _ in range(50):
                    way = rng.choice([0, 0, 1])
                    port = rng.choice([41421, 41421, 41423]) if way == 0 else 41412
                    sender.sendto(forged(rng, relay.seen[rng.choice([way, way, 1 - way])]), ("127.0.0.1", port))
                return 50

            for half in (1, 2):
                end = time.monotonic() + SECONDS / 2
                while time.monotonic() < end:
                    sent += flood()
                    looks += 1
                    lost += " hop 2" not in nodes[1].route()
                if half == 1:
                    nodes[2].process.kill()
                    nodes[2].process.wait()
                    nodes[2] = Node(2, folder, f"{folder}/n2.toml")
                    began = time.monotonic()
                    while time.monotonic() < began + 6:
                        sent += flood()
                        time.sleep(0.05)
                    while not routed(nodes, 1) and time.monotonic() < began + 36:
                        sent += flood()
                    back = time.monotonic() - began
            ended = [n for n, it in nodes.items() if it.process.poll() is not None]
            told = [it for it in open(f"{folder}/log2").read().splitlines() if "unauthenticated" in it]
            print(f"{sent} datagrams at nodes with keys: nodes that ended {ended or 'none'}; the route was missing {lost} times of {looks}; "
                  f"it was back {back:.0f} s behind a restart under them; node 2 said last: {told[-1] if told else 'nothing'}")
            return int(bool(ended) or lost > 0 or back >= 36)
        finally:
            for it in nodes.values():
                it.process.kill()
                it.process.wait()


def main():
    print(f"seed {SEED}")
    rng = random.Random(SEED)
    wrong = keyed_datagrams(rng) if WITH_KEYS else files(rng) + datagrams(rng)
    sys.exit(1 if wrong else 0)


main()
