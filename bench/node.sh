#!/usr/bin/env bash
# A line of four processes on the loopback (the configurations of examples/line-of-four): the time from `need 4` at node 1
# to a next hop there, three hops from the destination, as the median of RUNS; the time from `quit` to the end of a node; the time of a
# repair (below); and the processor time over 30 s of an idle node with two links, and of one with 32. If BESIDE names another
# build of the program, the two are measured in turn.
#
# A repair: nodes 1 to 8 are a line with routes to node 8, and node 9 has links to 1 and 8. The process of node 7 is
# killed. The time runs from the moment when node 6 logs that its link to 7 is down to the moment when it has a next hop again,
# which is node 5, and to the moment when node 2 has node 1 as its next hop, four nodes further on. The result is the median of
# RUNS, at most 5, since each run waits for the silence of the link. A program without the command `watch` has no such result.
# usage: [BESIDE=PROGRAM] bench/node.sh [RUNS]
set -eu
top=$(cd "$(dirname "$0")/.." && pwd)
runs=${1:-20}
"$top/tora" build >&2
python3 - "$top" "$runs" "${BESIDE:-}" <<'P'
import glob
import os
import select
import statistics
import subprocess
import sys
import tempfile
import time

top, runs, beside = sys.argv[1], int(sys.argv[2]), sys.argv[3]
IDLE = 30.0
MOST_LINKS = 32
MOST_REPAIRS = 5
LINE = 8


class Node:
    def __init__(self, program, config, folder, log=subprocess.DEVNULL):
        self.process = subprocess.Popen(
            [program, "node", config], cwd=folder, stdin=subprocess.PIPE, stdout=subprocess.PIPE, stderr=log)
        self.out = self.process.stdout.fileno()
        os.set_blocking(self.out, False)
        self.text = b""

    def tell(self, command):
        self.process.stdin.write(command.encode() + b"\n")
        self.process.stdin.flush()

    # The lines of the next table, once it is printed: the first names the destination.
    def table(self, links):
        self.text = b""
        self.tell("show")
        end = time.monotonic() + 1
        while time.monotonic() < end:
            select.select([self.out], [], [], 0.05)
            part = os.read(self.out, 65536) if select.select([self.out], [], [], 0)[0] else b""
            self.text += part
            lines = self.text.decode().splitlines()
            if lines and self.text.endswith(b"\n") and len(lines) >= 1 + links:
                return lines
            if not links and self.text.endswith(b"\n"):
                return lines
        return self.text.decode().splitlines()

    # Seconds of processor time that its threads have taken.
    def seconds(self):
        folder = f"/proc/{self.process.pid}/task"
        return sum(int(open(f).read().split()[0]) for f in glob.glob(folder + "/*/schedstat")) / 1e9

    # The share of a core that it takes while it has nothing to do.
    def idle(self):
        before, begin = self.seconds(), time.monotonic()
        time.sleep(IDLE)
        return (self.seconds() - before) / (time.monotonic() - begin)

    # Seconds from `quit` to its end.
    def quit(self):
        begin = time.monotonic()
        self.tell("quit")
        self.process.wait()
        return time.monotonic() - begin

    def kill(self):
        self.process.kill()
        self.process.wait()


# All links are up where each node's table lists each neighbour.
def wait_for_links(nodes, wanted):
    for _ in range(200):
        if all(len(nodes[n].table(wanted[n])) == 1 + wanted[n] for n in nodes):
            return
        time.sleep(0.05)
    sys.exit("the links did not come up")


# The seconds to a route, and to an end, and the share of a core where it is asked for.
def run(program, measure_idle):
    with tempfile.TemporaryDirectory() as folder:
        nodes = {n: Node(program, f"{top}/examples/line-of-four/n{n}.toml", folder) for n in (1, 2, 3, 4)}
        try:
            wait_for_links(nodes, {1: 1, 2: 2, 3: 2, 4: 1})
            begin = time.monotonic()
            nodes[1].tell("need 4")
            while " hop 2" not in (nodes[1].table(1) or [""])[0]:
                if time.monotonic() - begin > 10:
                    sys.exit("no route was found")
            found = time.monotonic() - begin
            idle = nodes[2].idle() if measure_idle else None
            return found, nodes[2].quit(), idle
        finally:
            for node in nodes.values():
                node.kill()


# Writes the configuration of a node with these links, of which each is a neighbour with a local and a remote port.
def configuration(folder, number, links, dest=40):
    path = f"{folder}/n{number}.toml"
    with open(path, "w") as text:
        text.write(f'node = {number}\ndests = [{dest}]\nlife_dir = "n{number}"\n')
        for peer, local, remote in links:
            text.write(f"\n[[link]]\npeer = {peer}\nlocal = {local}\nremote = {remote}\n")
    return path


# The share of a core of node 1, which has 32 neighbours.
def star(program):
    with tempfile.TemporaryDirectory() as folder:
        peers = range(2, 2 + MOST_LINKS)
        hub = configuration(folder, 1, [(n, 41300 + n, 41400 + n) for n in peers])
        nodes = {n: Node(program, configuration(folder, n, [(1, 41400 + n, 41300 + n)]), folder) for n in peers}
        nodes[1] = Node(program, hub, folder)
        try:
            wait_for_links({1: nodes[1]}, {1: MOST_LINKS})
            time.sleep(2)
            return nodes[1].idle()
        finally:
            for node in nodes.values():
                node.kill()


# Waits until the first line of a node's table has this word behind it, as its next hop.
def wait_for_hop(node, links, hop):
    end = time.monotonic() + 10
    while f" hop {hop}" not in (node.table(links) or [""])[0]:
        if time.monotonic() > end:
            sys.exit("no route was found")


# The moments at which each of these texts has come from its file, or nothing where one has not come after 20 s.
def moments(wanted):
    came, texts = {}, {fd: b"" for fd, _ in wanted}
    end = time.monotonic() + 20
    while len(came) < len(wanted) and time.monotonic() < end:
        for fd in select.select(list(texts), [], [], 0.1)[0]:
            now = time.monotonic()
            texts[fd] += os.read(fd, 65536)
            for of, text in wanted:
                if of == fd and text in texts[fd]:
                    came.setdefault((of, text), now)
    return [came[w] for w in wanted] if len(came) == len(wanted) else None


# The seconds of a repair: until node 6 has another next hop, and until node 2 has.
def repair(program):
    with tempfile.TemporaryDirectory() as folder:
        pairs = [(n, n + 1) for n in range(1, LINE)] + [(1, LINE + 1), (LINE, LINE + 1)]
        links = {n: [] for n in range(1, LINE + 2)}
        for i, (a, b) in enumerate(pairs):
            links[a].append((b, 41500 + 2 * i, 41501 + 2 * i))
            links[b].append((a, 41501 + 2 * i, 41500 + 2 * i))
        configs = {n: configuration(folder, n, links[n], LINE) for n in links}
        before, behind = LINE - 2, 2
        with open(f"{folder}/log", "wb") as log:
            nodes = {n: Node(program, configs[n], folder, subprocess.PIPE if n == before else log) for n in range(1, LINE + 1)}
            try:
                wait_for_links(nodes, {n: 1 if n in (1, LINE) else 2 for n in nodes})
                nodes[1].tell(f"need {LINE}")
                wait_for_hop(nodes[1], 1, 2)
                nodes[LINE + 1] = Node(program, configs[LINE + 1], folder, log)
                wait_for_links({n: nodes[n] for n in (1, LINE, LINE + 1)}, {n: 2 for n in (1, LINE, LINE + 1)})
                nodes[LINE + 1].tell(f"need {LINE}")
                wait_for_hop(nodes[LINE + 1], 2, LINE)
                for n in (before, behind):
                    nodes[n].tell("watch")
                nodes[LINE - 1].kill()
                err = nodes[before].process.stderr.fileno()
                at = moments([
                    (err, f"link {LINE - 1} down".encode()),
                    (nodes[before].out, f"hop {LINE} {before - 1}\n".encode()),
                    (nodes[behind].out, f"hop {LINE} {behind - 1}\n".encode())])
                return at and (at[1] - at[0], at[2] - at[0])
            finally:
                for node in nodes.values():
                    node.kill()


programs = {"this program": top + "/crates/tora/out/tora"}
if beside:
    programs["beside it"] = beside
results = {name: [] for name in programs}
for i in range(runs):
    for name, program in programs.items():
        results[name].append(run(program, i == 0))
for name, program in programs.items():
    found = statistics.median(r[0] for r in results[name]) * 1000
    ended = statistics.median(r[1] for r in results[name]) * 1000
    print(f"{name}: route over three hops {found:.2f} ms (median of {runs}), {found / 3:.2f} ms a hop; from `quit` to the end {ended:.0f} ms")
    repairs = [r for r in (repair(program) for _ in range(min(runs, MOST_REPAIRS))) if r]
    if repairs:
        near, far = (statistics.median(r[i] for r in repairs) * 1000 for i in (0, 1))
        print(f"{name}: from a link that is down to the next hop of that node {near:.2f} ms, to that of the fourth node behind it {far:.2f} ms (median of {len(repairs)})")
    print(f"{name}: an idle node with two links {results[name][0][2] * 100:.3f} % of a core, with {MOST_LINKS} links {star(program) * 100:.3f} %")
P
