"""One run: a network with one protocol, at rest and under its faults, one after another."""
from __future__ import annotations

import dataclasses
import itertools
import json
import pathlib
import random
import subprocess
import sys
import time
from collections.abc import Callable

import networkx

from tora.errors import StudyError
from tora.live import hosts as system
from tora.live.hosts import Hosts
from tora.live.measures import Fared, fared, longest_stall
from tora.live.protocols import PROTOCOLS
from tora.live.topologies import Network, cable_to_break, host_to_kill, network
from tora.live.traffic import Records

FAULTS = ("down", "silent", "lossy", "killed")
DESIGN = ("protocol", "timing", "topology", "nodes", "fault", "phase")
COLUMNS = (
    *DESIGN,
    "seed",
    "spare",
    "distance",
    "seconds",
    "sent",
    "lost",
    "gap_ms",
    "working_ms",
    "tcp_stall_ms",
    "stretch",
    "control_bytes_rate",
    "control_packets_rate",
    "processor_percent",
    "memory_mb",
    "busy",
    "stolen",
    "routes_left",
)
START = 90.0  # seconds in which the first packet arrives
SETTLE = 10.0  # seconds after the first packet, and after a repair
STEADY_FOR = 3.0  # seconds that packets have to arrive until a phase ends
LEAST = 5.0  # seconds of a phase
RESTARTED = 15.0  # of the one in which a daemon is started again: its neighbours may take away their routes late
LOSSY_FOR = 20.0  # seconds of a phase in which a fifth is lost


@dataclasses.dataclass(frozen=True)
class Plan:
    """What a run is: its place in the design, and its times.

    Attributes
    ----------
    every : int
        Microseconds from one packet to the next.
    rest : float
        Seconds of the phase at rest.
    most : float
        Seconds of a phase in which no route works again.
    hopeless : float
        Seconds of a fault that leaves no other way, or of a daemon that is dead.
    shield : bool
        Whether daemons and traffic have a real-time priority.
    """

    protocol: str
    timing: str
    topology: str
    nodes: int
    seed: int
    faults: tuple[str, ...] = FAULTS
    every: int = 1000
    rest: float = 30.0
    most: float = 60.0
    hopeless: float = 10.0
    tcp: bool = True
    shield: bool = False

    @property
    def name(self) -> str:
        """The name of its files."""
        return f"{self.protocol}-{self.timing}-{self.topology}-{self.nodes}-{self.seed}"


@dataclasses.dataclass
class Phase:
    """A stretch of time of a run, and what was counted in it."""

    fault: str
    phase: str
    begin: float
    end: float
    spare: bool
    packets: float
    bytes: float
    processor: float | None  # None where a daemon was killed, and its time with it
    memory: float
    busy: float
    stolen: float
    stretch: float | None


class Experiment:
    """A run under way."""

    def __init__(self, plan: Plan, folder: pathlib.Path, program: str) -> None:
        self.plan, self.folder, self.program = plan, folder, program
        self.network: Network = network(plan.topology, plan.nodes, plan.seed)
        self.protocol = PROTOCOLS[plan.protocol]
        self.hosts = Hosts(self.network, folder)
        self.phases: list[Phase] = []
        self.rng = random.Random()  # of a fault: which cable, which host
        self.daemons: dict[int, subprocess.Popen[str]] = {}
        self.client: subprocess.Popen[str] | None = None
        self.sent, self.received = Records(folder / "sent"), Records(folder / "received")
        self.began = self.arrived_at = self.tcp_began = 0.0

    def run(self) -> list[dict[str, object]]:
        """Makes the run; answers its rows."""
        try:
            self.hosts.set_up()
            self._begin()
            self._phase("rest", "rest", True, lambda: time.sleep(self.plan.rest))
            for at, fault in enumerate(self.plan.faults):
                if at:
                    time.sleep(SETTLE)
                self._fault(fault)
            left = self._stop()
            return self._rows(left)
        finally:
            self.hosts.close()

    def _begin(self) -> None:
        """Starts all, and waits for the first packet."""
        source, destination = (f"10.99.0.{it}" for it in (self.network.source, self.network.destination))
        traffic = [sys.executable, "-m", "tora.live.traffic"]
        self.hosts.start(self.network.destination, [*traffic, "receive", destination, "received"], "log-receive", False)
        self.began = time.monotonic()
        for host in self.network.hosts:
            self.daemons[host] = self.protocol.start(self.hosts, host, self.plan.timing, self.program)
        words = [*traffic, "send", source, destination, str(self.plan.every), "sent"]
        self.hosts.start(self.network.source, words, "log-send", False)
        while not self.received.read():
            if time.monotonic() - self.began > START:
                raise StudyError(f"{self.plan.name}: no packet has arrived within {START:g} seconds")
            time.sleep(0.1)
        self.arrived_at = min(self.received.read().values())
        if self.plan.tcp:
            server = ["iperf3", "-s", "-1", "-B", destination, "-i", "0.1", "-J"]  # its receiver tells what arrived
            self.hosts.start(self.network.destination, server, "tcp.json", False)
            time.sleep(1.0)
            self.tcp_began = time.monotonic()
            client = ["iperf3", "-c", destination, "-B", source, "-b", "500K", "-l", "1K", "-t", "86400"]
            self.client = self.hosts.start(self.network.source, client, "log-client", False)
        if self.plan.shield:
            self.hosts.hasten()
        time.sleep(SETTLE)

    def _fault(self, fault: str) -> None:
        """A fault on the way of the data, and its repair: at the same place where protocols have the same way."""
        self.rng = random.Random(f"{self.plan.topology} {self.plan.nodes} {self.plan.seed} {fault}")
        path = self.hosts.path()
        until = time.monotonic() + self.plan.most
        while path is None and time.monotonic() < until:
            time.sleep(0.5)
            path = self.hosts.path()
        if path is None:
            return  # no way at all: the phases are not there
        if fault == "killed":
            self._killed(path)
            return
        (a, b), spare = cable_to_break(self.network, path, self.rng)
        acts: dict[str, tuple[Callable[[], None], Callable[[], None]]] = {
            "down": (lambda: self.hosts.cable(a, b, "down"), lambda: self.hosts.cable(a, b, "up")),
            "silent": (lambda: self.hosts.lose(a, b, 100), lambda: self.hosts.lose(a, b, 0)),
            "lossy": (lambda: self.hosts.lose(a, b, 20), lambda: self.hosts.lose(a, b, 0)),
        }
        break_it, mend_it = acts[fault]
        seconds = LOSSY_FOR if fault == "lossy" else None if spare else self.plan.hopeless
        self._phase(fault, "fault", spare, lambda: self._wait(seconds), break_it)
        self._phase(fault, "repair", spare, lambda: self._wait(None), mend_it)

    def _killed(self, path: list[int]) -> None:
        """The daemons of a host on the way are killed, and started again."""
        found = host_to_kill(self.network, path, self.rng)
        if found is None:
            return
        host, spare = found

        def start() -> None:
            self.daemons[host] = self.protocol.start(self.hosts, host, self.plan.timing, self.program)
            if self.plan.shield:
                self.hosts.hasten()

        self._phase("killed", "fault", spare, lambda: self._wait(self.plan.hopeless), self.daemons[host].kill)
        self._phase("killed", "repair", spare, lambda: self._wait(None, RESTARTED), start)

    def _wait(self, seconds: float | None, least: float = LEAST) -> None:
        """Waits so long, or until the packets arrive again for a while, and a least time."""
        begin = time.monotonic()
        if seconds is not None:
            time.sleep(seconds)
            return
        while time.monotonic() - begin < self.plan.most:
            time.sleep(0.5)
            if time.monotonic() - begin >= least and self._is_steady(time.monotonic() - 0.5):
                return

    def _is_steady(self, now: float) -> bool:
        """Whether the packets that were sent in the last seconds before a moment have arrived."""
        arrived = self.received.read()
        recent = itertools.takewhile(lambda it: it[1] >= now - STEADY_FOR, reversed(self.sent.read().items()))
        late = [number in arrived for number, moment in recent if moment < now]
        return sum(late) >= max(1, 0.999 * len(late))

    def _phase(
        self, fault: str, phase: str, spare: bool, wait: Callable[[], None], act: Callable[[], None] | None = None
    ) -> None:
        """A stretch of time, which begins with an act."""
        before = time.monotonic()
        used, counted, work = self.hosts.used(), self.hosts.counted(), system.spent()
        begin = time.monotonic()
        if act is not None:
            act()
        wait()
        end = time.monotonic()
        span = end - before  # from one look at the counters to the next, each of which takes as long
        then, sent, worked = self.hosts.used(), self.hosts.counted(), system.spent()
        path = self.hosts.path()
        shortest = self._shortest(fault, phase)
        self.phases.append(
            Phase(
                fault,
                phase,
                begin,
                end,
                spare,
                (sent.packets - counted.packets) / span,
                (sent.bytes - counted.bytes) / span,
                None if fault == "killed" and phase == "fault" else (then.processor - used.processor) / span,
                then.memory,
                (worked.worked - work.worked) / max(1.0, worked.all - work.all),
                (worked.stolen - work.stolen) / max(1.0, worked.all - work.all),
                None if path is None or shortest is None else (len(path) - 1) / shortest,
            )
        )

    def _shortest(self, fault: str, phase: str) -> int | None:
        """The hops of a shortest way of the whole network; None while a fault takes something of it away."""
        if phase == "fault":
            return None
        return int(networkx.shortest_path_length(self.network.graph(), self.network.source, self.network.destination))

    def _stop(self) -> int:
        """Ends the daemons, and answers how many of their routes are left two seconds later."""
        if self.client is not None:
            system.end([self.client])  # its server then tells what it has counted
            time.sleep(1.0)
        system.end(self.hosts.started)
        until = time.monotonic() + 2
        left = self.hosts.routes_left(self.protocol.number)
        while left and time.monotonic() < until:
            time.sleep(0.2)
            left = self.hosts.routes_left(self.protocol.number)
        return left

    def _rows(self, left: int) -> list[dict[str, object]]:
        """A row for the start, and one for each phase."""
        sent, arrived = self.sent.read(), set(self.received.read())
        intervals = self._intervals()
        distance = networkx.shortest_path_length(self.network.graph(), self.network.source, self.network.destination)
        common: dict[str, object] = dict.fromkeys(COLUMNS)
        common.update(
            {name: getattr(self.plan, name) for name in ("protocol", "timing", "topology", "nodes", "seed")},
            distance=distance,
        )
        rows = [{**common, "fault": "start", "phase": "start", "working_ms": 1000 * (self.arrived_at - self.began)}]
        for it in self.phases:
            held: Fared = fared(sent, arrived, it.begin, it.end)
            is_lost = it.fault == "lossy" and it.phase == "fault"
            rows.append(
                {
                    **common,
                    "fault": it.fault,
                    "phase": it.phase,
                    "spare": int(it.spare),
                    "seconds": it.end - it.begin,
                    "sent": held.sent,
                    "lost": held.lost,
                    "gap_ms": 1000 * held.gap,
                    "working_ms": None if held.working is None or is_lost else 1000 * held.working,
                    "tcp_stall_ms": None if not intervals else 1000 * longest_stall(intervals, it.begin, it.end),
                    "stretch": it.stretch,
                    "control_bytes_rate": it.bytes / self.plan.nodes,
                    "control_packets_rate": it.packets / self.plan.nodes,
                    "processor_percent": None if it.processor is None else 100 * it.processor / self.plan.nodes,
                    "memory_mb": it.memory / self.plan.nodes / 1e6,
                    "busy": it.busy,
                    "stolen": it.stolen,
                    "routes_left": left,
                }
            )
        return rows

    def _intervals(self) -> list[tuple[float, float, int]]:
        """The intervals of iperf3, in seconds of the monotonic clock; none where it has told none."""
        try:
            told = json.loads((self.folder / "tcp.json").read_text())
            sums = [it["sum"] for it in told["intervals"]]
        except (OSError, ValueError, KeyError):
            return []
        return [(self.tcp_began + it["start"], self.tcp_began + it["end"], it["bytes"]) for it in sums]
