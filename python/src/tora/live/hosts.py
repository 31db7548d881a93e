"""Hosts in network namespaces, the cables between them, faults of these, and counters."""
from __future__ import annotations

import contextlib
import json
import os
import pathlib
import signal
import subprocess
import time
from collections.abc import Iterable, Iterator, Sequence
from typing import NamedTuple

from tora.errors import StudyError
from tora.live.topologies import Network
from tora.live.traffic import PORT

TCP_PORT = 5201
COUNTERS = f"""table netdev live {{
  counter data {{ }}
  counter control {{ }}
  chain out {{
    type filter hook egress devices = {{ %s }} priority 0;
    udp dport {PORT} counter name data accept
    tcp dport {TCP_PORT} counter name data accept
    tcp sport {TCP_PORT} counter name data accept
    icmp type destination-unreachable counter name data accept
    counter name control
  }}
}}
"""  # of what goes out at these interfaces, with its Ethernet headers
NAMESPACES = pathlib.Path("/run/netns")  # of `ip netns`
REAL_TIME = 20  # the priority of daemons and traffic that are shielded
NICE = -15  # of the runner that shields them, with its commands
SYSCTLS = (
    "net.ipv4.ip_forward=1 net.ipv6.conf.all.forwarding=1 net.ipv6.conf.default.accept_dad=0 "
    "net.ipv4.conf.all.rp_filter=0 "
    "net.ipv4.conf.default.rp_filter=0 net.ipv4.conf.all.send_redirects=0 net.ipv4.conf.default.send_redirects=0"
)


class Counted(NamedTuple):
    """What all hosts have sent over their cables, without data."""

    packets: int
    bytes: int


class Used(NamedTuple):
    """What the daemons of all hosts have used: seconds of the processors, bytes of memory (each shared page divided by
    its users)."""

    processor: float
    memory: int


def run(words: Sequence[str], text: str | None = None, check: bool = True) -> str:
    """Runs a command."""
    found = subprocess.run(words, input=text, capture_output=True, text=True, check=False)
    if check and found.returncode:
        raise StudyError(f"`{' '.join(words)}` ends with status {found.returncode}: {found.stderr.strip()[-300:]}")
    return found.stdout


class Hosts:
    """The hosts of a network. Host N has the address 10.99.0.N, and its interface to host K is eK."""

    def __init__(self, network: Network, folder: pathlib.Path) -> None:
        self.network, self.folder = network, folder
        self._prefix = f"live-{os.getpid()}"
        self._own: dict[int, int] = {}  # by the inode of a namespace its host
        self._others: set[int] = set()  # processes that are no daemons
        self.started: list[subprocess.Popen[str]] = []

    def name(self, host: int) -> str:
        """The name of a host's namespace."""
        return f"{self._prefix}-{host}"

    def at(self, host: int) -> list[str]:
        """The words before a command at a host. `ip netns exec` would make a namespace of mounts, too, and is slow."""
        return ["nsenter", f"--net={NAMESPACES / self.name(host)}"]

    def address(self, host: int, peer: int) -> str:
        """The address of a host at its cable to a peer."""
        at = self.network.cables.index((min(host, peer), max(host, peer)))
        return f"10.77.{at}.{1 if host < peer else 2}"

    def set_up(self) -> None:
        """Makes the namespaces and the cables."""
        for host in self.network.hosts:
            run(["ip", "netns", "add", self.name(host)])
            self._own[os.stat(NAMESPACES / self.name(host)).st_ino] = host
            run([*self.at(host), "sysctl", "-qw", *SYSCTLS.split()])
        ends = [(f"e{b} netns {self.name(a)}", f"e{a} netns {self.name(b)}") for a, b in self.network.cables]
        run(["ip", "-batch", "-"], "".join(f"link add {a} type veth peer name {b}\n" for a, b in ends))
        for host in self.network.hosts:
            lines = ["link set lo up", f"address add 10.99.0.{host}/32 dev lo"]
            for peer in self.network.neighbours(host):
                lines += [f"address add {self.address(host, peer)}/24 dev e{peer}", f"link set e{peer} up"]
            run([*self.at(host), "ip", "-batch", "-"], "\n".join(lines) + "\n")
            devices = ", ".join(f"e{peer}" for peer in self.network.neighbours(host))
            run([*self.at(host), "nft", "-f", "-"], COUNTERS % devices)

    def start(self, host: int, words: Sequence[str], log: str, is_daemon: bool = True) -> subprocess.Popen[str]:
        """Starts a process at a host, in the folder."""
        with open(self.folder / log, "a") as sink:
            process = subprocess.Popen(
                [*self.at(host), *words],
                cwd=self.folder,
                stdin=subprocess.DEVNULL,
                stdout=sink,
                stderr=sink,
                text=True,
                start_new_session=True,
            )
        self.started.append(process)
        if not is_daemon:
            self._others.add(process.pid)
        return process

    def _processes(self) -> Iterator[tuple[int, int]]:
        """The processes in the namespaces, each with its host."""
        for name in os.listdir("/proc"):
            if name.isdecimal():
                with contextlib.suppress(OSError):
                    host = self._own.get(os.stat(f"/proc/{name}/ns/net").st_ino)
                    if host is not None:
                        yield int(name), host

    def daemons(self) -> dict[int, list[int]]:
        """By the host its processes that are daemons."""
        found: dict[int, list[int]] = {host: [] for host in self.network.hosts}
        for process, host in self._processes():
            if process not in self._others:
                found[host].append(process)
        return found

    def hasten(self) -> None:
        """Gives daemons and traffic a real-time priority."""
        for process, _ in self._processes():
            with contextlib.suppress(OSError):
                for task in os.listdir(f"/proc/{process}/task"):
                    os.sched_setscheduler(int(task), os.SCHED_FIFO, os.sched_param(REAL_TIME))

    def used(self) -> Used:
        """What the daemons have used so far."""
        processor, memory = 0, 0
        for processes in self.daemons().values():
            for process in processes:
                with contextlib.suppress(OSError):
                    for task in os.listdir(f"/proc/{process}/task"):
                        processor += int(pathlib.Path(f"/proc/{process}/task/{task}/schedstat").read_text().split()[0])
                    lines = pathlib.Path(f"/proc/{process}/smaps_rollup").read_text().splitlines()
                    memory += 1024 * next(int(line.split()[1]) for line in lines if line.startswith("Pss:"))
        return Used(processor / 1e9, memory)

    def counted(self) -> Counted:
        """What the hosts have sent over their cables so far, without data."""
        packets = size = 0
        for host in self.network.hosts:
            words = [*self.at(host), "nft", "-j", "list", "counters"]
            for it in json.loads(run(words))["nftables"]:
                if it.get("counter", {}).get("name") == "control":
                    packets += it["counter"]["packets"]
                    size += it["counter"]["bytes"]
        return Counted(packets, size)

    def path(self) -> list[int] | None:
        """The hosts from the source to the destination by the routes of the kernels; None where there is no such
        path. Of several routes of one cost a kernel chooses by both addresses, so both are asked for."""
        found, here = [self.network.source], self.network.source
        ends = [f"10.99.0.{self.network.destination}", "from", f"10.99.0.{self.network.source}"]
        while here != self.network.destination:
            came = ["iif", f"e{found[-2]}"] if len(found) > 1 else []
            words = run([*self.at(here), "ip", "route", "get", *ends, *came], check=False).split()
            name = words[words.index("dev") + 1] if "dev" in words else ""
            if not name.startswith("e") or int(name[1:]) in found:
                return None
            here = int(name[1:])
            found.append(here)
        return found

    def routes_left(self, number: int) -> int:
        """How many routes of a protocol's number the kernels have."""
        return sum(
            len(
                run(
                    [*self.at(host), "ip", version, "route", "show", "table", "all", "proto", str(number)]
                ).splitlines()
            )
            for host in self.network.hosts
            for version in ("-4", "-6")
        )

    def cable(self, a: int, b: int, state: str) -> None:
        """Sets the interface of A to B up or down."""
        run([*self.at(a), "ip", "link", "set", f"e{b}", state])

    def lose(self, a: int, b: int, percent: int) -> None:
        """Loses so many of a hundred frames that come over a cable, either way, by nftables as they come in; 0 ends
        that."""
        rule = "" if percent == 100 else f"numgen random mod 100 < {percent} "
        for here, there in ((a, b), (b, a)):
            text = "delete table netdev loss\n"
            if percent:
                hook = f"type filter hook ingress device e{there} priority 0;"
                text = f"table netdev loss {{\nchain in {{\n{hook}\n{rule}drop\n}}\n}}\n"
            run([*self.at(here), "nft", "-f", "-"], text)

    def close(self) -> None:
        """Ends all that runs in the namespaces, and takes them away."""
        for process, _ in self._processes():
            with contextlib.suppress(ProcessLookupError):
                os.kill(process, signal.SIGKILL)
        for started in self.started:
            started.kill()
            started.wait()
        for host in self._own.values():
            run(["ip", "netns", "del", self.name(host)], check=False)


def end(processes: Iterable[subprocess.Popen[str]], seconds: float = 5.0) -> None:
    """Asks processes to end, and ends those that do not."""
    held = list(processes)
    for process in held:
        with contextlib.suppress(ProcessLookupError):
            process.terminate()
    until = time.monotonic() + seconds
    for process in held:
        try:
            process.wait(max(0.0, until - time.monotonic()))
        except subprocess.TimeoutExpired:
            process.kill()
            process.wait()


def shield() -> None:
    """Puts this process before other work of the machine, in a session of its own: between sessions the kernel shares
    the processors by the priority of each session."""
    os.setsid()
    os.setpriority(os.PRIO_PROCESS, 0, NICE)
    with contextlib.suppress(FileNotFoundError):  # a kernel without such groups
        pathlib.Path("/proc/self/autogroup").write_text(str(NICE))


class Spent(NamedTuple):
    """The seconds of all processors so far: those in which they worked, those that the host of a virtual machine took
    for others, and all."""

    worked: float
    stolen: float
    all: float


def spent() -> Spent:
    """What the processors have done so far."""
    cells = [int(it) for it in pathlib.Path("/proc/stat").read_text().split("\n", 1)[0].split()[1:9]]
    return Spent(float(sum(cells) - cells[3] - cells[4]), float(cells[7]), float(sum(cells)))
