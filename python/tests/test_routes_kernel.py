"""`tora-routes` in a network namespace, with a script that stands for the node. Root is needed, and pyroute2."""
from __future__ import annotations

import os
import pathlib
import shutil
import signal
import subprocess
import sys
import time
from collections.abc import Callable, Iterator

import pytest

pytest.importorskip("pyroute2")


def is_able() -> bool:
    """Whether this process can make a network namespace with a TUN device."""
    if os.geteuid() != 0 or any(shutil.which(it) is None for it in ("ip", "ping", "unshare")):
        return False
    words = ["unshare", "--net", "ip", "tuntap", "add", "probe", "mode", "tun"]
    return subprocess.run(words, capture_output=True, check=False).returncode == 0


if not is_able():
    pytest.skip("network namespaces need root, `ip`, `ping`, `unshare` and /dev/net/tun", allow_module_level=True)

SOURCES = pathlib.Path(__file__).parents[1] / "src"
LAST = 20.0  # seconds that a start may take on a machine at work
NODE = 'node = 1\ndests = [1, 3]\nlife_dir = "life"\n[[link]]\npeer = 2\nlocal = 40012\nremote = 40021\n'
ROUTES = """node = "1.toml"
source = ["10.99.0.1", "fd99::1"]
[[neighbour]]
node = 2
interface = "wire"
via = ["10.77.0.2", "fd77::2"]
[[destination]]
node = 3
prefixes = ["10.99.0.3/32", "fd99::3/128"]
"""
# Keeps its commands in the file `commands`. It finds the route to 3 when it is asked for it, and loses it when the link
# to 2 is cut.
STUB = """#!/bin/bash
echo $$ >node
while read -r word number; do
  echo "$word $number" >>commands
  case $word in
    watch) printf 'height 3 -\\nhop 3 -\\n' ;;
    need) echo 'hop 3 2' ;;
    cut) echo 'hop 3 -' ;;
    json) echo '{"destinations":[{"to":3,"hop":'$(grep -q need commands && echo 2 || echo null)'}]}' ;;
    quit) exit 0 ;;
  esac
done
"""


class Host:
    """A namespace with an interface `wire`, whose other end is `peer`."""

    def __init__(self, folder: pathlib.Path) -> None:
        self.folder, self.name = folder, f"tora-test-{os.getpid()}"
        self.started: list[subprocess.Popen[str]] = []
        for command in (
            f"netns add {self.name}",
            "link set lo up",
            "link add wire type veth peer name peer",
            "address add 10.99.0.1/32 dev lo",
            "address add fd99::1/128 dev lo",
            "address add 10.77.0.1/24 dev wire",
            "address add fd77::1/64 dev wire nodad",
            "link set wire up",
            "link set peer up",
        ):
            self.ip(command, inside=not command.startswith("netns"))

    def ip(self, command: str, inside: bool = True) -> str:
        """Runs a command of `ip`."""
        words = ["ip", *(["-n", self.name] if inside else []), *command.split()]
        return subprocess.run(words, check=True, capture_output=True, text=True).stdout

    def routes(self, more: str = "") -> list[str]:
        """The routes with the number of `tora-routes`, of both versions of IP."""
        shown = self.ip(f"-4 route show proto 84{more}") + self.ip(f"-6 route show proto 84{more}")
        return sorted(" ".join(line.split()) for line in shown.splitlines())

    def start(self, *words: str) -> subprocess.Popen[str]:
        """Starts `tora-routes`."""
        stub = self.folder / "stub"
        stub.write_text(STUB)
        stub.chmod(0o755)
        (self.folder / "1.toml").write_text(NODE)
        (self.folder / "routes.toml").write_text(ROUTES)
        command = [
            "ip",
            "netns",
            "exec",
            self.name,
            sys.executable,
            "-m",
            "tora.routes",
            "--program",
            str(stub),
            *words,
            "routes.toml",
        ]
        process = subprocess.Popen(
            command, cwd=self.folder, env={**os.environ, "PYTHONPATH": str(SOURCES)}, stderr=subprocess.PIPE, text=True
        )
        self.started.append(process)
        return process

    def commands(self) -> list[str]:
        """The commands that the node was given."""
        path = self.folder / "commands"
        return [line.strip() for line in path.read_text().splitlines()] if path.exists() else []

    def ping(self, address: str) -> None:
        """Sends a packet."""
        subprocess.run(
            ["ip", "netns", "exec", self.name, "ping", "-c", "1", "-W", "0.1", address],
            check=False,
            capture_output=True,
        )

    def node(self) -> int:
        """The process of the node."""
        return int((self.folder / "node").read_text())

    def close(self) -> None:
        """Ends what was started."""
        for process in self.started:
            process.kill()
            process.wait()
        subprocess.run(["ip", "netns", "del", self.name], check=False)


@pytest.fixture
def host(tmp_path: pathlib.Path) -> Iterator[Host]:
    """Such a namespace."""
    found = Host(tmp_path)
    yield found
    found.close()


def until(holds: Callable[[], bool], seconds: float = LAST) -> float:
    """Waits until something holds; answers how long that took."""
    begin = time.monotonic()
    while not holds():
        assert time.monotonic() - begin < seconds, "it never holds"
        time.sleep(0.01)
    return time.monotonic() - begin


BY_TWO = [
    "10.99.0.3 via 10.77.0.2 dev wire src 10.99.0.1 metric 32 onlink",
    "fd99::3 via fd77::2 dev wire src fd99::1 metric 32 onlink pref medium",
]
LAST_ONES = [
    "10.99.0.3 dev tora src 10.99.0.1 metric 16777216",
    "fd99::3 dev tora src fd99::1 metric 16777216 pref medium",
]


def with_route(host: Host) -> subprocess.Popen[str]:
    """Starts `tora-routes` and waits for the route that a packet asks for."""
    process = host.start()
    until(lambda: host.routes() == LAST_ONES and "watch" in host.commands())
    assert "need 3" not in host.commands()
    host.ping("10.99.0.3")
    until(lambda: host.routes() == sorted(BY_TWO + LAST_ONES))
    assert "need 3" in host.commands()
    return process


def test_a_packet_asks_for_its_route_and_a_signal_ends_it(host: Host) -> None:
    process = with_route(host)
    process.send_signal(signal.SIGTERM)
    assert process.wait(LAST) == 0 and host.routes() == [] and host.commands()[-1] == "quit"
    assert "tora" not in host.ip("link show")


def test_a_pulled_cable_cuts_the_link(host: Host) -> None:
    with_route(host)
    host.ip("link set peer down")
    until(lambda: "cut 2" in host.commands() and host.routes() == LAST_ONES)
    host.ip("link set peer up")
    host.ping("fd99::3")
    until(lambda: host.routes() == sorted(BY_TWO + LAST_ONES))


def test_a_route_that_the_kernel_lost_is_set_again(host: Host) -> None:
    with_route(host)
    host.ip("link set wire down")
    until(lambda: "cut 2" in host.commands())
    host.ip("link set wire up")
    host.ip("address add fd77::1/64 dev wire nodad")  # the kernel took it with the interface
    host.ping("10.99.0.3")
    until(lambda: sorted(BY_TWO + LAST_ONES) == host.routes())


def test_a_route_that_somebody_took_is_set_again_when_a_packet_needs_it(host: Host) -> None:
    with_route(host)
    host.ip("route del 10.99.0.3/32 metric 32")
    host.ping("10.99.0.3")
    until(lambda: host.routes() == sorted(BY_TWO + LAST_ONES))


@pytest.mark.parametrize(
    ("whose", "status", "told"),
    [("own", -9, ""), ("node", 3, "the node has ended by signal 9"), ("guard", 1, "the guard process has ended")],
)
def test_kill_leaves_no_route(host: Host, whose: str, status: int, told: str) -> None:
    process = with_route(host)
    guard = subprocess.run(["pgrep", "-P", str(process.pid), "-x", "sh"], capture_output=True, text=True, check=True)
    os.kill({"own": process.pid, "node": host.node(), "guard": int(guard.stdout)}[whose], signal.SIGKILL)
    assert until(lambda: host.routes() == []) < 1
    assert process.wait(LAST) == status and process.stderr is not None and told in process.stderr.read()


def test_a_second_one_is_refused(host: Host) -> None:
    with_route(host)
    second = host.start()
    assert second.wait(LAST) == 1 and second.stderr is not None
    assert "another tora-routes keeps the routes of table 254 and protocol 84" in second.stderr.read()
    assert host.routes() == sorted(BY_TWO + LAST_ONES)


def test_flush_takes_what_was_left(host: Host) -> None:
    host.ip("route add 10.99.0.9/32 via 10.77.0.2 proto 84")
    host.ip("route add 10.99.0.8/32 via 10.77.0.2 proto static")
    process = host.start("--flush")
    assert (
        process.wait(LAST) == 0
        and process.stderr is not None
        and process.stderr.read() == "tora-routes: 1 route removed\n"
    )
    assert host.routes() == [] and "10.99.0.8" in host.ip("route show")
