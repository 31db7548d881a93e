"""The routing daemons that are compared: their configurations, and how they are started at a host."""
from __future__ import annotations

import dataclasses
import os
import secrets
import shutil
import subprocess
import sys
from collections.abc import Callable

from tora.errors import UsageError
from tora.live.hosts import Hosts

HELLO, DEAD = 1, 5  # seconds of a TORA node: from one HELLO to the next, and of silence until a link ends


@dataclasses.dataclass(frozen=True)
class Protocol:
    """A daemon.

    Attributes
    ----------
    name : str
    number : int
        Of its routes in the kernel.
    timings : tuple of str
        `default`, and `equal` for the times of a TORA node where it can have them.
    programs : tuple of str
        What has to be there.
    start : callable
        Starts it at a host, with a timing and the program tora.
    """

    name: str
    number: int
    timings: tuple[str, ...]
    programs: tuple[str, ...]
    start: Callable[[Hosts, int, str, str], subprocess.Popen[str]]

    def missing(self) -> str | None:
        """Why it can't be run here; None where it can."""
        if self.name == "batman-adv":
            return (
                "this kernel has no batman-adv"
                if not os.path.isdir("/sys/module/batman_adv")
                else "it is not driven by this program yet"
            )
        return next((f"the program {it} is missing" for it in self.programs if shutil.which(it) is None), None)


def _write(hosts: Hosts, name: str, text: str) -> str:
    """Writes a configuration into the folder, and answers its name."""
    (hosts.folder / name).write_text(text)
    return name


def _key(hosts: Hosts, a: int, b: int) -> str:
    """The key of a cable's link."""
    name = f"key-{min(a, b)}-{max(a, b)}"
    path = hosts.folder / name
    if not path.exists():
        path.touch(0o600)
        path.write_text(secrets.token_hex(32) + "\n")
    return name


def _start_tora(erasure: str) -> Callable[[Hosts, int, str, str], subprocess.Popen[str]]:
    """tora-routes, with nodes that make this of erased levels."""

    def start(hosts: Hosts, host: int, timing: str, program: str) -> subprocess.Popen[str]:
        everyone = list(hosts.network.hosts)
        node = f'node = {host}\ndests = {everyone}\nlife_dir = "life{host}"\nerasure = "{erasure}"\n'
        routes = f'node = "node{host}.toml"\nsource = ["10.99.0.{host}"]\n'
        for peer in hosts.network.neighbours(host):
            own, its = hosts.address(host, peer), hosts.address(peer, host)
            node += f'\n[[link]]\npeer = {peer}\nlocal = "{own}:{7000 + peer}"\nremote = "{its}:{7000 + host}"\n'
            node += f'key_file = "{_key(hosts, host, peer)}"\n'
            routes += f'\n[[neighbour]]\nnode = {peer}\ninterface = "e{peer}"\nvia = ["{its}"]\n'
        for it in everyone:
            routes += f'\n[[destination]]\nnode = {it}\nprefixes = ["10.99.0.{it}/32"]\n'
        _write(hosts, f"node{host}.toml", node)
        name = _write(hosts, f"routes{host}.toml", routes)
        return hosts.start(host, [sys.executable, "-m", "tora.routes", "--program", program, name], f"log{host}")

    return start


def _start_babeld(hosts: Hosts, host: int, timing: str, program: str) -> subprocess.Popen[str]:
    """babeld."""
    more = f" hello-interval {HELLO}" if timing == "equal" else ""
    text = "".join(f"interface e{peer} type wired{more}\n" for peer in hosts.network.neighbours(host))
    text += f"redistribute local ip 10.99.0.{host}/32 allow\nredistribute local deny\n"
    name = _write(hosts, f"babeld{host}.conf", text)
    return hosts.start(host, ["babeld", "-I", f"pid{host}", "-S", f"state{host}", "-c", name], f"log{host}")


def _start_bird(hosts: Hosts, host: int, text: str) -> subprocess.Popen[str]:
    """bird, with a protocol."""
    common = (
        f'router id 10.99.0.{host};\nprotocol device {{ }}\nprotocol direct {{ ipv4; interface "lo"; }}\n'
        "protocol kernel { ipv4 { export where source != RTS_DEVICE; }; }\n"
    )
    name = _write(hosts, f"bird{host}.conf", common + text)
    return hosts.start(host, ["bird", "-f", "-c", name, "-s", f"socket{host}"], f"log{host}")


def _start_bird_babel(hosts: Hosts, host: int, timing: str, program: str) -> subprocess.Popen[str]:
    """bird with Babel."""
    more = f" hello interval {HELLO} s;" if timing == "equal" else ""
    export = "export where source = RTS_DEVICE || source = RTS_BABEL;"
    return _start_bird(
        hosts, host, f'protocol babel {{ ipv4 {{ import all; {export} }}; interface "e*" {{ type wired;{more} }}; }}\n'
    )


def _start_bird_ospf(hosts: Hosts, host: int, timing: str, program: str) -> subprocess.Popen[str]:
    """bird with OSPF; its cables are of the type pointopoint, as they have two ends."""
    more = f" hello {HELLO}; dead {DEAD};" if timing == "equal" else ""
    area = f'area 0 {{ interface "e*" {{ type pointopoint;{more} }}; interface "lo" {{ stub yes; }}; }};'
    return _start_bird(hosts, host, f"protocol ospf v2 {{ ipv4 {{ import all; export none; }}; {area} }}\n")


def _start_none(hosts: Hosts, host: int, timing: str, program: str) -> subprocess.Popen[str]:
    """A protocol that is known and not driven."""
    raise UsageError("batman-adv is not driven", key="--protocols")


BOTH = ("default", "equal")
GROUPS = {"bird": ("bird-babel", "bird-ospf")}  # words that stand for several protocols
PROTOCOLS = {
    it.name: it
    for it in (
        Protocol("tora", 84, ("default",), ("ip", "nft"), _start_tora("plain")),
        Protocol("tora-remembered", 84, ("default",), ("ip", "nft"), _start_tora("remembered")),
        Protocol("babeld", 42, BOTH, ("babeld",), _start_babeld),
        Protocol("bird-babel", 12, BOTH, ("bird",), _start_bird_babel),
        Protocol("bird-ospf", 12, BOTH, ("bird",), _start_bird_ospf),
        Protocol("batman-adv", 0, ("default",), (), _start_none),
    )
}
