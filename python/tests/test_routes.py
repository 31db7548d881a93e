"""The parts of `tora.routes` that touch no system: configuration, lines of a node, routes, requests, packets,
events."""
from __future__ import annotations

import ipaddress
import json
import pathlib
import struct
import textwrap
from collections.abc import Callable
from typing import Any

import pytest

from conftest import refusal
from tora.errors import StudyError
from tora.routes.cli import main
from tora.routes.configuration import Configuration, Network, read
from tora.routes.events import Interfaces
from tora.routes.held import MOST, Held
from tora.routes.lines import Hops, hops_of
from tora.routes.netlink import event_of, messages_of, route_message
from tora.routes.packets import Holders, destination_of
from tora.routes.place import line_of
from tora.routes.requests import Requests
from tora.routes.table import Route, changes, found_routes, last_routes

NODE = """node = 1
dests = [1, 3, 4]
life_dir = "life"
[[link]]
peer = 2
local = 40012
remote = 40021
[[link]]
peer = 3
local = 40013
remote = 40031
"""
ROUTES = """node = "{node}"
source = ["10.99.0.1", "fd99::1"]

[[neighbour]]
node = 2
interface = "eth0"
via = ["10.77.0.2", "fe80::2"]

[[neighbour]]
node = 3
interface = "eth1"
via = ["10.77.1.3"]

[[destination]]
node = 1
prefixes = ["10.99.0.1/32"]

[[destination]]
node = 4
prefixes = ["10.99.0.4/32", "fd99::4/128", "192.168.4.0/24"]
"""
STATE = (
    '{"node":3,"tick":17641152000,"destinations":[{"to":4,"height":[0,0,0,1,3],"required":false,"hop":4,'
    '"via":[{"node":4,"height":[0,0,0,0,4],"direction":"down"}]}],'
    '"links":[{"peer":2,"life":null,"cut":null},{"peer":4,"life":[17,33],"cut":null}]}'
)  # the line of docs/formats.md


@pytest.fixture
def configured(tmp_path: pathlib.Path) -> Callable[..., str]:
    """Writes both configurations, with texts replaced; answers the path of that of tora-routes."""

    def write(old: str = "", new: str = "", node: str = NODE) -> str:
        (tmp_path / "1.toml").write_text(node)
        text = ROUTES.format(node=tmp_path / "1.toml")
        assert text.count(old) == 1 or not old
        (tmp_path / "routes.toml").write_text(text.replace(old, new) if old else text)
        return str(tmp_path / "routes.toml")

    return write


@pytest.fixture
def held(configured: Callable[..., str]) -> Configuration:
    """The configuration."""
    return read(configured())


def net(text: str) -> Network:
    """A prefix."""
    return ipaddress.ip_network(text)


def test_configuration(held: Configuration) -> None:
    assert (held.own, held.protocol, held.table, held.metric, held.device) == (1, 84, 254, 32, "tora")
    assert {node: it.interface for node, it in held.neighbours.items()} == {2: "eth0", 3: "eth1"}
    assert str(held.neighbours[2].via_of(6)) == "fe80::2" and held.neighbours[3].via_of(6) is None
    assert held.prefixes == {
        4: (net("10.99.0.4/32"), net("fd99::4/128"), net("192.168.4.0/24"))
    }  # its own are no routes
    assert str(held.source_of(4)) == "10.99.0.1"


@pytest.mark.parametrize(
    ("old", "new", "line", "told"),
    [
        ('node = 2\ninterface = "eth0"', 'node = 2\ninterface = "a/b"', 6, "neighbour[1].interface: `a/b` is no name"),
        ('interface = "eth1"', 'interface = "tora"', 11, "neighbour[2].interface: `tora` is the TUN device"),
        ('via = ["10.77.1.3"]', 'via = ["10.77.1.300"]', 12, "neighbour[2].via: `10.77.1.300` is no address"),
        (
            'via = ["10.77.1.3"]',
            'via = ["10.77.1.3", "10.77.1.4"]',
            12,
            "neighbour[2].via: `10.77.1.4` is the second address of IPv4",
        ),
        ('via = ["10.77.1.3"]', 'via = ["224.0.0.1"]', 12, "neighbour[2].via: `224.0.0.1` is no address of one host"),
        ('via = ["10.77.1.3"]', "via = []", 12, "neighbour[2].via: the value is no list of texts"),
        ('via = ["10.77.1.3"]', "", 9, "neighbour[2].via: the key is missing"),
        ("node = 3\n", "node = 5\n", 10, "neighbour[2].node: {node} has no link to 5"),
        ("node = 3\n", "node = 2\n", 10, "neighbour[2].node: the neighbour 2 stands before"),
        ("node = 3\n", "node = 0\n", 10, "neighbour[2].node: `0` is no whole number from 1 to 4294967295"),
        ("node = 3\n", "node = true\n", 10, "neighbour[2].node: `True` is no whole number"),
        ("node = 4\n", "node = 9\n", 19, "destination[2].node: 9 is not among the dests of {node}"),
        ('"192.168.4.0/24"', '"192.168.4.1/24"', 20, "destination[2].prefixes: `192.168.4.1/24` is no prefix"),
        ('"192.168.4.0/24"', '"10.99.0.1/32"', 20, "destination[2].prefixes: the prefix 10.99.0.1/32 is one of node 1"),
        ('source = ["10.99.0.1", "fd99::1"]', "protocol = 4", 2, "protocol: `4` is no whole number from 5 to 255"),
        ('source = ["10.99.0.1", "fd99::1"]', 'colour = "red"', 2, "colour: there is no such key"),
        ('source = ["10.99.0.1", "fd99::1"]', "source = [", 4, ""),
    ],
)
def test_a_wrong_configuration_is_refused_with_line_and_key(
    configured: Callable[..., str], old: str, new: str, line: int, told: str
) -> None:
    path = configured(old, new)
    with pytest.raises(StudyError) as caught:
        read(path)
    assert caught.value.line == line
    assert told.format(node=path.replace("routes.toml", "1.toml")) in str(caught.value)


def test_a_neighbour_that_is_missing_and_faults_of_the_node_are_refused(configured: Callable[..., str]) -> None:
    text = '[[neighbour]]\nnode = 3\ninterface = "eth1"\nvia = ["10.77.1.3"]\n'
    assert "the neighbour 3 of" in refusal(lambda: read(configured(text, "")))
    assert "1.toml:5: link[1].peer: `0` is no whole number" in refusal(
        lambda: read(configured(node=NODE.replace("peer = 2", "peer = 0")))
    )
    assert "1.toml: dests: the key is missing" in refusal(
        lambda: read(configured(node=NODE.replace("dests = [1, 3, 4]\n", "")))
    )
    assert "No such file" in refusal(lambda: read("/nowhere/routes.toml"))


def test_the_line_of_a_key() -> None:
    text = 'a = 1\n[other]\na = 2\n[[t]]\n"b" = 3\n[[t]] # second\nlist = [\n  [1],\n]\nb = 4\n'
    assert [line_of(text, "a"), line_of(text, "b", "t", 0), line_of(text, "b", "t", 1)] == [1, 5, 10]
    assert [line_of(text, "c", "t", 1), line_of(text, "c"), line_of(text, "a", "u")] == [6, None, None]


def test_check_tells_what_the_configuration_has(
    configured: Callable[..., str], capsys: pytest.CaptureFixture[str]
) -> None:
    assert main(["--check", configured()]) == 0
    assert capsys.readouterr().err.endswith("ok, 2 neighbours, 1 destination, 3 prefixes\n")
    assert main(["--check", configured('interface = "eth1"', "interface = 1")]) == 1
    assert "routes.toml:11: neighbour[2].interface: `1` is no text" in capsys.readouterr().err
    with pytest.raises(SystemExit) as caught:
        main(["--check", "--flush", "x"])
    assert caught.value.code == 2


def test_lines_of_a_node() -> None:
    hops = Hops()
    assert [
        hops.take(it)
        for it in ("height 4 -", "hop 4 -", "hop 4 3", "hop 4 3", "refused 5", "to 4 height - flag 0 hop 3")
    ] == [False, False, True, False, False, False]
    assert hops.hops == {4: 3}
    assert hops.take(STATE) and hops.hops == {4: 4} and (hops.states, hops.mended) == (1, 1)
    for line in ("hop 4", "hop 0 3", "hop 4 3 ", "hop x 3", "{", "{}", '{"destinations":[{"to":"4","hop":4}]}'):
        assert "the node printed" in refusal(lambda: hops.take(line))


def test_the_state_is_read_as_its_schema_has_it() -> None:
    jsonschema = pytest.importorskip("jsonschema")
    schema = json.loads((pathlib.Path(__file__).parents[2] / "docs" / "status.schema.json").read_text())
    jsonschema.validate(json.loads(STATE), schema)
    assert hops_of(STATE) == {4: 4}


def test_routes_by_the_next_hops(held: Configuration) -> None:
    found = found_routes(held, {4: 2}, {"eth0", "eth1"})
    assert sorted(map(str, found.values())) == [
        "10.99.0.4/32 via 10.77.0.2 dev eth0 src 10.99.0.1 metric 32",
        "192.168.4.0/24 via 10.77.0.2 dev eth0 src 10.99.0.1 metric 32",
        "fd99::4/128 via fe80::2 dev eth0 src fd99::1 metric 32",
    ]
    assert {str(it.prefix) for it in found_routes(held, {4: 3}, {"eth1"}).values()} == {
        "10.99.0.4/32",
        "192.168.4.0/24",
    }  # 3 has no IPv6
    assert (
        not found_routes(held, {4: 2}, {"eth1"})
        and not found_routes(held, {4: None, 1: 2}, {"eth0"})
        and not found_routes(held, {4: 9}, {"eth0"})
    )
    assert str(last_routes(held)[net("fd99::4/128"), 1 << 24]) == "fd99::4/128 dev tora src fd99::1 metric 16777216"


def test_changes_of_routes(held: Configuration) -> None:
    by_two, by_three = (found_routes(held, {4: hop}, {"eth0", "eth1"}) for hop in (2, 3))
    to_set, to_remove = changes(by_two, by_three)
    assert [str(it.via) for it in to_set] == ["10.77.1.3", "10.77.1.3"] and [str(it.prefix) for it in to_remove] == [
        "fd99::4/128"
    ]
    assert changes(by_two, by_two) == ([], [])
    assert changes({}, by_two) == (list(by_two.values()), []) and changes(by_two, {}) == ([], list(by_two.values()))
    now = dict(by_two)
    for route in to_set:
        now[route.place] = route
    for route in to_remove:
        del now[route.place]
    assert now == by_three


def test_a_route_is_asked_for_as_long_as_it_is_wanted() -> None:
    requests, none = Requests(), {4: None}
    assert requests.next_time(none) is None
    assert requests.want(4, 10.0) and not requests.want(4, 10.5)
    assert requests.next_time(none) == 11.0 and requests.due(none, 10.9) == []
    assert requests.due(none, 11.0) == [4] and requests.due(none, 11.5) == []
    assert requests.due({4: 2}, 12.0) == [] and requests.next_time({4: 2}) is None
    assert requests.due(none, 12.0) == [4]
    assert requests.due(none, 15.6) == [] and requests.next_time(none) is None  # five seconds after the last packet
    assert requests.want(4, 16.0)


def test_packets_wait_for_their_route() -> None:
    held = Held()
    for at in range(MOST + 2):
        held.keep(4, bytes([at]), 1.0 + at / 100)
    assert 4 in held and 5 not in held and held.lost == 2
    assert held.take(4, 1.5) == [bytes([at]) for at in range(2, MOST + 2)] and 4 not in held and held.take(4, 1.5) == []
    held.keep(4, b"old", 1.0)
    held.keep(4, b"new", 2.5)
    assert held.take(4, 3.5) == [b"new"] and held.lost == 3


def test_where_a_packet_goes_to() -> None:
    four = struct.pack("!BBHHHBBH4s4s", 0x45, 0, 20, 1, 0, 64, 17, 0, bytes([10, 99, 0, 1]), bytes([10, 99, 0, 4]))
    six = struct.pack(
        "!IHBB16s16s",
        6 << 28,
        0,
        59,
        64,
        ipaddress.ip_address("fd99::1").packed,
        ipaddress.ip_address("fd99::4").packed,
    )
    assert destination_of(four) == (4, int(ipaddress.ip_address("10.99.0.4")))
    assert destination_of(six) == (6, int(ipaddress.ip_address("fd99::4")))
    assert [destination_of(it) for it in (b"", four[:19], six[:39], b"\x50" + four[1:])] == [None] * 4


def test_the_longest_prefix_decides() -> None:
    holders = Holders(
        {4: (net("10.0.0.0/8"), net("fd99::/16")), 5: (net("10.1.0.0/16"),), 6: (net("10.1.2.3/32"), net("0.0.0.0/0"))}
    )

    def find(text: str) -> int | None:
        address = ipaddress.ip_address(text)
        return holders.node_of(address.version, int(address))

    assert [find(it) for it in ("10.2.0.1", "10.1.0.1", "10.1.2.3", "10.1.2.4", "11.0.0.1", "fd99::9", "fe80::1")] == [
        4,
        5,
        6,
        5,
        6,
        4,
        None,
    ]


# Flags of if.h: UP, BROADCAST, MULTICAST, and with a carrier RUNNING and LOWER_UP. Of neighbour.h: NUD_FAILED.
UP, ABLE, FAILED = 0x1003, 0x11043, 0x20


def link(index: int, name: str, flags: int, event: str = "RTM_NEWLINK") -> dict[str, Any]:
    """A message of an interface."""
    return {"event": event, "family": 0, "index": index, "flags": flags, "attrs": [("IFLA_IFNAME", name)]}


def test_an_interface_without_a_carrier_ends_its_links(held: Configuration) -> None:
    found = Interfaces(held)
    assert (
        found.take(link(7, "eth0", ABLE)) == [] and found.take(link(8, "eth1", UP)) == [] and found.usable == {"eth0"}
    )
    assert found.index_of("eth0") == 7 and found.index_of("eth9") is None
    assert found.take(link(7, "eth0", UP)) == [2]  # the cable is pulled
    assert found.take(link(7, "eth0", UP)) == []  # and told once more
    assert found.take(link(7, "eth0", ABLE)) == [] and found.take(link(7, "eth0", ABLE, "RTM_DELLINK")) == [2]
    assert found.take(link(9, "eth0", ABLE)) == [] and found.index_of("eth0") == 9
    assert found.take(link(9, "renamed", ABLE)) == [2]
    assert (
        found.take({"event": "RTM_DELLINK", "family": 7, "index": 9, "attrs": [("IFLA_IFNAME", "renamed")]}) == []
    )  # of a bridge's port
    assert "renamed" in found.usable


def test_a_neighbour_that_does_not_answer_ends_its_link(held: Configuration) -> None:
    found = Interfaces(held)
    found.take(link(7, "eth0", ABLE))
    found.take(link(8, "eth1", ABLE))

    def failed(index: int, address: str, state: int = FAILED) -> list[int]:
        return found.take({"event": "RTM_NEWNEIGH", "ifindex": index, "state": state, "attrs": [("NDA_DST", address)]})

    assert [failed(7, "10.77.0.2"), failed(7, "fe80::2"), failed(8, "10.77.1.3")] == [[2], [2], [3]]
    assert [failed(8, "10.77.0.2"), failed(7, "10.77.0.9"), failed(7, "10.77.0.2", 0x2), failed(7, "none")] == [
        [],
        [],
        [],
        [],
    ]
    assert found.take({"event": "RTM_NEWNEIGH", "ifindex": 7, "state": FAILED, "attrs": []}) == []


def attribute(kind: int, data: bytes) -> bytes:
    """An attribute of a message of the kernel."""
    return struct.pack("=HH", 4 + len(data), kind) + data + bytes(-len(data) % 4)


def word(value: int) -> bytes:
    """Four bytes in the order of the machine."""
    return struct.pack("=L", value)


def test_requests_for_routes() -> None:
    via, source = ipaddress.ip_address("10.77.0.2"), ipaddress.ip_address("10.99.0.1")
    route = Route(net("10.99.0.4/31"), "eth0", 32, via, source)
    place = attribute(1, bytes([10, 99, 0, 4])) + attribute(6, word(32))
    onward = attribute(4, word(7)) + attribute(7, source.packed) + attribute(5, via.packed)
    head = bytes([2, 31, 0, 0, 254, 84, 0, 1])
    assert route_message(route, 254, 84, 7) == head + word(4) + place + attribute(15, word(254)) + onward
    assert route_message(route, 254, 84, None) == head + word(0) + place + attribute(15, word(254))
    six = Route(net("fd99::/64"), "tora", 9)
    told = attribute(1, net("fd99::/64").network_address.packed) + attribute(6, word(9)) + attribute(15, word(1000))
    head = bytes([10, 64, 0, 0, 0, 5, 0, 1])  # the number of a table from 256 on has an attribute alone
    assert route_message(six, 1000, 5, 3) == head + word(0) + told + attribute(4, word(3))


def test_messages_of_the_kernel() -> None:
    interface = struct.pack("=BxHiLL", 0, 1, 7, ABLE, 0) + attribute(13, b"pfifo\0") + attribute(3, b"eth0\0")
    assert event_of(16, interface) == link(7, "eth0", ABLE)
    assert event_of(17, interface) == link(7, "eth0", ABLE, "RTM_DELLINK")
    neighbour = struct.pack("=BxxxiHBB", 10, 8, FAILED, 0, 1) + attribute(1, ipaddress.ip_address("fe80::2").packed)
    told = {"event": "RTM_NEWNEIGH", "ifindex": 8, "state": FAILED, "attrs": [("NDA_DST", "fe80::2")]}
    assert event_of(28, neighbour) == told and event_of(29, neighbour) is None
    assert event_of(28, neighbour[:12] + bytes(8)) == {**told, "attrs": []}  # an attribute without a length
    data = struct.pack("=LHHLL", 18, 16, 0, 3, 0) + b"ab\0\0" + struct.pack("=LHHLL", 16, 2, 0, 4, 0)
    assert list(messages_of(data)) == [(16, 3, b"ab"), (2, 4, b"")]
    assert list(messages_of(data[:30])) == [(16, 3, b"ab")]


def test_a_route_prints_as_the_command_ip_prints_it() -> None:
    assert str(Route(net("10.0.0.0/8"), "eth0", 5)) == "10.0.0.0/8 dev eth0 metric 5"


def test_the_configurations_of_the_page_are_read(tmp_path: pathlib.Path, monkeypatch: pytest.MonkeyPatch) -> None:
    page = (pathlib.Path(__file__).parents[2] / "docs" / "how-to" / "real-hosts.md").read_text()
    blocks = [textwrap.dedent(it.split("```")[0]) for it in page.split("```toml\n")[1:]]
    monkeypatch.chdir(tmp_path)
    for name, text in zip(("1.toml", "routes-1.toml"), blocks, strict=True):
        (tmp_path / name).write_text(text)
    found = read("routes-1.toml")
    assert found.own == 1 and found.neighbours[2].interface == "eth0" and found.prefixes == {2: (net("10.99.0.2/32"),)}
