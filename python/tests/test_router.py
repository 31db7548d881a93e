"""Nodes by the shared library: what routers answer, and random networks of them beside `tora drive` and `tora sim`."""
from __future__ import annotations

import ctypes
import itertools
import pathlib
import random
import subprocess

import pytest

from tora import lib
from tora.driving import Drive
from tora.errors import StudyError
from tora.lib import ClosedError, Erasure, LibraryError, NoLibraryError, RefusedError
from tora.program import Program
from tora.router import Change, Intake, Kind, Reason, Router, Tally, Times

DESTINATIONS = 1, 4


@pytest.fixture(autouse=True)
def library() -> None:
    """Skips a test where the library is not built."""
    try:
        lib.library()
    except NoLibraryError:
        pytest.skip("the library tora is not built (./tora build --lib), and TORA_LIBRARY names none")


def carry(one: Router, two: Router, now: int) -> None:
    """Every datagram between the nodes 1 and 2 arrives."""
    while there := [*one.datagrams(now)] or [*two.datagrams(now)]:
        for peer, datagram in there:
            (two if peer == 2 else one).datagram(3 - peer, datagram, now)


def test_two_routers_find_a_route_and_lose_it() -> None:
    with Router(1, [2], [2], first_life=7) as one, Router(2, [1], [2], times=Times(hello=3), first_life=1) as two:
        assert one.next_due() == 0 and one.next_life() == 7 and one.poll_datagram(0) is None
        for router in one, two:
            router.tick(0)
        one.need(2, 0)
        carry(one, two, 0)
        assert one.height(2) == one.entry(2, 2)._replace(delta=1, id=1) and one.next_hop(2) == 2 and not one.flag(2)
        assert list(one.changes()) == [Change(Kind.LINK_UP, 2), Change(Kind.NEXT_HOP, 2, hop=2)]
        assert one.is_up(2) and one.next_life() == 8 and one.next_due() == 10 and two.next_due() == 3
        assert one.show() == "to 2 height (0,0,0,1,1) flag 0 hop 2\nvia 2 (0,0,0,0,2) down\n"
        assert sum(one.tally(2)) == one.tally(2).accepted > 0
        assert one.datagram(9, b"", 1) == Intake.NO_NEIGHBOUR and one.datagram(2, b"tora", 1) == Intake.SHORT
        assert one.tally(2)._replace(accepted=0) == Tally(0, 0, 0, 0, 0, 0, 1)
        one.cut(2, 1)
        assert list(one.changes()) == [Change(Kind.LINK_DOWN, 2, reason=Reason.CUT), Change(Kind.NEXT_HOP, 2)]
        two.tick(60)
        assert list(two.changes()) == [Change(Kind.LINK_DOWN, 1, reason=Reason.SILENT)]
    with pytest.raises(ClosedError):
        one.tick(2)


@pytest.mark.parametrize(
    ("me", "neighbours", "destinations", "first_life", "code"),
    [
        (0, [1], [1], 0, 6), (1, [0], [1], 0, 6), (1, [2], [0], 0, 6), (1, [1], [1], 0, 16),
        (1, [1], [1], 2**62 + 1, 16),
        (1, range(1, 257), [1], 1, 2), (1, [2], range(1, 66), 1, 2), (1, [2, 2, 1], [1], 1, 3), (1, [1], [1], 1, 4),
    ],
)
def test_routers_that_are_refused(
    me: int, neighbours: list[int], destinations: list[int], first_life: int, code: int
) -> None:
    with pytest.raises(LibraryError) as caught:
        Router(me, neighbours, destinations, first_life=first_life)
    assert caught.value.code == code and str(caught.value) == lib.WORDS[code]


def test_calls_that_are_refused() -> None:
    with Router(1, range(2, 257), range(1, 65), Erasure.REMEMBERED, first_life=2**62) as router:
        shown = router.show()
        for code, call in (
            (15, lambda: router.need(65, now=1)), (11, lambda: router.cut(300, now=1)), (11, lambda: router.tally(300)),
        ):
            with pytest.raises(RefusedError) as caught:
                call()
            assert caught.value.code == code
        for number in (-1, 2**32):
            with pytest.raises(ValueError):
                router.datagram(number, b"", now=1)
        with pytest.raises(ValueError):
            Router(1, [2], [2], times=Times(hello=-1), first_life=1)
        assert router.show() == shown and len(shown) > 512


def test_a_handle_of_null_is_answered() -> None:
    library, handle, times = lib.library(), lib._Handle(), lib._Times()
    size, number, long = ctypes.c_size_t(), ctypes.c_uint32(), ctypes.c_uint64()
    calls = [
        library.tora_router_datagram(handle, 1, None, 0, 1, number), library.tora_router_tick(handle, 1),
        library.tora_router_need(handle, 1, 1), library.tora_router_cut(handle, 1, 1),
        library.tora_router_poll_datagram(handle, 1, number, None, 0, size),
        library.tora_router_poll_change(handle, lib._Change()), library.tora_router_next_due(handle, long),
        library.tora_router_next_life(handle, long), library.tora_router_height(handle, 1, lib._Height()),
        library.tora_router_entry(handle, 1, 1, lib._Height()), library.tora_router_next_hop(handle, 1, number),
        library.tora_router_flag(handle, 1, number), library.tora_router_is_up(handle, 1, number),
        library.tora_router_tally(handle, 1, lib._Tally()), library.tora_router_show(handle, None, 0, size),
    ]
    library.tora_router_free(handle)
    assert calls == [lib.NULL] * len(calls)
    assert library.tora_router_new(handle, 1, None, 0, None, 0, 0, times, 1) == lib.OK
    assert library.tora_router_poll_datagram(handle, 1, number, (ctypes.c_uint8 * 559)(), 559, size) == lib.ROOM
    assert size.value == 560
    library.tora_router_free(handle)


class Network:
    """Routers, and the drive of a world in which the same happens, event by event."""

    def __init__(self, links: list[tuple[int, int]], drive: Drive) -> None:
        """The routers of the nodes of these links, and the first lines of the drive."""
        nodes = sorted({it for pair in links for it in pair})
        self.drive, self.now = drive, 0
        self.answers: list[str] = []
        self.beside = {n: sorted(b if a == n else a for a, b in links if n in (a, b)) for n in nodes}
        self.routers = {n: Router(n, self.beside[n], DESTINATIONS, first_life=1) for n in nodes}
        self.closed = {(n, k) for n in nodes for k in self.beside[n]}
        self.sent: list[tuple[int, int, bytes, str]] = []
        for line in (f"dests {','.join(map(str, DESTINATIONS))}", *(f"link {a} {b}" for a, b in links)):
            drive.say(line)

    def may(self, line: str) -> bool:
        """Whether an event is possible in the world now; then it happens."""
        try:
            self.drive.say(line)
        except StudyError as error:
            assert "refused 4" in str(error)
            return False
        return True

    def settle(self, n: int) -> None:
        """Node n of the world serves what waits: the first event of its first link that has one, again and again."""
        while any(self.may(f"pump {n} {k}") for k in self.beside[n]):
            self.serve(n)
        self.closed |= {(n, it.node) for it in self.routers[n].changes() if it.kind == Kind.LINK_DOWN}

    def serve(self, n: int) -> None:
        """The core of node n of the world serves an item, and its links take the cargoes."""
        assert self.may(f"turn {n}")
        for k in self.beside[n]:
            while self.may(f"pull {n} {k}"):
                pass

    def tick(self) -> None:
        """A tick passes."""
        self.now += 1
        self.drive.say("tick")
        for n, k in sorted(self.closed):
            self.drive.say(f"open {n} {k}")
        self.closed.clear()
        for n, router in self.routers.items():
            router.tick(self.now)
            self.settle(n)

    def need(self, n: int, d: int) -> None:
        """Node n needs a route."""
        self.routers[n].need(d, self.now)
        self.drive.say(f"need {n} {d}")
        self.serve(n)
        self.settle(n)

    def poll(self) -> None:
        """Each node sends what is due: datagrams for the same neighbours and as long as those of the world."""
        for n, router in self.routers.items():
            for peer, datagram in router.datagrams(self.now):
                answer = self.drive.say(f"transmit {n} {peer}")
                word, sender, receiver, number, length = answer[0]
                assert (word, int(sender), int(receiver), int(length)) == ("sent", n, peer, len(datagram))
                self.sent.append((n, peer, datagram, number))
            assert not any(self.may(f"transmit {n} {k}") for k in self.beside[n])

    def deliver(self, place: int) -> None:
        """A datagram arrives."""
        sender, receiver, datagram, number = self.sent[place]
        self.routers[receiver].datagram(sender, datagram, self.now)
        self.drive.say(f"deliver {number}")
        self.settle(receiver)

    def compare(self) -> set[str]:
        """The heights and next hops of the routers are those of the world."""
        found = set()
        for d in DESTINATIONS:
            answer = self.drive.say(f"heights {d}")
            told = [f"node {n} {it.height(d) or '-'} hop {it.next_hop(d) or '-'}" for n, it in self.routers.items()]
            assert told == [" ".join(it) for it in answer]
            self.answers += told
            found |= {str(it.height(d)) for it in self.routers.values()}
        return found


@pytest.mark.parametrize("seed", range(3))
def test_random_networks(program: Program, seed: int, tmp_path: pathlib.Path) -> None:
    draw, heights = random.Random(f"routers {seed}"), set()
    pairs = list(itertools.combinations(range(1, 6), 2))
    links = [(n, n + 1) for n in range(1, 5)] + draw.sample([it for it in pairs if it[1] > it[0] + 1], 2)
    with Drive(program) as drive:
        network = Network(links, drive)
        parted: set[frozenset[int]] = set()
        for _ in range(120):
            network.tick()
            if draw.random() < 0.05:
                parted ^= {frozenset(draw.choice(links))}
            if draw.random() < 0.2:
                network.need(draw.randint(1, 5), draw.choice(DESTINATIONS))
            network.poll()
            for _ in range(draw.randint(0, 16)):
                if network.sent:
                    place = draw.randrange(max(0, len(network.sent) - 12), len(network.sent))
                    if frozenset(network.sent[place][:2]) not in parted:
                        network.deliver(place)
                        network.poll()
            heights |= network.compare()
        path = tmp_path / "recorded.sim"
        path.write_text("\n".join([*drive.said, ""]))
    ran = subprocess.run([*program.words, "sim", path], capture_output=True, text=True, check=True)
    assert [it for it in ran.stdout.splitlines() if it.startswith("node ")] == network.answers
    assert len(heights) > 5
