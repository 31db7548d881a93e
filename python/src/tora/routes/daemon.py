"""Keeps the routes of the kernel as a node of TORA finds its next hops.

One loop waits for what the node prints, for what the kernel tells of interfaces and neighbours, for packets without a
route, for the end
of the guard, and for signals.
"""
from __future__ import annotations

import contextlib
import ctypes
import logging
import os
import selectors
import signal
import socket
import subprocess
import time
from collections.abc import Callable, Iterable, Iterator

from tora.errors import StudyError
from tora.program import Program
from tora.routes.configuration import Configuration
from tora.routes.events import Interfaces
from tora.routes.guard import Guard, locked
from tora.routes.held import Held
from tora.routes.kernel import Events, Kernel, RouteRefused
from tora.routes.lines import Hops
from tora.routes.packets import Holders, destination_of
from tora.routes.requests import AGAIN, Requests
from tora.routes.table import Routes, changes, found_routes, last_routes
from tora.routes.tunnel import Sender, Tunnel

log = logging.getLogger("tora-routes")

LOOK = 30.0  # seconds between two looks at the node's whole state
ANSWER = 10.0  # seconds in which the node answers
COMPARE = 60.0  # seconds between two looks at the kernel's routes
SETTLE = 0.1  # seconds from an event of an interface to a look at the kernel's routes
LAST_SECONDS = 2.0  # for the node to end when it is asked to
SIGNALS = (signal.SIGINT, signal.SIGTERM, signal.SIGHUP)
PR_CAP_AMBIENT, PR_CAP_AMBIENT_CLEAR_ALL = 47, 4  # prctl.h


class NodeEnded(StudyError):
    """The node has ended by itself, or does not answer."""

    status = 3


class Daemon:
    """The routes of one node, from start to end."""

    def __init__(self, held: Configuration, program: Program) -> None:
        self._held, self._program = held, program
        self._hops, self._interfaces = Hops(), Interfaces(held)
        self._requests, self._waiting, self._holders = Requests(), Held(), Holders(held.prefixes)
        self._routes: Routes = {}
        self._selector = selectors.DefaultSelector()
        self._lines, self._errors = b"", b""
        self._is_ended = False
        self._compare_at = self._compared = self._look_at = 0.0
        self._answer_by: float | None = None

    def run(self) -> None:
        """Runs the node and keeps the routes until a signal asks for the end.

        Raises
        ------
        StudyError
            Where the node ends, or the kernel refuses. No route is left in any case.
        """
        with contextlib.ExitStack() as stack:
            lock = stack.enter_context(contextlib.closing(locked(self._held.table, self._held.protocol)))
            guard = stack.enter_context(contextlib.closing(Guard(self._held.table, self._held.protocol, lock)))
            _give_up_ambient()
            self._kernel = stack.enter_context(contextlib.closing(Kernel(self._held.table, self._held.protocol)))
            left = self._kernel.flush()
            if left:
                log.warning("%d routes of an earlier run were left, and are taken away", left)
            stack.callback(self._kernel.flush)
            self._sender = stack.enter_context(contextlib.closing(Sender()))
            self._tunnel = stack.enter_context(contextlib.closing(Tunnel(self._held.device)))
            self._events = stack.enter_context(contextlib.closing(Events()))
            self._read_interfaces()
            self._set_last_routes()
            signals = stack.enter_context(_signals())
            self._node = self._start()
            stack.callback(self._end_node)
            self._wait_for(guard, signals)
            self._tell("watch")
            while not self._is_ended:
                self._turn()

    def _start(self) -> subprocess.Popen[bytes]:
        """Starts the node."""
        words = [*self._program.words, "node", self._held.node]
        try:
            node = subprocess.Popen(
                words,
                stdin=subprocess.PIPE,
                stdout=subprocess.PIPE,
                stderr=subprocess.PIPE,
                bufsize=0,
                start_new_session=True,
            )
        except OSError as cause:
            raise StudyError(cause.strerror or str(cause), file=words[0]) from None
        for pipe in (node.stdin, node.stdout, node.stderr):
            assert pipe is not None
            os.set_blocking(pipe.fileno(), False)
        return node

    def _wait_for(self, guard: Guard, signals: socket.socket) -> None:
        """What the loop waits for."""
        assert self._node.stdout is not None and self._node.stderr is not None
        handlers: list[tuple[int, Callable[[], None]]] = [
            (self._node.stdout.fileno(), self._on_lines),
            (self._node.stderr.fileno(), self._on_errors),
            (self._events.fileno(), self._on_events),
            (self._tunnel.fileno(), self._on_packets),
            (guard.fileno(), _on_guard),
            (signals.fileno(), self._on_signal),
        ]
        for file, handler in handlers:
            self._selector.register(file, selectors.EVENT_READ, handler)
        now = time.monotonic()
        self._compare_at, self._look_at = now + SETTLE, now + 1.0

    def _turn(self) -> None:
        """Waits, does what has come, and then what is due by the clock."""
        times = [self._compare_at, self._look_at, self._answer_by, self._requests.next_time(self._hops.hops)]
        until = min(it for it in times if it is not None)
        for key, _ in self._selector.select(max(0.0, until - time.monotonic())):
            key.data()
        now = time.monotonic()
        for destination in self._requests.due(self._hops.hops, now):
            self._tell(f"need {destination}")
        if now >= self._compare_at:
            self._compare(now)
        if self._answer_by is not None and now >= self._answer_by:
            raise NodeEnded(f"the node has not answered for {ANSWER:g} seconds")
        if now >= self._look_at:
            self._look_at = now + LOOK
            self._answer_by = self._answer_by or now + ANSWER
            self._tell("json")

    def _tell(self, command: str) -> None:
        """Gives the node a command."""
        assert self._node.stdin is not None
        log.debug("command: %s", command)
        line = command.encode() + b"\n"
        try:
            if os.write(self._node.stdin.fileno(), line) != len(line):
                raise BlockingIOError
        except BlockingIOError:
            raise NodeEnded("the node reads no commands") from None
        except BrokenPipeError:
            raise NodeEnded(self._why()) from None

    def _on_lines(self) -> None:
        """Reads what the node printed, and sets the routes by it."""
        assert self._node.stdout is not None
        data = os.read(self._node.stdout.fileno(), 1 << 16)
        if not data:
            raise NodeEnded(self._why())
        *lines, self._lines = (self._lines + data).split(b"\n")
        states, mended = self._hops.states, self._hops.mended
        is_new = [self._hops.take(line.decode("ascii", "replace")) for line in lines]
        if self._hops.states > states:
            self._answer_by = None
        if self._hops.mended > mended:
            log.warning("the node's state had other next hops than its lines")
        if any(is_new):
            self._apply()

    def _on_errors(self) -> None:
        """Hands on what the node says on standard error."""
        assert self._node.stderr is not None
        data = os.read(self._node.stderr.fileno(), 1 << 16)
        if not data:
            with contextlib.suppress(KeyError):  # as the node ends it is read once more
                self._selector.unregister(self._node.stderr.fileno())
            return
        *lines, self._errors = (self._errors + data).split(b"\n")
        for line in lines:
            log.info("node: %s", line.decode("utf-8", "replace"))

    def _on_events(self) -> None:
        """Reads what the kernel tells, and cuts the links that ended by it."""
        messages = self._events.messages()
        before = self._interfaces.usable
        cut: set[int] = set()
        if messages is None:
            cut = self._read_interfaces()
        else:
            for message in messages:
                cut.update(self._interfaces.take(message))
        for node in sorted(cut):
            log.info("the link to %d is down: %s", node, self._held.neighbours[node].interface)
            self._tell(f"cut {node}")
        if self._interfaces.usable != before:
            self._compare_at = time.monotonic() + SETTLE
            self._apply()

    def _read_interfaces(self) -> set[int]:
        """Asks for all interfaces; answers the neighbours whose links end by what has changed."""
        before = self._interfaces.usable
        self._interfaces = Interfaces(self._held)
        for message in self._kernel.interfaces():
            self._interfaces.take({**message, "event": "RTM_NEWLINK"})
        gone = before - self._interfaces.usable
        return {node for node, it in self._held.neighbours.items() if it.interface in gone}

    def _on_packets(self) -> None:
        """Takes packets that have no route: each tells a destination that is asked for."""
        now = time.monotonic()
        for packet in self._tunnel.packets():
            found = destination_of(packet)
            node = None if found is None else self._holders.node_of(*found)
            if node is None:
                continue
            self._waiting.keep(node, packet, now)
            if self._requests.want(node, now):
                self._tell(f"need {node}")
            if self._hops.hops.get(node) is not None:  # it came as its route was set, or something else took the route
                self._compare_at = min(self._compare_at, max(now, self._compared + AGAIN))

    def _on_signal(self) -> None:
        """A signal asks for the end."""
        self._is_ended = True

    def _apply(self) -> None:
        """Sets and takes away routes so that the kernel has those of the next hops."""
        wanted = found_routes(self._held, self._hops.hops, self._interfaces.usable)
        to_set, to_remove = changes(self._routes, wanted)
        for route in to_set:
            index = self._interfaces.index_of(route.interface)
            try:
                if index is not None:
                    self._kernel.set(route, index)
                    self._routes[route.place] = route
                    log.info("route %s", route)
            except RouteRefused as cause:
                log.warning("%s", cause)
        for route in to_remove:
            del self._routes[route.place]
            log.info("no route %s", route)
            try:
                self._kernel.remove(route)
            except RouteRefused as cause:
                log.warning("%s", cause)
        self._send_waiting(self._held.prefixes)

    def _send_waiting(self, destinations: Iterable[int]) -> None:
        """Sends the packets whose route stands now."""
        now = time.monotonic()
        for node in destinations:
            if node not in self._waiting or not all(
                (it, self._held.metric) in self._routes for it in self._held.prefixes[node]
            ):
                continue
            for packet in self._waiting.take(node, now):
                found = destination_of(packet)
                if found is not None:
                    self._sender.send(*found, packet)

    def _set_last_routes(self) -> None:
        """Sets the device up, and the routes into it."""
        index = self._interfaces.index_of(self._held.device)
        if index is None:
            raise StudyError(f"the device `{self._held.device}` is not there")
        self._kernel.bring_up(index)
        for route in last_routes(self._held).values():
            try:
                self._kernel.set(route, index)
            except RouteRefused as cause:
                raise StudyError(str(cause)) from None

    def _compare(self, now: float) -> None:
        """Looks which routes the kernel has: it takes away those of an interface that goes down."""
        self._compare_at, self._compared = now + COMPARE, now
        last = last_routes(self._held)
        there = self._kernel.routes()
        self._routes = {place: it for place, it in there.items() if place not in last}
        if any(place not in there for place in last):
            self._set_last_routes()
        self._apply()

    def _why(self) -> str:
        """Why the node has ended."""
        try:
            status = self._node.wait(LAST_SECONDS)
        except subprocess.TimeoutExpired:
            return "the node has closed its output"
        with contextlib.suppress(BlockingIOError):
            self._on_errors()
        return f"the node has ended by signal {-status}" if status < 0 else f"the node has ended with status {status}"

    def _end_node(self) -> None:
        """Asks the node to end, and ends it where it does not; the routes go first."""
        self._kernel.flush()
        assert self._node.stdin is not None
        with contextlib.suppress(OSError):
            os.write(self._node.stdin.fileno(), b"quit\n")
        with contextlib.suppress(OSError):
            self._node.stdin.close()
        try:
            self._node.wait(LAST_SECONDS)
        except subprocess.TimeoutExpired:
            self._node.kill()
            self._node.wait()


def flush(held: Configuration) -> int:
    """Takes away the routes that a run may have left; answers how many there were."""
    with contextlib.closing(locked(held.table, held.protocol)), contextlib.closing(
        Kernel(held.table, held.protocol)
    ) as kernel:
        return kernel.flush()


@contextlib.contextmanager
def _signals() -> Iterator[socket.socket]:
    """A socket that can be read when a signal asks for the end."""
    reading, writing = socket.socketpair()
    reading.setblocking(False)
    writing.setblocking(False)
    before = {number: signal.signal(number, lambda *_: None) for number in SIGNALS}
    signal.set_wakeup_fd(writing.fileno())
    try:
        yield reading
    finally:
        signal.set_wakeup_fd(-1)
        for number, handler in before.items():
            signal.signal(number, handler)
        reading.close()
        writing.close()


def _on_guard() -> None:
    """The guard has ended: without it the routes would outlive this process."""
    raise StudyError("the guard process has ended")


def _give_up_ambient() -> None:
    """Keeps the capabilities of this process from the node that it starts."""
    ctypes.CDLL(None).prctl(PR_CAP_AMBIENT, PR_CAP_AMBIENT_CLEAR_ALL, 0, 0, 0)
