"""A process of its own that takes the routes away when `tora-routes` ends in any way, `kill -9` included.

It is a shell that reads a pipe, whose other end only `tora-routes` has: it reads the end of the pipe when that process
is gone, and then lets `ip` (package iproute2) take the routes away. A shell takes less memory than a second Python.
"""
from __future__ import annotations

import os
import shutil
import socket
import subprocess
import time

from tora.errors import StudyError

# The second turn takes a route that a call which was under way has set since.
SCRIPT = """trap '' INT TERM HUP QUIT PIPE
while read -r _; do :; done
for turn in 1 2; do
  "$0" -4 route flush table "$1" proto "$2"
  "$0" -6 route flush table "$1" proto "$2"
  [ $turn = 2 ] || sleep 0.1
done >/dev/null 2>&1
"""
WAIT = 3.0  # seconds that an earlier guard has for its work


def locked(table: int, protocol: int) -> socket.socket:
    """A lock of the routes of a table and a protocol number: one `tora-routes` of a network namespace has it.

    Raises
    ------
    StudyError
        Where another one keeps it.
    """
    found = socket.socket(socket.AF_UNIX, socket.SOCK_DGRAM)
    until = time.monotonic() + WAIT
    while True:
        try:
            found.bind(f"\0tora-routes-{table}-{protocol}")
            return found
        except OSError:
            if time.monotonic() > until:
                found.close()
                cause = f"another tora-routes keeps the routes of table {table} and protocol {protocol}"
                raise StudyError(cause) from None
            time.sleep(0.05)


class Guard:
    """The process, as the one that it guards sees it. It keeps the lock until its work is done."""

    def __init__(self, table: int, protocol: int, lock: socket.socket) -> None:
        program = shutil.which("ip", path=f"{os.environ.get('PATH', '')}:/usr/sbin:/sbin:/usr/bin:/bin")
        if program is None:
            raise StudyError("the program `ip` is missing (package iproute2)")
        self._process = subprocess.Popen(
            ["/bin/sh", "-c", SCRIPT, program, str(table), str(protocol)],
            stdin=subprocess.PIPE,
            pass_fds=[lock.fileno()],
            start_new_session=True,
            cwd="/",
        )
        self._end = os.pidfd_open(self._process.pid)

    def fileno(self) -> int:
        """A file that is readable once the guard has ended."""
        return self._end

    def close(self) -> None:
        """Lets the guard do its work, and waits for its end."""
        assert self._process.stdin is not None
        self._process.stdin.close()
        self._process.wait()
        os.close(self._end)
