"""A simulated world in the own process, by the shared library `libtora`: what `tora drive` simulates, and no program is
started.

>>> import tora
>>> with tora.World() as world:    # doctest: +SKIP
...     for line in "dests 3", "link 1 2", "link 2 3", "need 1 3", "rounds 8":
...         print(world.answer(line), end="")

The lines are those of `tora drive`, and the answers are its answers, byte for byte.
"""
from __future__ import annotations

import enum
from ctypes import byref, c_size_t, c_uint8

from tora.lib import Erasure, Held, LibraryError, done, spelt
from tora.router import Times, spelt_times

FIRST_ROOM = 4096  # bytes of an answer that are fetched at first


class Limits(enum.IntEnum):
    """How large a world may be."""

    STANDARD = 0
    LARGE = 1


class LineError(LibraryError):
    """A line changed nothing.

    Attributes
    ----------
    answer : str
        The last line of the answer.
    """

    def __init__(self, answer: str, words: str) -> None:
        """An error whose answer and words these are."""
        self.answer = answer
        super().__init__(0, words)


class RefusedLineError(LineError):
    """The event of a line is refused.

    Attributes
    ----------
    number : int
        2 for a node or link that does not exist, 3 for a datagram that does not, 4 for what is not possible now.
    """

    def __init__(self, answer: str) -> None:
        """An error by the line `refused N`."""
        self.number = int(answer.split(" ")[1])
        super().__init__(answer, f"the event is refused: {answer}")


class FaultyLineError(LineError):
    """A line is none that may stand where it stands.

    Attributes
    ----------
    number : int
        Which line it is, from 1.
    cause : str
        What is wrong with it.
    """

    def __init__(self, answer: str) -> None:
        """An error by the line `fault N CAUSE`."""
        _, number, self.cause = answer.split(" ", 2)
        self.number = int(number)
        super().__init__(answer, f"line {number} is a fault: {self.cause}")


class World(Held):
    """A simulated world that lines drive.

    Parameters
    ----------
    limits : Limits, optional
        How large it may be.
    erasure : Erasure, optional
        What becomes of erased reference levels at each node of which no line says it.
    times : Times, optional
        The times of every link.
    """

    _KIND = "world"

    def __init__(
        self, limits: Limits = Limits.STANDARD, erasure: Erasure = Erasure.PLAIN, times: Times = Times()
    ) -> None:
        """A world to which no line came."""
        self._room = (c_uint8 * FIRST_ROOM)()
        self._make(int(limits), int(erasure), byref(spelt_times(times)))

    def line(self, line: bytes) -> bytes:
        """The answer to a line, which is given without its end, as `tora drive` prints it.

        Raises
        ------
        MemoryError
            Where memory is not enough: the world is as it was made.
        """
        length = c_size_t()
        done(self._call("line", spelt(line), len(line), byref(length)))
        if length.value > len(self._room):
            self._room = (c_uint8 * (2 * length.value))()
        done(self._call("answer", self._room, len(self._room), byref(length)))
        return bytes(memoryview(self._room)[: length.value])

    def answer(self, line: str) -> str:
        """The answer to a line as text."""
        return self.line(line.encode()).decode()

    def say(self, line: str) -> list[str]:
        """The lines of the answer to a line before its `ok`.

        Raises
        ------
        RefusedLineError
            Where its event is refused.
        FaultyLineError
            Where it is none that may stand here.
        """
        *told, last = self.answer(line).splitlines()
        if last.startswith("refused "):
            raise RefusedLineError(last)
        if last.startswith("fault "):
            raise FaultyLineError(last)
        return told
