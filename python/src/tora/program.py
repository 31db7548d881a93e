"""Finds the program `tora` and runs it, within a time limit."""
from __future__ import annotations

import dataclasses
import os
import pathlib
import shlex
import shutil
import signal
import subprocess
from collections.abc import Sequence
from typing import Any

from tora.errors import StudyError, UsageError, shown

TIME_LIMIT = 3600.0  # seconds of a run without a limit of its own
VERSION_LIMIT = 1800.0  # seconds in which the program tells its version; the launcher may compile it in this time


@dataclasses.dataclass(frozen=True)
class Finished:
    """What a run of the program has printed.

    Attributes
    ----------
    output, errors : str
        Standard output and standard error.
    """

    output: str
    errors: str


@dataclasses.dataclass(frozen=True)
class Program:
    """The program `tora`: the words of the command that starts it, before its own words.

    Attributes
    ----------
    words : tuple of str
        The path of the program, and words before its own, if any.
    """

    words: tuple[str, ...]

    @classmethod
    def find(cls, program: str | os.PathLike[str] | Sequence[str] | None = None) -> Program:
        """The program by the argument, else the environment variable TORA, else the repository's ``./tora``, else PATH.

        Parameters
        ----------
        program : path or words, optional
            A path, or the words of a command.

        Raises
        ------
        UsageError
            Where there is no such program.
        """
        if program is not None:
            words = [os.fspath(program)] if isinstance(program, (str, os.PathLike)) else list(program)
        else:
            words = _words_of_environment() or _words_of_repository() or ["tora"]
        if not words or not words[0]:
            raise UsageError("the name of the program tora is empty")
        path = shutil.which(words[0])
        if path is None:
            raise UsageError("there is no such program; TORA names the program tora", file=shown(words[0]))
        return cls((path, *words[1:]))

    def version(self) -> str:
        """What the program calls itself: the first line of ``--version``.

        It is without characters that divide cells of CSV.
        """
        text = self.run("--version", time_limit=VERSION_LIMIT).output
        line = text.split("\n", 1)[0]
        return " ".join(line.replace(",", " ").replace('"', " ").split())

    def run(self, *words: str | os.PathLike[str], time_limit: float = TIME_LIMIT) -> Finished:
        """Runs the program with these words to its end.

        Parameters
        ----------
        words : str or path
            The program's own words.
        time_limit : float
            Seconds after which the program is ended.

        Raises
        ------
        StudyError
            Where the program ends with another status than 0, by a signal, or not within the time limit.
        """
        command = [*self.words, *(os.fspath(word) for word in words)]
        try:
            process = subprocess.Popen(
                command, stdin=subprocess.DEVNULL, stdout=subprocess.PIPE, stderr=subprocess.PIPE, text=True,
                errors="replace",
                start_new_session=True,
            )
        except OSError as cause:
            raise UsageError(cause.strerror or str(cause), file=self.words[0]) from None
        try:
            output, errors = process.communicate(timeout=time_limit)
        except subprocess.TimeoutExpired:
            end_group(process)
            raise StudyError(
                f"the program is not done within {time_limit:g} seconds, and was ended", file=self.words[0]
            ) from None
        except BaseException:
            end_group(process)
            raise
        if process.returncode:
            raise StudyError(_why(process.returncode, errors), file=self.words[0])
        return Finished(output, errors)


def end_group(process: subprocess.Popen[Any]) -> None:
    """Ends a process that was started in its own session, with all processes that it has started."""
    try:
        os.killpg(process.pid, signal.SIGKILL)
    except ProcessLookupError:
        pass
    process.wait()
    for pipe in (process.stdin, process.stdout, process.stderr):
        if pipe is not None:
            try:
                pipe.close()
            except OSError:
                pass  # what was still to be said to a process that has ended


def _why(status: int, errors: str) -> str:
    """Why a run failed, by its status and the last line that it says on standard error."""
    lines = errors.strip().splitlines()
    told = f": {lines[-1].strip()[:200]}" if lines else ""
    if status < 0:
        return f"the program was ended by signal {-status}{told}"
    return f"the program ends with status {status}{told}"


def _words_of_environment() -> list[str]:
    """The words of the environment variable TORA."""
    try:
        return shlex.split(os.environ.get("TORA", ""))
    except ValueError as cause:
        raise UsageError(str(cause), key="TORA") from None


def _words_of_repository() -> list[str]:
    """The launcher of the repository that has this file, if there is one."""
    for folder in pathlib.Path(__file__).resolve().parents:
        if (folder / "crates.txt").is_file() and os.access(folder / "tora", os.X_OK):
            return [str(folder / "tora")]
    return []
