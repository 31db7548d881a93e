"""The errors that a user meets: each is one line that names the file, and the line or the key, at fault."""
from __future__ import annotations

import os

MOST_SHOWN = 40  # characters of a word that an error repeats


class StudyError(Exception):
    """Bad input, or something that cannot be done with it.

    Parameters
    ----------
    cause : str
        What is wrong, without the file.
    file : path, optional
        The file at fault.
    line : int, optional
        Its line, from 1.
    key : str, optional
        The key at fault, such as ``links[3]``, or the name of an option.

    Attributes
    ----------
    status : int
        The exit status of a command that ends with this error: 1.
    """

    status = 1

    def __init__(
        self, cause: str, *, file: str | os.PathLike[str] | None = None, line: int | None = None, key: str | None = None
    ) -> None:
        """An error of a cause and its place."""
        self.cause = cause
        self.file = None if file is None else os.fspath(file)
        self.line = line
        self.key = key
        place = self.file or ""
        if line is not None:
            place = f"{place}:{line}"
        parts = [place] if place else []
        parts += [key] if key else []
        text = ": ".join([*parts, cause])
        super().__init__(" ".join(text.splitlines()))


class UsageError(StudyError):
    """A call or a command that asks for what can't be; its exit status is 2."""

    status = 2


def shown(text: str) -> str:
    """A word as an error repeats it: its first 40 characters, and what can't be printed as its code."""
    told = "".join([it if it.isprintable() else ascii(it)[1:-1] for it in text[:MOST_SHOWN]])
    return told if len(text) <= MOST_SHOWN else f"{told}.."
