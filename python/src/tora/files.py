"""Reading and writing of files: errors name the file, and an output is whole or not there at all."""
from __future__ import annotations

import contextlib
import os
import stat
from collections.abc import Iterable, Iterator, Mapping
from typing import IO

from tora.errors import StudyError, UsageError

Path = str | os.PathLike[str]


@contextlib.contextmanager
def naming(path: Path) -> Iterator[None]:
    """Turns a failure of the operating system into a `StudyError` that names the file."""
    try:
        yield
    except OSError as cause:
        if cause.errno is None:  # an error of a library
            raise
        raise StudyError(cause.strerror or str(cause), file=path) from None


@contextlib.contextmanager
def reading(
    path: Path, encoding: str = "ascii", errors: str = "replace", newline: str | None = None
) -> Iterator[IO[str]]:
    """A text file to read; a failure names it."""
    with naming(path), open(path, encoding=encoding, errors=errors, newline=newline) as source:
        yield source


def check_outputs(outputs: Iterable[Path], inputs: Iterable[Path] = (), overwrite: bool = False) -> None:
    """Refuses outputs before anything is written.

    An output is refused that is an input, that is named twice, that is a folder, or, without `overwrite`, that exists.
    A device or a pipe that exists is taken.

    Raises
    ------
    UsageError
        With the name of the output.
    """
    known = {os.path.realpath(path) for path in inputs}
    seen: set[str] = set()
    for path in outputs:
        if not os.fspath(path):
            raise UsageError("the name of an output is empty")
        real = os.path.realpath(path)
        if real in known or any(_is_same(path, other) for other in known):
            raise UsageError("the output is an input, too", file=path)
        if real in seen:
            raise UsageError("two outputs have this name", file=path)
        if os.path.isdir(path):
            raise StudyError("Is a directory", file=path)
        if os.path.isfile(path) and not overwrite:
            raise UsageError("the output exists, and only --overwrite replaces it", file=path)
        seen.add(real)


def write_files(texts: Mapping[str, str | bytes], inputs: Iterable[Path] = (), overwrite: bool = False) -> None:
    """Writes files beside their places, and renames them when all of them are whole.

    Parameters
    ----------
    texts : mapping
        By the path what the file holds; text is written as UTF-8.
    inputs : paths
        Files that may not be written.
    overwrite : bool
        Whether a file that exists is replaced.
    """
    check_outputs(texts, inputs, overwrite)
    places = {path: os.path.realpath(path) for path in texts if not _is_special(path)}
    parts = {path: f"{place}.{os.getpid()}.part" for path, place in places.items()}
    try:
        for path, text in texts.items():
            data = text.encode("utf-8", "backslashreplace") if isinstance(text, str) else text
            with naming(path), open(parts.get(path, path), "xb" if path in parts else "wb") as sink:
                sink.write(data)
        for path, part in parts.items():
            with naming(path):
                os.replace(part, places[path])
    finally:
        for part in parts.values():
            with contextlib.suppress(OSError):
                os.remove(part)


def write_file(path: Path, text: str | bytes, inputs: Iterable[Path] = (), overwrite: bool = False) -> None:
    """Writes one file as `write_files` does."""
    write_files({os.fspath(path): text}, inputs, overwrite)


def _is_same(path: Path, other: Path) -> bool:
    """Whether two paths are one file, by a hard link too."""
    try:
        return os.path.samefile(path, other) and not _is_special(path)
    except OSError:
        return False


def _is_special(path: Path) -> bool:
    """Whether a path is a device, a pipe or a socket, which is written to and not replaced."""
    try:
        mode = os.stat(path).st_mode
    except OSError:
        return False
    return not stat.S_ISREG(mode) and not stat.S_ISDIR(mode)
