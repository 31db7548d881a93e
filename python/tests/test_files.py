"""What is written: an output is whole or not there, is never an input, and replaces nothing unless that is asked for.
"""
from __future__ import annotations

import os
import pathlib

import pytest
from conftest import refusal

from tora.errors import StudyError, UsageError, shown
from tora.files import check_outputs, reading, write_file, write_files


def test_whole_files(tmp_path: pathlib.Path) -> None:
    """Texts and bytes are written, and nothing else is left behind; permissions are those of the user."""
    write_files({f"{tmp_path}/a": "é\n", f"{tmp_path}/b": b"\xff"})
    assert (tmp_path / "a").read_bytes() == "é\n".encode() and (tmp_path / "b").read_bytes() == b"\xff"
    assert sorted(os.listdir(tmp_path)) == ["a", "b"]
    umask = os.umask(0)
    os.umask(umask)
    assert (tmp_path / "a").stat().st_mode & 0o777 == 0o666 & ~umask


def test_existing(tmp_path: pathlib.Path) -> None:
    """What exists is not replaced unless that is asked for; of several files none is written then."""
    (tmp_path / "b").write_text("old")
    outputs = {f"{tmp_path}/a": "new", f"{tmp_path}/b": "new"}
    assert refusal(lambda: write_files(outputs)).startswith(f"{tmp_path}/b: the output exists")
    assert os.listdir(tmp_path) == ["b"] and (tmp_path / "b").read_text() == "old"
    write_files(outputs, overwrite=True)
    assert (tmp_path / "b").read_text() == "new"


@pytest.mark.parametrize("how", ["itself", "path", "hard link", "symbolic link"])
def test_inputs(how: str, tmp_path: pathlib.Path) -> None:
    """An output that is an input is refused, by whatever name, also where outputs may be replaced."""
    source, name = tmp_path / "source", tmp_path / "name"
    source.write_text("old")
    if how == "hard link":
        name.hardlink_to(source)
    elif how == "symbolic link":
        name.symlink_to(source)
    else:
        name = source if how == "itself" else pathlib.Path(f"{tmp_path}/./source")
    for overwrite in (False, True):
        with pytest.raises(UsageError, match="the output is an input, too"):
            write_file(name, "new", inputs=[source], overwrite=overwrite)
    assert source.read_text() == "old"


def test_outputs_of_one_name(tmp_path: pathlib.Path) -> None:
    """Two outputs with one name, an empty name, and a folder."""
    assert "two outputs have this name" in refusal(lambda: check_outputs([tmp_path / "a", f"{tmp_path}/./a"]))
    assert "the name of an output is empty" in refusal(lambda: check_outputs([""]))
    assert refusal(lambda: check_outputs([tmp_path])) == f"{tmp_path}: Is a directory"


def test_places(tmp_path: pathlib.Path) -> None:
    """A folder that is not there, and a file in the place of one, are named by the output."""
    (tmp_path / "file").write_text("")
    assert refusal(lambda: write_file(tmp_path / "none" / "a", "")) == f"{tmp_path}/none/a: No such file or directory"
    assert refusal(lambda: write_file(tmp_path / "file" / "a", "")) == f"{tmp_path}/file/a: Not a directory"


def test_devices(tmp_path: pathlib.Path) -> None:
    """A device is written to and stays; a link to a file leads to it."""
    (tmp_path / "null").symlink_to("/dev/null")
    write_file(tmp_path / "null", "text")
    assert os.readlink(tmp_path / "null") == "/dev/null"
    (tmp_path / "file").write_text("old")
    (tmp_path / "link").symlink_to(tmp_path / "file")
    write_file(tmp_path / "link", "new", overwrite=True)
    assert (tmp_path / "link").is_symlink() and (tmp_path / "file").read_text() == "new"


@pytest.mark.skipif(not os.path.exists("/dev/full"), reason="there is no /dev/full")
def test_full_disk(tmp_path: pathlib.Path) -> None:
    """The file that can't be written is named, and of several files none is left."""
    (tmp_path / "b").symlink_to("/dev/full")
    assert refusal(
        lambda: write_files({f"{tmp_path}/a": "x", f"{tmp_path}/b": "x"})
    ) == f"{tmp_path}/b: No space left on device"
    assert os.listdir(tmp_path) == ["b"]


def test_errors() -> None:
    """An error is one line with the file, the line and the key."""
    assert str(StudyError("wrong", file="f", line=3)) == "f:3: wrong"
    assert str(StudyError("wrong", file="f", key="links[0]")) == "f: links[0]: wrong"
    assert str(StudyError("wrong")) == "wrong" and str(UsageError("two\nlines", key="k")) == "k: two lines"
    assert (StudyError.status, UsageError.status) == (1, 2)
    assert shown("a\x00\n" + "b" * 60) == "a\\x00\\n" + "b" * 37 + ".."


def test_reading(tmp_path: pathlib.Path) -> None:
    """A failure of reading names the file."""
    with pytest.raises(StudyError, match="none: No such file"), reading(tmp_path / "none"):
        pass
