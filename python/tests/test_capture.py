"""Captures of datagrams."""
from __future__ import annotations

import os
import pathlib
from collections.abc import Callable

import pytest
from conftest import STORED, refusal

from tora.capture import capture


def test_stored(tmp_path: pathlib.Path) -> None:
    """The capture of the stored list is the stored one."""
    assert capture(STORED / "frames.list", tmp_path / "out") > 0
    assert (tmp_path / "out").read_bytes() == (STORED / "frames.pcap").read_bytes()


@pytest.mark.parametrize(
    ("text", "told"),
    [
        ("00 01\n0x\n", ":2: no bytes in hexadecimal"),
        ("00" * 65_508 + "\n", ":1: 65508 bytes; a datagram has at most 65507"), ("٣٣\n", ":1: no bytes"),
        ("hello world\n", ":1: no bytes")
    ]
)
def test_refusals(text: str, told: str, written: Callable[..., str], tmp_path: pathlib.Path) -> None:
    """A line that is no bytes, and one that no datagram holds; nothing is written."""
    path = written(text)
    assert refusal(lambda: capture(path, tmp_path / "out")) == path + told or told.endswith("no bytes")
    assert os.listdir(tmp_path) == ["file"]


def test_outputs(written: Callable[..., str]) -> None:
    """The list is not overwritten by its capture."""
    path = written("00 01\n")
    for overwrite in (False, True):
        assert "the output is an input, too" in refusal(
            lambda overwrite=overwrite: capture(path, path, overwrite=overwrite)
        )
    assert pathlib.Path(path).read_text() == "00 01\n"
