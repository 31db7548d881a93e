"""The options of `tora sim`: their spelling, their bounds, and which go together."""
from __future__ import annotations

from typing import Any

import pytest
from conftest import refusal

from tora.simulation import Simulation


@pytest.mark.parametrize(
    ("given", "words"),
    [
        ({}, []), ({"loss": 0.1}, ["--channel", "loss=0.1"]), ({"loss": 0}, ["--channel", "loss=0"]),
        ({"loss": 1}, ["--channel", "loss=1"]),
        ({"loss": 0.000001}, ["--channel", "loss=0.000001"]), ({"delay": 3}, ["--channel", "delay=3"]),
        ({"delay": (0, 2)}, ["--channel", "delay=0-2"]),
        ({"delay": (2, 2)}, ["--channel", "delay=2"]),
        (
            {"loss": 0.1, "repeat": 0.05, "delay": (0, 2), "channel_seed": 7},
            ["--channel", "loss=0.1,repeat=0.05,delay=0-2", "--seed", "7"]
        ),
        (
            {"channel_file": "f", "channel_seed": 0, "notice": True, "until": 5},
            ["--channel-file", "f", "--seed", "0", "--notice", "--until", "5"]
        ),
        ({"erasure": "plain"}, ["--erasure", "plain"]), ({"until": 2, "erasure": "remembered"}, ["--until", "2", "--erasure", "remembered"]),
    ],
)
def test_words(given: dict[str, Any], words: list[str]) -> None:
    """As the program reads them."""
    assert Simulation(**given).words() == words


@pytest.mark.parametrize(
    ("given", "name"),
    [
        ({"loss": -0.1}, "loss"), ({"loss": 1.1}, "loss"), ({"loss": float("nan")}, "loss"), ({"loss": "0.1"}, "loss"),
        ({"loss": True}, "loss"),
        ({"loss": 0.12345678}, "loss"), ({"repeat": 2}, "repeat"), ({"delay": -1}, "delay"),
        ({"delay": 10_001}, "delay"), ({"delay": (3, 2)}, "delay"),
        ({"delay": 1.5}, "delay"), ({"channel_seed": 7}, "channel_seed"),
        ({"loss": 0.1, "channel_seed": -1}, "channel_seed"),
        ({"loss": 0.1, "channel_seed": 2**64}, "channel_seed"), ({"notice": True, "channel_seed": 1}, "channel_seed"),
        ({"until": 0}, "until"),
        ({"until": 2**64}, "until"), ({"until": True}, "until"), ({"erasure": "none"}, "erasure"), ({"erasure": ""}, "erasure"),
    ],
)
def test_refusals(given: dict[str, Any], name: str) -> None:
    """A value beyond its bounds, and a seed without a channel, are named."""
    assert refusal(Simulation(**given).words).startswith(f"{name}: ")
