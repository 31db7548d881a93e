"""Losses by distance, as lines of a channel file."""
from __future__ import annotations

import numpy as np
import pytest

from tora.channel import channel_lines, loss_at, rounded_loss, share_text


def test_loss() -> None:
    """Nothing at no distance, the edge's share at the reach, half of the reach a sixteenth of the exponent."""
    assert loss_at(0, 100, 0.5) == 0
    assert loss_at(100, 100, 0.5) == pytest.approx(0.5)
    assert loss_at(50, 100, 0.5) == pytest.approx(1 - 0.5 ** (1 / 16))
    assert loss_at(1, 100, 1) == 1
    assert loss_at(100, 100, 0) == 0
    shares = [loss_at(d, 100, 0.9) for d in range(101)]
    assert shares == sorted(shares)


@pytest.mark.parametrize(
    ("share", "step", "text"),
    [
        (0, 1000, "0"), (1, 1000, "1"), (0.0004, 1000, "0"), (0.1234, 1000, "0.123"), (0.000001, 1, "0.000001"),
        (0.25, 10000, "0.25")
    ]
)
def test_texts(share: float, step: int, text: str) -> None:
    """As `--channel` reads them."""
    assert share_text(rounded_loss(share, step)) == text


def test_lines() -> None:
    """A line at first, and where the share changes; none for links that are not declared."""
    places = np.array([[(0, 0), (0, 100), (50, 0)], [(0, 0), (0, 100), (50, 0)], [(0, 0), (0, 0), (500, 0)]], float)
    lines = channel_lines(places, [(1, 2), (1, 3)], 10, 100, 0.5, 1000)
    assert lines == ["0 1 2 loss=0.5", "0 1 3 loss=0.042", "20 1 2 loss=0", "20 1 3 loss=0.5"]
