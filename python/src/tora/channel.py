"""The lines of a channel file (`tora sim --channel-file`) from the places of nodes: losses that rise with the distance.

The share of datagrams that is lost at the distance d is 1 - (1 - edge) ** ((d / range) ** 4): the chance that the power
of a Rayleigh channel, whose mean falls with the fourth power of the distance (two-ray propagation), is below a
threshold; `edge` is the share at the range (Goldsmith, "Wireless Communications", 2005, chapters 2 and 6). Distances
are those of the samples, and a line is written where the share, rounded to a step, changes.
"""
from __future__ import annotations

import math
from collections.abc import Iterable

import numpy as np
import numpy.typing as npt

MILLION = 1_000_000
STEP = 10_000  # millionths to which a share is rounded
EDGE_LOSS = 0.5  # at the range, where it is not told


def loss_at(distance: float, reach: float, edge: float) -> float:
    """The share that is lost at a distance, which is `edge` at the reach; both are in metres."""
    return float(1 - (1 - edge) ** ((distance / reach) ** 4))


def rounded_loss(share: float, step: int) -> int:
    """A share in millionths, rounded to a multiple of a step of them."""
    return min(MILLION, round(share * MILLION / step) * step)


def share_text(millionths: int) -> str:
    """A share of this many millionths, as `tora sim --channel` reads it."""
    if millionths == MILLION:
        return "1"
    return "0" if millionths == 0 else f"0.{millionths:06}".rstrip("0")


def channel_lines(
    positions: npt.NDArray[np.float64], links: Iterable[tuple[int, int]], sample: int, reach: float, edge: float,
    step: int = STEP
) -> list[str]:
    """The lines ``T A B loss=SHARE`` of links, ordered by time and then by link.

    Parameters
    ----------
    positions : array of float, shape (samples, nodes, 2)
        Metres. Beyond the reach the share is that of the reach: a link is parted there.
    links : pairs of nodes
        Nodes are numbered from 1.
    sample : int
        Rounds that a sample covers.
    reach : float
        Metres.
    edge : float
        The share at the reach, 0 to 1.
    step : int
        Millionths to which shares are rounded.
    """
    links, most = list(links), rounded_loss(loss_at(reach, reach, edge), step)
    last: dict[tuple[int, int], int] = {}
    lines = []
    for at, places in enumerate(positions.tolist()):
        for link in links:
            distance = math.dist(places[link[0] - 1], places[link[1] - 1])
            share = most if distance >= reach else rounded_loss(loss_at(distance, reach, edge), step)
            if last.get(link) != share:
                last[link] = share
                lines.append(f"{at * sample} {link[0]} {link[1]} loss={share_text(share)}")
    return lines
