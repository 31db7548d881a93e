"""The options of a run beside its simulation file.

They are the channel, the notice of parted links, the last round, and how nodes treat erased levels.
"""
from __future__ import annotations

import dataclasses

from tora.bounds import MOST_TICKS, check_number, check_whole
from tora.errors import UsageError, shown
from tora.files import Path

MOST_DELAY = 10_000  # rounds
MILLION = 1_000_000
ERASURES = ("plain", "remembered")


@dataclasses.dataclass(frozen=True)
class Simulation:
    """How ``tora sim`` runs a simulation file.

    Attributes
    ----------
    loss : float, optional
        The share of datagrams that never come, from 0 to 1, a multiple of 0.000001.
    repeat : float, optional
        The share of the others that come twice, likewise.
    delay : int or tuple of int, optional
        After how many rounds a datagram comes, or the least and the most of them; 0 to 10,000.
    channel_seed : int, optional
        The seed of the random numbers of the channel, 0 by default; it needs a channel.
    notice : bool
        Whether both ends of a link cut its life when it is parted.
    until : int, optional
        The round with which the run ends, from 1.
    channel_file : path, optional
        A file of losses by link and round.
    erasure : str, optional
        How nodes treat erased reference levels: ``plain``, the default, or ``remembered``.
    """

    loss: float | None = None
    repeat: float | None = None
    delay: int | tuple[int, int] | None = None
    channel_seed: int | None = None
    notice: bool = False
    until: int | None = None
    channel_file: Path | None = None
    erasure: str | None = None

    def words(self) -> list[str]:
        """The options of ``tora sim``.

        Raises
        ------
        UsageError
            Where a value is beyond its bounds, or two don't go together.
        """
        parts = []
        for name, share in (("loss", self.loss), ("repeat", self.repeat)):
            parts += [] if share is None else [f"{name}={_share_text(name, share)}"]
        parts += [] if self.delay is None else [f"delay={_delay_text(self.delay)}"]
        words = ["--channel", ",".join(parts)] if parts else []
        if self.channel_file is not None:
            words += ["--channel-file", str(self.channel_file)]
        if self.channel_seed is not None:
            if not words:
                raise UsageError("it needs a channel: loss, repeat, delay, or a channel file", key="channel_seed")
            words += ["--seed", str(check_whole("channel_seed", self.channel_seed, 0, MOST_TICKS))]
        if self.notice:
            words.append("--notice")
        if self.until is not None:
            words += ["--until", str(check_whole("until", self.until, 1, MOST_TICKS))]
        if self.erasure is not None:
            words += ["--erasure", check_erasure(self.erasure)]
        return words


def check_erasure(word: str) -> str:
    """A treatment of erased levels, if the word names one."""
    if word not in ERASURES:
        raise UsageError(f"`{shown(word)}` is not {ERASURES[0]} or {ERASURES[1]}", key="erasure")
    return word


def _share_text(name: str, share: float) -> str:
    """A share as the program reads it."""
    parts = round(check_number(name, share, 0, 1) * MILLION)
    if abs(share * MILLION - parts) > 1e-6:
        raise UsageError(f"{share} is no multiple of 0.000001", key=name)
    return "1" if parts == MILLION else "0" if parts == 0 else f"0.{parts:06}".rstrip("0")


def _delay_text(delay: int | tuple[int, int]) -> str:
    """A delay as the program reads it."""
    least, most = delay if isinstance(delay, tuple) else (delay, delay)
    for value in (least, most):
        check_whole("delay", value, 0, MOST_DELAY)
    if least > most:
        raise UsageError(f"the least, {least}, is above the most, {most}", key="delay")
    return f"{least}-{most}" if least != most else str(most)
