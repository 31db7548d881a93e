"""What a node prints, line by line: the next hops that `watch` tells, and the state that `json` tells."""
from __future__ import annotations

import dataclasses
import json
import re

from tora.errors import StudyError, shown

HOP = re.compile(r"hop ([1-9][0-9]{0,9}) ([1-9][0-9]{0,9}|-)")


@dataclasses.dataclass
class Hops:
    """The next hops of a node, as it has told them.

    Attributes
    ----------
    hops : dict
        By the destination the next hop, None for none.
    states : int
        How many lines of JSON were read.
    mended : int
        How many of them had other next hops than the lines before.
    """

    hops: dict[int, int | None] = dataclasses.field(default_factory=dict)
    states: int = 0
    mended: int = 0

    def take(self, line: str) -> bool:
        """Reads a line that a node printed; answers whether a next hop has changed.

        Lines of another kind are passed over, as `docs/reference/stability.md` asks.

        Raises
        ------
        StudyError
            Where the line begins as one of these and is not of their form.
        """
        if line.startswith("{"):
            return self._take_state(line)
        if not line.startswith("hop "):
            return False
        found = HOP.fullmatch(line)
        if not found:
            raise StudyError(f"the node printed `{shown(line)}`, which is no line of `watch`")
        destination, hop = int(found[1]), None if found[2] == "-" else int(found[2])
        is_new = self.hops.get(destination) != hop
        self.hops[destination] = hop
        return is_new

    def _take_state(self, line: str) -> bool:
        """Reads a line of JSON."""
        hops = hops_of(line)
        self.states += 1
        is_new = hops != self.hops
        self.mended += is_new and bool(self.hops)
        self.hops = hops
        return is_new


def hops_of(line: str) -> dict[int, int | None]:
    """The next hops in a line of JSON (`docs/status.schema.json`).

    Raises
    ------
    StudyError
        Where it is no JSON, or lacks a member that is read here.
    """
    try:
        state = json.loads(line)
        found = {it["to"]: it["hop"] for it in state["destinations"]}
    except (ValueError, KeyError, TypeError, RecursionError):
        raise StudyError(f"the node printed `{shown(line)}`, which is no state of a node") from None
    for destination, hop in found.items():
        if type(destination) is not int or not (hop is None or type(hop) is int):
            raise StudyError(f"the node printed a state whose next hop of `{shown(str(destination))}` is no node")
    return found
