"""Pictures of the control packets of a run over time: how many of each kind are broadcast, and which node broadcasts what."""
from __future__ import annotations

import numpy as np
import numpy.typing as npt
from matplotlib.axes import Axes
from matplotlib.figure import Figure
from matplotlib.ticker import MaxNLocator

from tora.drawing import styled
from tora.errors import UsageError
from tora.trace import Trace

# Of each kind its name, and the sign and colour that it has on the page of a run.
SIGNS = {"qry": ("QRY", "o", "#0060b0"), "upd": ("UPD", "s", "#e69f00"), "clr": ("CLR", "^", "#b0338a")}
APART = 0.22  # of the room of a node, from the sign of one kind to that of the next
SECOND = 10  # rounds
Numbers = npt.NDArray[np.int64]


@styled
def broadcasts(trace: Trace, destination: int | None = None, rounds: tuple[int, int] | None = None) -> Figure:
    """How many QRY, UPD and CLR are broadcast in each second of a run, and, in some rounds, which node broadcasts what.

    Parameters
    ----------
    trace : Trace
    destination : int, optional
        The packets of this destination alone.
    rounds : pair of int, optional
        The first and the last of the rounds; without them the second panel is not there.
    """
    held = {kind: _of(trace, kind, destination) for kind in SIGNS}
    if not any(clocks.size for clocks, _ in held.values()):
        raise UsageError("no control packet was broadcast" + ("" if destination is None else f" for destination {destination}"), file=trace.path)
    last = int(trace.clocks[-1])
    if rounds is not None and not 0 <= rounds[0] <= rounds[1] <= last:
        raise UsageError(f"{rounds[0]}-{rounds[1]} are no rounds of a run of {last}", key="--rounds")
    figure = Figure(figsize=(9.4, 3.0 if rounds is None else 5.6), dpi=110, layout="constrained")
    figure.suptitle("Control packets" + ("" if destination is None else f" for destination {destination}"), fontsize=10)
    panels = figure.subplots(1 if rounds is None else 2, 1, squeeze=False)[:, 0]
    _draw_seconds(panels[0], held, last)
    if rounds is not None:
        _draw_nodes(panels[1], held, rounds)
        panels[0].axvspan(rounds[0] / SECOND, rounds[1] / SECOND, color="#000000", alpha=0.08, linewidth=0)
    return figure


def _of(trace: Trace, kind: str, destination: int | None) -> tuple[Numbers, Numbers]:
    """The rounds and the nodes of the broadcasts of a kind."""
    nodes, destinations = trace.columns[kind][:2]
    chosen = np.full(len(nodes), True) if destination is None else destinations == destination
    return trace.clocks[trace.places(kind)][chosen], nodes[chosen]


def _draw_seconds(panel: Axes, held: dict[str, tuple[Numbers, Numbers]], last: int) -> None:
    """Broadcasts of each kind by seconds, of ten rounds each."""
    for kind, (clocks, _) in held.items():
        name, _, colour = SIGNS[kind]
        counts = np.bincount(np.maximum(clocks - 1, 0) // SECOND, minlength=-(-last // SECOND))
        panel.step(np.arange(len(counts) + 1), [*counts, counts[-1]], where="post", color=colour, linewidth=1.3, label=name)
    panel.set_xlabel("seconds of the run")
    panel.set_ylabel("broadcasts in a second")
    panel.set_ylim(bottom=0)
    panel.legend(fontsize=8, loc="upper right")


def _draw_nodes(panel: Axes, held: dict[str, tuple[Numbers, Numbers]], rounds: tuple[int, int]) -> None:
    """Which node broadcasts what in some rounds."""
    parts = {kind: (clocks >= rounds[0]) & (clocks <= rounds[1]) for kind, (clocks, _) in held.items()}
    nodes = sorted({int(node) for kind, (_, senders) in held.items() for node in senders[parts[kind]]})
    for at, (kind, (clocks, senders)) in enumerate(held.items()):
        name, sign, colour = SIGNS[kind]
        places = np.searchsorted(nodes, senders[parts[kind]]) + (at - 1) * APART
        panel.plot(clocks[parts[kind]], places, linestyle="none", marker=sign, markersize=5, color=colour, label=name)
    panel.set_yticks(range(len(nodes)), [f"node {node}" for node in nodes])
    panel.set_ylim(len(nodes) - 0.5, -0.5)
    panel.set_xlim(rounds[0] - 0.5, rounds[1] + 0.5)
    panel.xaxis.set_major_locator(MaxNLocator(integer=True))
    panel.set_xlabel("round (100 ms)")
