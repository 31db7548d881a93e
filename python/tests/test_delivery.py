"""The packets of three nodes in a line, worked out by hand from the definition in tora.delivery."""
from __future__ import annotations

from collections.abc import Callable
from typing import Any

import pytest
from conftest import refusal, scenario_of

from tora.delivery import Load
from tora.metrics import measure
from tora.trace import Trace

# 1 - 2 - 3, and all packets go from 1 to 3. The link 2 - 3 is parted in the rounds 4 to 6, the next hop of node 2 is gone
# at the ends of the rounds 5 and 6.
LINE = """\
0 qry 1 3 1
1 upd 2 3 2 (0,0,0,1,2)
1 route 2 3 (0,0,0,1,2) 3
1 upd 1 3 1 (0,0,0,2,1)
1 route 1 3 (0,0,0,2,1) 2
3 part 2 3
5 clr 2 3 2 4 1
5 route 2 3 - -
6 mend 2 3
7 route 2 3 (0,0,0,1,2) 3
"""
CIRCLE = "1 route 1 3 - 2\n1 route 2 3 - 1\n"
Figures = Callable[..., dict[str, Any]]


@pytest.fixture
def figures(written: Callable[..., str]) -> Figures:
    """The columns of the packets of a run; a packet a tick is ten a second, and figures are of eight rounds."""
    def run(text: str, rate: str, hop: int = 1, ttl: int = 32, rounds: int = 8) -> dict[str, Any]:
        scenario = scenario_of(links=[(1, 2), (2, 3)], flows=[(1, 3)], rounds=rounds)
        return measure(scenario, Trace.read(written(text)), Load.of(rate, hop, ttl)).row

    return run


def test_line_with_a_parting(figures: Figures) -> None:
    """Sent in 1, 2: delivered. In 3: parted. In 4, 5: no hop. In 6: delivered. In 7, 8: under way."""
    row = figures(LINE, "10")
    assert [row[name] for name in ("sent", "delivered", "under_way")] == [8, 3, 2]
    assert [row[name] for name in ("lost_parted", "lost_no_hop", "lost_loop", "lost_ttl")] == [1, 2, 0, 0]
    assert row["delivery_ratio"] == 0.375
    assert [row[name] for name in ("delay_median", "delay_95", "delivered_hops_mean")] == [2, 2, 2.0]


def test_control_overhead(figures: Figures) -> None:
    """One QRY, two UPD and one CLR, and 1 + 2 + 1 + 2 copies, by three packets."""
    row = figures(LINE, "10")
    assert [row["control_per_delivered"], row["control_copies_per_delivered"]] == [1.3333, 2.0]


def test_hop_of_two_ticks(figures: Figures) -> None:
    """Looked at every two ticks. Sent in 1: at 2 in 3, at 3 in 5. In 2: parted in 4. In 3, 4: no hop in 5, 6. In 5 at 2
    in 7, and in 6 at 2 in 8: both leave, and are under way with those of 7 and 8."""
    row = figures(LINE, "10", hop=2)
    assert [row[name] for name in ("delivered", "lost_parted", "lost_no_hop", "under_way")] == [1, 1, 2, 4]
    assert row["delay_median"] == 4


def test_sending_ticks(figures: Figures) -> None:
    """Four a second are sent at 0, 0.25, 0.5 and 0.75 s: in the ticks 1, 3, 6 and 8; in ten rounds four, in eleven
    five.
    """
    assert [figures(LINE, "4", rounds=rounds)["sent"] for rounds in (1, 2, 3, 5, 6, 7, 8, 10, 11)] == [
        1, 1, 2, 2, 3, 3, 4, 4, 5
    ]
    assert figures(LINE, "25", rounds=2)["sent"] == 5


def test_loop(figures: Figures) -> None:
    """1, 2 and then 1 again: those of 1 to 6 are lost two ticks later, those of 7 and 8 are under way."""
    row = figures(CIRCLE, "10")
    assert [row[name] for name in ("sent", "lost_loop", "under_way", "delivered")] == [8, 6, 2, 0]
    assert [row[name] for name in ("delay_median", "delivered_hops_mean", "control_per_delivered")] == [
        None, None, None
    ]


def test_end_of_life(figures: Figures) -> None:
    """With one hop to make each packet ends at node 2, one tick later; with two it comes to node 3."""
    assert figures(LINE, "10", ttl=1)["lost_ttl"] == 7
    assert figures(LINE, "10", ttl=2)["lost_ttl"] == 0


def test_columns_without_traffic_are_the_same(written: Callable[..., str]) -> None:
    """The columns of packets are added to those that were there."""
    scenario, trace = scenario_of(links=[(1, 2), (2, 3)], flows=[(1, 3)], rounds=8), Trace.read(written(LINE))
    row, more = measure(scenario, trace).row, measure(scenario, trace, Load.of("1", 1, 1)).row
    assert row == {name: more[name] for name in row}


@pytest.mark.parametrize(
    "rate",
    ["0", "none", "-1", "nan", "1e300", "1.", ".5", "9" * 10, "", "1.0000000001", 0.0, -1.0, float("nan"), float("inf")]
)
def test_rates(rate: str | float) -> None:
    """Rates that are none."""
    assert refusal(lambda: Load.of(rate)).startswith("traffic: ")


def test_loads() -> None:
    """Numbers and their texts are the same rate; hops are bounded, and stand with a rate alone."""
    assert Load.of(0.5) == Load.of("0.5") and Load.of(4) == Load.of("4")
    assert Load.asked(None, None, None) is None
    for call, name in (
        (lambda: Load.of(1, 0), "hop"), (lambda: Load.of(1, 1, 2**64), "ttl"),
        (lambda: Load.asked(None, 3, None), "hop"), (lambda: Load.asked(None, None, 3), "ttl")
    ):
        assert refusal(call).startswith(f"{name}: ")
