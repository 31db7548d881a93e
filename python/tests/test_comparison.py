"""The tables of the ns-3 comparison, by hand."""
from __future__ import annotations

import numpy as np
import pytest

from tora.columns import design_of
from tora.comparison import judged, report
from tora.errors import UsageError
from tora.metrics import columns
from tora.table import Table, table_of


def table(runs: int = 6) -> Table:
    """AODV, OLSR and a TORA at two speeds; TORA delivers 2 points more than AODV, and sends twice the control bytes."""
    head = "protocol,nodes,speed,flows,seed,sent,received,delivery,delay_95,control_rate,packets_per_packet,stretch"
    rows = [
        f"{protocol},20,{speed},5,{seed},100,{90 - speed},{0.9 - speed / 100 + more / 100 + seed / 1000},{seed},{rate * seed},1,1"
        for protocol, more, rate in (("TORA:notice=1;waits=1", 2, 2), ("OLSR", 1, 1), ("AODV", 0, 1)) for speed in (0, 5) for seed in range(1, runs + 1)
    ]
    return table_of("\n".join([head, *rows]).encode(), "t.csv")


def test_judged() -> None:
    """Met where the whole interval meets the bound, missed where no part of it does, else open; nothing is said of few pairs."""
    spread = np.arange(-1, 1.01, 0.1)  # the interval of its mean is within -0.3 and 0.3
    for middle, is_least, wanted in ((0, True, "met"), (-2, True, "open"), (-4, True, "missed"), (-4, False, "met"), (-2, False, "open"), (0, False, "missed")):
        assert judged(spread + middle, -2, is_least) == wanted
    assert judged(spread[:9], -2, True) == "-" and judged(np.zeros(20), -2, True) == "-"


def test_aims_by_hand() -> None:
    """Pairs of one seed and speed; each pair differs by the same, so that there is no interval and nothing is judged."""
    lines = report(table(), "aims", "TORA:notice=1,waits=1")
    assert lines[4] == "| TORA:notice=1,waits=1 | 0 m/s | 6 | 2.00 | - | 2.00 | - | 6 | 1.00 | - |"
    assert lines[6].startswith("| TORA:notice=1,waits=1 | mean of the 2 speeds | 6 | 2.00 |")


def test_runs_by_hand() -> None:
    """Protocols stand in their order, with the mean and the least of each."""
    lines = report(table(), "runs")
    assert [line.split(" | ")[0] for line in lines[4:7]] == ["| AODV", "| OLSR", "| TORA:notice=1,waits=1"]
    assert lines[4].startswith("| AODV | 0 m/s | 6 | 0.903 [0.90") and " | 0.901 | 3.50 [" in lines[4]
    assert " | 1.00 | 3.5 [" in lines[4]  # equal values have no interval
    assert "[" not in report(table(4), "runs")[4]


def test_refusals() -> None:
    """A protocol that is not there, a column that is not there, and several sizes."""
    for call, cause in ((lambda: report(table(), "aims", "TORA:salvage=1"), "there is no run of TORA:salvage=1"), (lambda: report(table(), "losses"), "there is no column `lost_radio`")):
        with pytest.raises(UsageError, match=cause):
            call()


def test_the_columns_of_measures_are_known() -> None:
    """Each column that a run is measured by is of the design, or a measure with a label."""
    for traffic in (False, True):
        assert design_of(columns(traffic)) is not None
