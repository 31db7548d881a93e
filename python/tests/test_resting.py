"""The time to rest, worked out by hand from the definition in tora.resting."""
from __future__ import annotations

from collections.abc import Callable
from typing import Any

import pandas as pd
import pytest
from conftest import scenario_of

from tora.metrics import measure, time_to_rest
from tora.resting import quiet_ticks
from tora.trace import Trace

# 1 - 2 - 3. Node 1 asks for 3, the link 2 - 3 is parted after round 20 and is noticed in round 70; the last clear is that of round 73.
TEXT = """\
0 need 1 3
1 up 1 2 1 1
1 up 2 1 1 1
1 qry 1 3 1
2 qry 2 3 2
3 upd 2 3 2 (0,0,0,1,2)
3 route 2 3 (0,0,0,1,2) 3
4 upd 1 3 1 (0,0,0,2,1)
4 route 1 3 (0,0,0,2,1) 2
20 part 2 3
30 part 2 3
70 down 2 3 1 1
70 upd 2 3 1 (70,2,0,0,2)
70 route 2 3 (70,2,0,0,2) -
72 upd 1 3 1 (70,2,1,0,1)
72 route 1 3 (70,2,1,0,1) -
73 clr 2 3 1 70 2
73 route 2 3 - -
"""
LAST = "200 frames 4 0 0 0\n"
Table = Callable[..., pd.DataFrame]


@pytest.fixture
def table(written: Callable[..., str]) -> Table:
    """The table of a trace of 200 rounds, and the row of the run."""
    def run(text: str, rounds: int = 200, **more: Any) -> tuple[pd.DataFrame, dict[str, Any]]:
        scenario, trace = scenario_of(links=[(1, 2), (2, 3)], flows=[(1, 3)], rounds=rounds, **more), Trace.read(
            written(text)
        )
        return time_to_rest(scenario, trace), measure(scenario, trace).row

    return run


def values(found: pd.DataFrame) -> dict[str, Any]:
    """The only row of a table."""
    (row,) = found.astype(object).where(found.notna(), None).to_dict("records")
    return row


def test_after_a_parting(table: Table) -> None:
    """The last change is the parting after round 20, and not the same line again; three packets follow, the last one
    in round 73.
    """
    found, row = table(TEXT + LAST)
    assert values(found) == {
        "destination": 3, "last_change": 20, "last_control": 73, "rest_ticks": 53, "control_after_change": 3,
        "query_after_change": 0,
        "update_after_change": 2, "clear_after_change": 1, "loops_at_rest": 0, "dead_ends_at_rest": 0,
        "is_at_rest": True,
    }
    assert [
        row[name] for name in ("at_rest", "rest_ticks", "control_after_change", "loops_at_rest", "dead_ends_at_rest")
    ] == [1, 53, 3, 0, 0]


def test_after_a_need(table: Table) -> None:
    """Each need of the destination is a change, also one that was there before; needs of others are none."""
    found = values(table(TEXT + "90 need 1 3\n91 qry 1 3 1\n92 qry 2 3 1\n95 need 1 2\n" + LAST)[0])
    assert [
        found[name] for name in (
            "last_change", "last_control", "rest_ticks", "control_after_change", "query_after_change"
        )
    ] == [90, 92, 2, 2, 2]


def test_after_a_mending(table: Table) -> None:
    """A link that is mended is a change; one that is mended while it is not parted is none. No packet follows: the time
    is 0.
    """
    found = values(table(TEXT + "80 mend 2 3\n85 mend 2 3\n" + LAST)[0])
    assert [
        found[name] for name in ("last_change", "last_control", "rest_ticks", "control_after_change", "is_at_rest")
    ] == [80, None, 0, 0, True]


def test_dead_ends_and_loops(table: Table) -> None:
    """With a path: node 1 points at 2, which has no next hop; and then 1 and 2 point at each other."""
    text = "0 need 1 3\n1 route 1 3 (0,0,0,2,1) 2\n" + LAST
    assert [values(table(text)[0])[name] for name in ("loops_at_rest", "dead_ends_at_rest")] == [0, 1]
    assert [values(table("0 need 1 3\n" + LAST)[0])[name] for name in ("loops_at_rest", "dead_ends_at_rest")] == [0, 1]
    text = "0 need 1 3\n1 route 1 3 (0,0,0,2,1) 2\n1 route 2 3 - 1\n" + LAST
    assert [values(table(text)[0])[name] for name in ("loops_at_rest", "dead_ends_at_rest")] == [1, 0]


@pytest.mark.parametrize(
    "line", ["clr 2 3 1 90 1", "qry 1 3 1", "route 1 3 - 2", "up 1 2 1 1", "down 1 2 1 1", "frames 1 1 0 0", "mend 2 3"]
)
def test_not_known_to_be_at_rest(line: str, table: Table) -> None:
    """Where something has happened shortly before the end, more may follow: no time is told. 65 ticks later it is."""
    found, row = table(f"{TEXT}136 {line}\n{LAST}")
    assert values(found)["is_at_rest"] is False
    assert [values(found)[name] for name in ("rest_ticks", "loops_at_rest", "dead_ends_at_rest")] == [None, None, None]
    assert [row[name] for name in ("at_rest", "rest_ticks", "loops_at_rest", "dead_ends_at_rest")] == [
        0, None, None, None
    ]
    assert values(table(f"{TEXT}135 {line}\n{LAST}")[0])["is_at_rest"] is True


def test_packets_of_a_storm_are_counted(table: Table) -> None:
    """Where packets never end, those until the end are counted."""
    storm = "".join(f"{clock} qry 1 3 1\n" for clock in range(74, 201))
    row = table(TEXT + storm)[1]
    assert (row["at_rest"], row["control_after_change"], row["rest_ticks"]) == (0, 3 + 127, None)


def test_delay_of_the_channel(written: Callable[..., str]) -> None:
    """The greatest delay of the channel counts: what is under way for so long may still come."""
    text = f"0 trace 1 10 50 5 8 0 1 30 0 7 0\n{TEXT}{LAST}200 end {'0' * 64}\n"
    scenario, trace = scenario_of(links=[(1, 2), (2, 3)], flows=[(1, 3)], rounds=200), Trace.read(written(text))
    assert quiet_ticks(scenario, trace) == 95 and bool(time_to_rest(scenario, trace)["is_at_rest"].all())


def test_several_destinations(written: Callable[..., str]) -> None:
    """The row has the longest time and the sums of all destinations, and no time where one of them is not known to be
    at rest.
    """
    scenario = scenario_of(links=[(1, 2), (2, 3)], flows=[(1, 3), (3, 1)], rounds=200)
    one, other = "30 need 3 1\n31 qry 3 1 1\n", "150 upd 2 1 2 (0,0,0,1,2)\n"
    lines = (TEXT + one).splitlines(True)
    text = "".join(sorted(lines, key=lambda line: int(line.split()[0]))) + LAST
    row = measure(scenario, Trace.read(written(text))).row
    assert [row[name] for name in ("at_rest", "rest_ticks", "control_after_change")] == [1, 53, 4]
    text = "".join(sorted([*lines, other], key=lambda line: int(line.split()[0]))) + LAST
    row = measure(scenario, Trace.read(written(text))).row
    assert [row[name] for name in ("at_rest", "rest_ticks", "control_after_change")] == [0, None, 5]
