"""Pictures of control packets over time: what is drawn is what the trace has, counted by hand."""
from __future__ import annotations

import re
from collections.abc import Callable
from pathlib import Path

import pytest
from conftest import STORED

from tora.broadcasts import SIGNS, broadcasts
from tora.cli import main
from tora.errors import UsageError
from tora.trace import Trace

# Three queries in the first second, the rounds 1 to 10; updates and clears of two nodes; a query of another destination.
TEXT = """\
1 qry 1 9 1
9 qry 2 9 1
10 qry 1 9 1
12 upd 5 9 1 (0,0,0,1,5)
12 qry 1 8 1
31 clr 2 9 1 7 2
35 upd 1 9 1 (0,0,0,2,1)
40 frames 1 0 0 0
"""


@pytest.fixture
def trace(written: Callable[..., str]) -> Trace:
    """The trace of the text."""
    return Trace.read(written(TEXT))


def test_broadcasts_by_second(trace: Trace) -> None:
    """Rounds 1 to 10 are the first second, 11 to 20 the next, to whose end a line goes; of one destination alone where it is told."""
    (panel,) = broadcasts(trace, 9).axes
    drawn = {line.get_label(): line.get_ydata().tolist() for line in panel.lines}
    assert drawn == {"QRY": [3, 0, 0, 0, 0], "UPD": [0, 1, 0, 1, 1], "CLR": [0, 0, 0, 1, 1]}
    (panel,) = broadcasts(trace).axes
    assert panel.lines[0].get_ydata().tolist() == [3, 1, 0, 0, 0]


def test_broadcasts_by_node(trace: Trace) -> None:
    """In the rounds 9 to 31 nodes 1, 2 and 5 broadcast; each kind has its sign, a little aside of the others."""
    panel = broadcasts(trace, 9, (9, 31)).axes[1]
    drawn = {line.get_label(): (line.get_marker(), line.get_xdata().tolist(), line.get_ydata().tolist()) for line in panel.lines}
    assert [text.get_text() for text in panel.get_yticklabels()] == ["node 1", "node 2", "node 5"]
    assert drawn["QRY"] == ("o", [9, 10], pytest.approx([1 - 0.22, 0 - 0.22]))
    assert drawn["UPD"] == ("s", [12], [2]) and drawn["CLR"] == ("^", [31], pytest.approx([1.22]))


def test_colours_are_those_of_the_page() -> None:
    """The page of a run has them in its style."""
    style = (Path(__file__).parents[1] / "src" / "tora" / "page" / "files" / "page.css").read_text()
    names = re.search(r"--query: (#\w+); --update: (#\w+); --clear: (#\w+)", style)
    assert names is not None and [colour for _, _, colour in SIGNS.values()] == list(names.groups())


def test_refusals(trace: Trace, tmp_path: Path, capsys: pytest.CaptureFixture[str]) -> None:
    """A destination without packets, and rounds that are none."""
    with pytest.raises(UsageError, match="for destination 7"):
        broadcasts(trace, 7)
    for rounds in ((5, 4), (0, 41)):
        with pytest.raises(UsageError, match="no rounds of a run of 40"):
            broadcasts(trace, 9, rounds)
    words = ["plot", "packets", str(STORED / "7-9.trace"), "-o", str(tmp_path / "x.png")]
    for told in ("5", "5-x", "5-6-7", ""):
        assert main([*words, "--rounds", told]) == 2
        assert "--rounds" in capsys.readouterr().err
    assert main(words) == 0 and (tmp_path / "x.png").read_bytes().startswith(b"\x89PNG")
    assert main(words) == 2 and "x.png" in capsys.readouterr().err
