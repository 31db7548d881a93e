"""Tables of runs: what is read, and what is refused, each in one line with the file and its line."""
from __future__ import annotations

import os
import threading
from pathlib import Path

import pytest

from tora.errors import UsageError
from tora.table import read_table

HEAD = "protocol,nodes,speed,flows,seed,control_rate,delivery"
ROW = "AODV,20,5,5,1,1.25,0.5"


def written(folder: Path, text: str | bytes) -> Path:
    """A file with a text."""
    path = folder / "table.csv"
    path.write_bytes(text if isinstance(text, bytes) else text.encode())
    return path


def test_design_and_measures(tmp_path: Path) -> None:
    """The design of a known table is known; numbers are numbers, and words are words."""
    table = read_table(written(tmp_path, f"{HEAD}\n{ROW}\nTORA:notice=1;waits=1,20,5,5,1,,1\n"))
    assert table.design == ["protocol", "nodes", "speed", "flows"]
    assert table.measures == ["control_rate", "delivery"]
    assert list(table.frame["protocol"]) == ["AODV", "TORA:notice=1;waits=1"]
    assert list(table.frame["speed"]) == [5.0, 5.0]
    assert list(table.frame.index) == [2, 3]
    assert table.frame["control_rate"].isna().tolist() == [False, True]


@pytest.mark.parametrize(
    ("text", "place", "cause"),
    [
        ("", ":1", "the table is empty"),
        ("\n", ":1", "the table is empty"),
        (f"{HEAD}\n", ":1", "the table has no run"),
        (f"{HEAD},nodes\n{ROW},1\n", ":1", "`nodes` is repeated"),
        (f"{HEAD},\n{ROW},1\n", ":1", "a column has no name"),
        (f"{HEAD}\n{ROW}\n{ROW}\n", ":3", "that of line 2: the run would count twice"),
        (f"{HEAD}\n{ROW}\nAODV,20,5.0,5,1,9,0.75\n", ":3", "seed 1 is in line 2, too"),
        (f"{HEAD}\n{ROW}\nAODV,20,5,5,,9,0.75\n", ":3", "the cell of seed is empty"),
        (f"{HEAD}\n{ROW}\nAODV,20,5,5,2,nan,0.75\n", ":3", "the cell of control_rate, `nan`"),
        (f"{HEAD}\n{ROW}\nAODV,20,5,5,2,inf,0.75\n", ":3", "the cell of control_rate, `inf`"),
        (f"{HEAD}\n{ROW}\nAODV,20,5,5,2,1e22,0.75\n", ":3", "no finite number up to 1e+21"),
        (f"{HEAD}\n{ROW}\nAODV,nan,5,5,2,1,0.75\n", ":3", "the cell of nodes is no finite number"),
        (f"{HEAD}\n{ROW}\nAODV,20,5,5,2,far,0.75\n", ":3", "`far`, is no number"),
        (f"{HEAD}\n{ROW}\nAODV,20,5,5,2,1_0,0.75\n", ":3", "`1_0`, is no number"),
        (f"{HEAD}\n{ROW}\nAODV,20,5\n", ":3", "3 cells, not 7"),
        (f"{HEAD},colour\n{ROW},1\n", ":1", "`colour` is of the design or a measure; --design names"),
        ("nodes,hops\n5,1\n", ":1", "--design names"),
        ("protocol,nodes,speed,flows,control_rate\nAODV,20,5,5,1\n", ":1", "there is no column `seed`"),
        (b"nodes,seed\n1,\xff\n", ":2", "no text in UTF-8"),
    ],
)
def test_refusals(tmp_path: Path, text: str | bytes, place: str, cause: str) -> None:
    """An empty table, a line or a run that is repeated, and cells that are no numbers: status 2, one line."""
    path = written(tmp_path, text)
    with pytest.raises(UsageError) as caught:
        read_table(path)
    assert str(caught.value).startswith(f"{path}{place}: ")
    assert cause in str(caught.value)
    assert "\n" not in str(caught.value)
    assert caught.value.status == 2


def test_columns_that_are_not_there(tmp_path: Path) -> None:
    """A column that is asked for and is none, or is no measure."""
    table = read_table(written(tmp_path, f"{HEAD}\n{ROW}\n"))
    for names, cause in ((["lost_radio"], "there is no column `lost_radio`"), (["speed"], "of the design, and no measure")):
        with pytest.raises(UsageError, match=cause):
            table.need_measures(names)
    for wanted, cause in (({"colour": "1"}, "no column"), ({"speed": "7"}, "no run has speed=7"), ({"delivery": "1"}, "is a measure")):
        with pytest.raises(UsageError, match=cause):
            table.where(wanted)


def test_named_design(tmp_path: Path) -> None:
    """The design of another table is named; what is not named is a measure."""
    path = written(tmp_path, "colour,seed,hops\nred,1,2\nblue,1,3\n")
    table = read_table(path, ["colour"])
    assert (table.design, table.measures, table.varied) == (["colour"], ["hops"], ["colour"])
    for design in (["weight"], ["seed"]):
        with pytest.raises(UsageError, match="--design"):
            read_table(path, design)


@pytest.mark.parametrize("text", ["\ufeff" + f"{HEAD}\n{ROW}\n", f"{HEAD}\r\n{ROW}\r\n", f'{HEAD}\n"AODV",20,5,5,1,1.25,0.5\n'])
def test_byte_order_mark_and_quotes(tmp_path: Path, text: str) -> None:
    """A byte order mark, lines of Windows and quotes don't change a table."""
    table = read_table(written(tmp_path, text))
    assert list(table.frame.columns) == HEAD.split(",")
    assert list(table.frame["protocol"]) == ["AODV"]


def test_pipe(tmp_path: Path) -> None:
    """A pipe is read as a file is."""
    path = tmp_path / "pipe"
    os.mkfifo(path)
    writer = threading.Thread(target=path.write_text, args=(f"{HEAD}\n{ROW}\n",))
    writer.start()
    assert len(read_table(path).frame) == 1
    writer.join()
