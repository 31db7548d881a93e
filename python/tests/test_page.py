"""The page that plays a run: what it holds is what the trace has, and it loads nothing."""
from __future__ import annotations

import html.parser
import re
from pathlib import Path

import numpy as np
import pytest

from conftest import STORED
from tora.cli import main
from tora.errors import StudyError, UsageError
from tora.page import page_text, places_by_force, places_by_hand, read_page
from tora.records import record_text
from tora.scenario import Scenario
from tora.trace import Trace

NAMES = ["6-1", "6-2", "7-9", "8-1", "8-2"]


def written(folder: Path, name: str = "7-9") -> Path:
    """The page of a stored run."""
    path = folder / f"{name}.html"
    path.write_text(page_text(name, Scenario.read(STORED / f"{name}.json"), Trace.read(STORED / f"{name}.trace")), encoding="utf-8")
    return path


@pytest.mark.parametrize("name", NAMES)
def test_a_page_holds_the_trace(tmp_path: Path, name: str) -> None:
    """Its records are the lines of the trace, its places those of the scenario in tenths of a metre."""
    page, scenario = read_page(written(tmp_path, name)), Scenario.read(STORED / f"{name}.json")
    assert [record_text(record) for record in page.records] == (STORED / f"{name}.trace").read_text().splitlines()
    nodes = [node - 1 for node in scenario.linked]
    assert np.abs(page.places - scenario.positions[:, nodes, :]).max() <= 0.0500001
    assert page.run["links"] == [list(link) for link in scenario.links] and page.run["rounds"] == scenario.rounds


def test_a_page_loads_nothing(tmp_path: Path) -> None:
    """No source, no link and no import but data, and the policy that forbids it; a title is text."""
    text = written(tmp_path).read_text()
    assert not re.search(r'(src|href)="[^d][^"]*"|https?://|@import|url\(', text)
    assert "default-src 'none'" in text
    titled = page_text("a <b> & c", Scenario.read(STORED / "6-1.json"), Trace.read(STORED / "6-1.trace"))
    found: list[str] = []

    class Parser(html.parser.HTMLParser):
        """Collects tags."""

        def handle_starttag(self, tag: str, attrs: list[tuple[str, str | None]]) -> None:
            """Takes a tag."""
            found.append(tag)

    Parser().feed(titled)
    assert "b" not in found and "<title>a &lt;b&gt; &amp; c</title>" in titled


def test_packets_have_three_colours_and_a_legend() -> None:
    """QRY, UPD and CLR are told apart by colours, in light and dark, and the legend says so."""
    files = Path(__file__).parents[1] / "src" / "tora" / "page" / "files"
    style, legend = (files / "page.css").read_text(), (files / "legend.js").read_text()
    for names in re.findall(r"--query: (#\w+); --update: (#\w+); --clear: (#\w+)", style):
        assert len(set(names)) == 3
    assert len(re.findall("--query:", style)) == 3
    for kind, sign in (("QRY", "blue circle"), ("UPD", "orange square"), ("CLR", "purple triangle")):
        assert f"{kind} of the round: {sign}" in legend


def test_runs_without_motion(tmp_path: Path) -> None:
    """A trace alone, and a simulation file; by force, and by hand."""
    trace = Trace.read(STORED / "7-9.trace")
    for scenario in (Scenario.from_trace(trace), Scenario.from_simulation(STORED / "7-9.sim")):
        text = page_text("x", scenario, trace)
        (tmp_path / "x.html").write_text(text)
        page = read_page(tmp_path / "x.html")
        assert page.places.shape == (1, len(scenario.linked), 2) and len(page.records) == len(trace)
    places = tmp_path / "places"
    places.write_text("# by hand\n" + "".join(f"{node} {node}.5 -3 # here\n" for node in range(1, 8)))
    (tmp_path / "y.html").write_text(page_text("y", Scenario.from_simulation(STORED / "7-9.sim"), trace, places))
    assert read_page(tmp_path / "y.html").places[0].tolist() == [[node + 0.5, -3] for node in range(1, 8)]
    with pytest.raises(UsageError, match="--place is for runs without motion"):
        page_text("z", Scenario.read(STORED / "7-9.json"), trace, places)


def test_places_by_force() -> None:
    """The same links give the same places; linked nodes stand nearer than others, and none stands on another."""
    links = [(1, 2), (2, 3), (3, 4), (4, 5), (5, 6)]
    found = places_by_force([1, 2, 3, 4, 5, 6], links)
    assert (found == places_by_force([1, 2, 3, 4, 5, 6], links)).all()
    far = np.hypot(*(found[:, None] - found[None]).transpose(2, 0, 1))
    assert max(far[a - 1, b - 1] for a, b in links) < far[0, 5]
    assert far[~np.eye(6, dtype=bool)].min() > 20


@pytest.mark.parametrize(
    ("text", "cause"),
    [
        ("1 0 0\n2 x 0\n", ":2: X or Y is no number"), ("1 0 0\n1 1 1\n", ":2: node 1 has a place already"), ("1 0 0\n", "there is no place of node 2"),
        ("9 0 0\n", ":1: `9` is no node of the run"), ("1 0\n", ":1: 2 words, not NODE X Y"), ("1 2e6 0\n", ":1: a place is not"), ("1 nan 0\n", ":1: a place is not"),
    ],
)
def test_refused_places(tmp_path: Path, text: str, cause: str) -> None:
    """With the file and the line."""
    path = tmp_path / "places"
    path.write_text(text)
    with pytest.raises(StudyError) as caught:
        places_by_hand(path, [1, 2])
    assert str(caught.value).startswith(str(path)) and cause in str(caught.value)


def test_refused_pages(tmp_path: Path) -> None:
    """A file that is no page, one whose data are cut, and one whose data are damaged."""
    path = tmp_path / "page.html"
    path.write_text("nothing")
    with pytest.raises(StudyError, match="no page that plays a run"):
        read_page(path)
    text = written(tmp_path).read_text()
    data = re.search(r'<script id="trace" type="application/octet-stream">(.*?)</script>', text, re.DOTALL)
    assert data
    path.write_text(text.replace(data[1], data[1][:400] + "\n"))
    with pytest.raises(StudyError, match="cut|damaged"):
        read_page(path)
    path.write_text(text.replace('"rounds":', '"rounds":-'))
    with pytest.raises(StudyError, match="damaged"):
        read_page(path)


def test_runs_that_do_not_fit() -> None:
    """The trace of another scenario, with its line."""
    with pytest.raises(StudyError, match="7-9.trace:4: no link of the scenario"):
        page_text("x", Scenario.read(STORED / "6-1.json"), Trace.read(STORED / "7-9.trace"))


def test_outputs_do_not_overwrite(tmp_path: Path, capsys: pytest.CaptureFixture[str]) -> None:
    """A page is no input, by another name either; it is not overwritten unasked; and on bad input nothing is written."""
    scenario, trace, link = tmp_path / "a.json", tmp_path / "a.trace", tmp_path / "link"
    for path in (scenario, trace):
        path.write_bytes((STORED / f"6-1{path.suffix}").read_bytes())
    link.symlink_to(trace)
    for output in (trace, scenario, link):
        assert main(["page", str(scenario), str(trace), "-o", str(output), "--overwrite"]) == 2
        assert "the output is an input, too" in capsys.readouterr().err
    assert trace.read_bytes() == (STORED / "6-1.trace").read_bytes()
    page = tmp_path / "page.html"
    page.write_text("mine")
    assert main(["page", str(scenario), str(trace), "-o", str(page)]) == 2
    assert page.read_text() == "mine"
    assert main(["page", str(scenario), str(trace), "-o", str(page), "--overwrite"]) == 0
    capsys.readouterr()
    assert main(["page", "--read", str(page)]) == 0
    assert capsys.readouterr().out == trace.read_text()
    trace.write_text(trace.read_text()[:-5])
    assert main(["page", str(trace), "-o", str(tmp_path / "new.html")]) == 1
    assert not (tmp_path / "new.html").exists() and not list(tmp_path.glob("*.part"))
