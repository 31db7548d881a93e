"""The commands of the documents: each is one that tora-study takes, with files that are there."""
from __future__ import annotations

import importlib.util
import re
import shlex
from pathlib import Path
from types import ModuleType

import pytest

from conftest import REPOSITORY
from tora.cli import parser
from tora.studying import study_of

DOCUMENTS = ("tutorial/index", "how-to/cluster", "studies/guide", "studies/reference", "studies/tora", "studies/ns-3", "studies/sparse", "explanation/after-a-partition")


def commands(name: str) -> list[str]:
    """The commands of a document's blocks, with the variables that a block sets."""
    found = []
    for block in re.findall(r"^ *```sh\n(.*?)^ *```", (REPOSITORY / "docs" / f"{name}.md").read_text(), re.DOTALL | re.MULTILINE):
        variables = dict(re.findall(r'^(\w+)="(.*)"$', block, re.MULTILINE))
        for line in block.replace("\\\n", " ").splitlines():
            for part in line.split(" && "):
                if part.strip().startswith(("python/tora-study ", "tora-study ")):
                    found.append(re.sub(r"\$(\w+)", lambda it: variables[it[1]], part.strip()))
    return found


@pytest.mark.parametrize("name", DOCUMENTS)
def test_commands(name: str) -> None:
    """The parser takes every command; a study is one that may be; stored tables are there."""
    held = commands(name)
    assert held
    for command in held:
        words = shlex.split(command, comments=True)[1:]
        told = parser().parse_args(words)
        if told.word == "sweep":
            assert study_of(told).count() > 1
        for word in words:
            if word.startswith("docs/"):
                assert (REPOSITORY / word).is_file()


def test_pictures_are_there() -> None:
    """Each picture that a document shows stands beside it."""
    for name in DOCUMENTS:
        page = REPOSITORY / "docs" / f"{name}.md"
        for path in re.findall(r"!\[[^]]*\]\(([^)]+)\)", page.read_text()):
            assert (page.parent / path).is_file()


@pytest.fixture(scope="module")
def maker() -> ModuleType:
    """The script that makes the pictures and tables of the documents."""
    spec = importlib.util.spec_from_file_location("make", REPOSITORY / "dev" / "studies.py")
    assert spec is not None and spec.loader is not None
    found = importlib.util.module_from_spec(spec)
    spec.loader.exec_module(found)
    return found


def test_tables_are_those_of_the_stored_rows(maker: ModuleType) -> None:
    """Each table that stands in a document is what comes of the stored rows, and each that is made stands in one."""
    standing = [name for path in maker.documents() for name, _, _ in maker.tables_of(path.read_text().split("\n"))]
    assert sorted(standing) == sorted([*maker.TABLES, *maker.WHOLE])
    assert [told for path in maker.documents() for told in maker.make_tables(path, [], True)] == []


def test_a_changed_cell_is_told(maker: ModuleType, tmp_path: Path, monkeypatch: pytest.MonkeyPatch) -> None:
    """A table that differs is told, and written anew with the words of the document."""
    monkeypatch.setattr(maker, "TOP", tmp_path)
    lines = (REPOSITORY / "docs" / "studies" / "tora.md").read_text().split("\n")
    at = next(at for at, line in enumerate(lines) if "made: notice-others" in line)
    table = lines[at:at + 8]
    path = tmp_path / "x.md"
    path.write_text("\n".join([*table[:3], table[3].replace("0.488", "0.489").replace("silence", "hush"), *table[4:]]))
    assert maker.make_tables(path, ["study"], True) == []
    assert maker.make_tables(path, [], True) == ["x.md: table notice-others"] == maker.make_tables(path, [], False)
    assert path.read_text().split("\n") == [*table[:3], table[3].replace("silence", "hush"), *table[4:]]


def test_pictures_are_made(maker: ModuleType) -> None:
    """Each picture of measured rows is one that the script makes; those of ns-3's example and of a storm are drawn by hand."""
    stored = {path.name for path in (REPOSITORY / "docs" / "studies").iterdir() if path.suffix in (".png", ".svg")}
    assert {re.sub("^break-[0-9]+", "break", name) for name in stored} - {"ns3-line.svg", "storm-ring.svg"} == set(maker.PICTURES)
