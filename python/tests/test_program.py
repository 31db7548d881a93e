"""The program: how it is found, and that one that fails, says nothing or does not end is an error."""
from __future__ import annotations

import os
import pathlib
import time
from collections.abc import Callable

import pytest
from conftest import REPOSITORY, refusal

import tora
from tora.errors import UsageError
from tora.program import Program

Script = Callable[..., Program]


def test_finding(tmp_path: pathlib.Path, script: Script, monkeypatch: pytest.MonkeyPatch) -> None:
    """The argument comes first, then TORA, then the repository's launcher, then PATH."""
    path = script("exit 0").words[0]
    monkeypatch.setenv("TORA", f"'{path}' -v")
    assert Program.find(path) == Program((path,)) and Program.find([path, "x"]) == Program((path, "x"))
    assert Program.find() == Program((path, "-v"))
    monkeypatch.delenv("TORA")
    assert Program.find().words == (str(REPOSITORY / "tora"),)
    monkeypatch.setattr("tora.program._words_of_repository", list)
    monkeypatch.setenv("PATH", str(tmp_path))
    assert "there is no such program" in refusal(Program.find)
    (tmp_path / "tora").symlink_to(path)
    assert Program.find() == Program((f"{tmp_path}/tora",))


@pytest.mark.parametrize(
    ("words", "told"), [("'x", "TORA: No closing quotation"), ("/none/tora", "/none/tora: there is no such program")]
)
def test_environment(words: str, told: str, monkeypatch: pytest.MonkeyPatch) -> None:
    """A command with an open quote, and one that is not there, are usage."""
    monkeypatch.setenv("TORA", words)
    with pytest.raises(UsageError, match=told.replace("/", "/")):
        Program.find()
    assert "empty" in refusal(lambda: Program.find(""))


def test_output(script: Script) -> None:
    """What is printed is kept apart, and the words are passed as they are."""
    done = script('echo "$#" "$2"; echo told >&2').run("a b", pathlib.Path("c d"))
    assert (done.output, done.errors) == ("2 c d\n", "told\n")


def test_version(script: Script) -> None:
    """The first line, without what divides cells and lines."""
    assert script('echo \'tora 1,2  "x"\'; echo more').version() == "tora 1 2 x"


@pytest.mark.parametrize(
    ("text", "told"),
    [
        ("echo no >&2; exit 3", "the program ends with status 3: no"), ("exit 1", "the program ends with status 1"),
        ("kill -9 $$", "the program was ended by signal 9")
    ],
)
def test_failures(text: str, told: str, script: Script) -> None:
    """Another status than 0 is told with what was said last."""
    program = script(text)
    assert refusal(program.run) == f"{program.words[0]}: {told}"


def test_no_program(script: Script) -> None:
    """A file that is no program."""
    program = script("exit 0")
    pathlib.Path(program.words[0]).write_bytes(b"\x00\x01")
    assert refusal(program.run).startswith(f"{program.words[0]}: ")


def test_silent_program(script: Script, tmp_path: pathlib.Path) -> None:
    """A program that says nothing is ended at its time limit, with all that it has started; it is not waited for
    without end.
    """
    program = script(f"sleep 60 & echo $! >{tmp_path}/child; wait")
    begin = time.monotonic()
    assert "is not done within 0.5 seconds" in refusal(lambda: program.run(time_limit=0.5))
    assert time.monotonic() - begin < 20
    child = int((tmp_path / "child").read_text())
    for _ in range(100):
        try:
            state = pathlib.Path(f"/proc/{child}/stat").read_text().split(")")[1].split()[0]
        except OSError:
            break
        if state == "Z":
            break
        time.sleep(0.05)
    else:
        pytest.fail("what the program has started still runs")


def test_input(script: Script) -> None:
    """A program that reads finds the end at once."""
    assert script("cat; echo done").run(time_limit=20).output == "done\n"


def test_repository(monkeypatch: pytest.MonkeyPatch) -> None:
    """The launcher of the repository is one."""
    assert os.access(REPOSITORY / "tora", os.X_OK)


def test_version_is_that_of_the_repository() -> None:
    """The package has the version of the program, in the form that Python knows."""
    assert tora.__version__ == (REPOSITORY / "VERSION").read_text().strip().replace("-dev", ".dev0")
