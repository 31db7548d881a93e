"""The notebooks run from their first cell to their last, and hold no outputs."""
from __future__ import annotations

import json
import os
import shutil
import subprocess
import sys
from pathlib import Path

import pytest

from conftest import REPOSITORY
from tora.program import Program

NOTEBOOKS = REPOSITORY / "examples" / "notebooks"


@pytest.mark.parametrize("name", sorted(path.name for path in NOTEBOOKS.glob("*.ipynb")))
def test_notebook(tmp_path: Path, program: Program, name: str) -> None:
    """No cell fails, and each cell that ends with a value shows it."""
    pytest.importorskip("nbconvert", reason="the package python3-nbconvert is missing")
    pytest.importorskip("ipykernel", reason="the package python3-ipykernel is missing")
    told = json.loads((NOTEBOOKS / name).read_text())
    code = [cell for cell in told["cells"] if cell["cell_type"] == "code"]
    assert code and not any(cell["outputs"] or cell["execution_count"] for cell in code)
    work = tmp_path / "notebooks"
    shutil.copytree(NOTEBOOKS, work)
    environment = os.environ | {"PYTHONPATH": str(REPOSITORY / "python/src"), "TORA": " ".join(program.words)}
    done = subprocess.run(
        [sys.executable, "-m", "nbconvert", "--to", "notebook", "--execute", "--ExecutePreprocessor.timeout=600", "--output", "done.ipynb", name],
        cwd=work, env=environment, capture_output=True, text=True,
    )
    assert done.returncode == 0, done.stderr[-2000:]
    made = json.loads((work / "done.ipynb").read_text())
    outputs = [cell["outputs"] for cell in made["cells"] if cell["cell_type"] == "code"]
    assert sum(bool(each) for each in outputs) >= 4
    assert any("image/png" in output.get("data", {}) for each in outputs for output in each)
