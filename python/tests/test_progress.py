"""How far an import is, at a terminal and elsewhere."""

from __future__ import annotations

import os
import pty
import subprocess
import sys
from pathlib import Path

import pytest

from .conftest import HOME


def run(folder: Path, *words: str) -> str:
    """What an import says at a terminal."""
    (folder / "a.csv").write_text("t,v\n" + "".join(f"{1764406800 + at},{at}\n" for at in range(20_000)))
    here = {**os.environ, "PYTHONPATH": str(HOME / "src")}
    terminal, other = pty.openpty()
    child = subprocess.Popen([sys.executable, "-m", "summarystore.importing", str(folder / "s"),
                              str(folder / "a.csv"), *words], env=here, stdout=subprocess.DEVNULL,
                             stderr=other)
    os.close(other)
    said = b""
    try:
        while data := os.read(terminal, 4096):
            said += data
    except OSError:     # the other side was closed
        pass
    os.close(terminal)
    assert child.wait() == 0
    return said.decode()


def test_a_bar(folder: Path, program: str) -> None:
    pytest.importorskip("tqdm")
    assert "B/s]" in run(folder)


def test_quiet(folder: Path, program: str) -> None:
    assert run(folder, "--quiet") == ""
