"""Each example of the README does what it says."""

from __future__ import annotations

import os
import re
import subprocess
import sys
import textwrap
from pathlib import Path

import pytest

import summarystore

from .conftest import HOME

TEXT = (HOME / "README.md").read_text(encoding="utf-8")
PYTHON = re.findall(r"```python\n(.*?)```", TEXT, re.S)
SHELL = re.findall(r"```sh\n(.*?)```", TEXT, re.S)


def test_python(folder: Path, program: str, monkeypatch: pytest.MonkeyPatch) -> None:
    monkeypatch.chdir(folder)
    names: dict[str, object] = {}
    assert len(PYTHON) > 5
    for block in PYTHON:
        exec(compile(block, "README.md", "exec"), names)


def test_the_first_example_runs_twice(folder: Path, program: str, monkeypatch: pytest.MonkeyPatch) -> None:
    monkeypatch.chdir(folder)
    for _ in range(2):
        names: dict[str, object] = {}
        exec(compile(PYTHON[0], "README.md", "exec"), names)
        store = names["store"]
        assert isinstance(store, summarystore.Store)
        store.close()


def test_shell(folder: Path, program: str) -> None:
    """What is shown of both streams comes, line for line."""
    for name, module in (("summarystore-import", "importing"), ("summarystore-export", "exporting"),
                         ("summarystore-plan", "plan")):
        script = folder / name
        script.write_text(f"#!/bin/sh\nexec {sys.executable} -m summarystore.{module} \"$@\"\n")
        script.chmod(0o755)
    (folder / "python").symlink_to(HOME)
    here = {**os.environ, "PATH": f"{folder}:{os.environ['PATH']}", "PYTHONPATH": str(HOME / "src"),
            "MPLBACKEND": "agg"}
    assert len(SHELL) >= 2
    for block in SHELL:
        for session in re.split(r"^\$ ", block, flags=re.M)[1:]:
            command, _, shown = session.partition("\n")
            done = subprocess.run(["sh", "-c", command], cwd=folder, env=here, stdout=subprocess.PIPE,
                                  stderr=subprocess.STDOUT, text=True, check=False)
            assert sorted(done.stdout.splitlines()) == sorted(shown.splitlines()), command


def test_the_page_of_the_guide(folder: Path, program: str, monkeypatch: pytest.MonkeyPatch,
                               capsys: pytest.CaptureFixture[str]) -> None:
    guide = (HOME.parent / "docs/GUIDE.md").read_text(encoding="utf-8")
    page = guide.partition("## From Python\n")[2].partition("\n## ")[0]
    start = page.index("    import summarystore\n")
    block = re.match(r"(?:(?:    .*)?\n)+", page[start:])
    assert block
    monkeypatch.chdir(folder)
    exec(compile(textwrap.dedent(block[0]), "GUIDE.md", "exec"), {})
    assert capsys.readouterr().out == "21.5\n"


def test_the_picture(folder: Path, program: str) -> None:
    here = {**os.environ, "PYTHONPATH": str(HOME / "src")}
    subprocess.run([sys.executable, str(HOME / "examples/picture.py"), str(folder / "out.svg")], env=here,
                   check=True)
    assert "2,225 weekly means, kept in 314 windows" in (folder / "out.svg").read_text(encoding="utf-8")


def test_all_that_is_raised_is_named() -> None:
    from summarystore import errors
    for name, kind in vars(errors).items():
        if isinstance(kind, type) and issubclass(kind, errors.SummaryStoreError) \
                and kind is not errors.SummaryStoreError:
            assert f"`{name}`" in (HOME / "REFERENCE.md").read_text(encoding="utf-8"), name
