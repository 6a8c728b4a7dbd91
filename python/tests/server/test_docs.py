"""What the documents say of the service: their examples do what they show."""

from __future__ import annotations

import re
import shutil
import subprocess
import textwrap
from pathlib import Path

import pytest

from summarystore.server.configuration import Limits, parse
from summarystore.server.many import ROWS

from ..conftest import HOME
from .running import Running

GUIDE = HOME.parent / "docs/GUIDE.md"


def _blocks(text: str) -> list[str]:
    """The blocks of code, each without its blanks."""
    return [textwrap.dedent(block) for block in re.findall(r"(?:^    .*\n(?:\n(?=    ))?)+", text, re.M)]


def _page() -> str:
    return GUIDE.read_text("utf-8").partition("## The service\n")[2].partition("\n## ")[0]


@pytest.mark.skipif(shutil.which("curl") is None, reason="curl is missing")
def test_the_page_of_the_guide(folder: Path, path: Path) -> None:
    blocks = _blocks(_page())
    config = next(block for block in blocks if "[[mapping]]" in block)
    commands = next(block for block in blocks if "curl" in block)
    answers = next(block for block in blocks if block.startswith("{")).splitlines()
    service = Running(folder, f"--store={path}", "--listen=127.0.0.1:0", config=config)
    try:
        lines = [line for line in commands.splitlines() if line.startswith("curl ")]
        assert len(lines) == len(answers) == 3
        for line, answer in zip(lines, answers):
            command = line.replace("http://127.0.0.1:8087", service.base).replace("curl ", "curl -s ", 1)
            done = subprocess.run(["sh", "-c", command], capture_output=True, text=True, check=True)
            assert done.stdout == answer, line
        service.end_in_time()
    finally:
        service.process.kill()
        service.process.wait()


def test_what_the_guide_names_is_there() -> None:
    page = _page()
    from dataclasses import fields

    from summarystore.server.settings import Mapping
    table = page.partition("| Key | Says | Else |")[2].partition("\n\n")[0]
    for field in fields(Mapping):
        if field.name not in ("description", "time_told"):
            assert f"`{field.name}`" in table, field.name
    for key in ("scale", "time", "since", "unit", "labels", "rounding"):
        assert f"`{key}`" in table, key
    assert f"at most {Limits.rows:,}" in page and f"`rows={ROWS}`" in page


def test_the_example_of_the_configuration(folder: Path) -> None:
    """The file in the head of `configuration.py` is one."""
    from summarystore.server import configuration
    text = textwrap.dedent((configuration.__doc__ or "").partition("left out:\n")[2])
    found = parse(text, "example.toml")
    assert found.store.path and found.graphite.listen and found.mqtt.broker and found.tokens.file
    assert len(found.mappings) == 1
