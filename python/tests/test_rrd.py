"""What RRDtool keeps and writes, also where the language has decimal commas."""

from __future__ import annotations

import os
import shutil
import subprocess
from pathlib import Path

import pytest

import summarystore
from summarystore.importing import main

START = 1764406800
NEEDS_RRDTOOL = pytest.mark.skipif(shutil.which("rrdtool") is None, reason="rrdtool isn't installed")


@pytest.fixture
def rrd(folder: Path) -> str:
    """Ten readings of a temperature, and none of a load."""
    file = str(folder / "a.rrd")
    subprocess.run(["rrdtool", "create", file, "--start", str(START), "--step", "60",
                    "DS:temp:GAUGE:120:U:U", "DS:load:GAUGE:120:U:U", "RRA:AVERAGE:0.5:1:100"], check=True)
    subprocess.run(["rrdtool", "update", file, *(f"{START + 60 * at}:{at}.5:U" for at in range(1, 11))],
                   check=True, capture_output=True)
    return file


@pytest.fixture(params=["C", "C.UTF-8", "de_DE.UTF-8"])
def language(request: pytest.FixtureRequest, tmp_path_factory: pytest.TempPathFactory,
             monkeypatch: pytest.MonkeyPatch) -> str:
    """A language of the system. One with decimal commas is made where it isn't there."""
    name = str(request.param)
    if name == "de_DE.UTF-8":
        made = tmp_path_factory.getbasetemp() / "locales"
        made.mkdir(exist_ok=True)
        words = ["localedef", "-i", "de_DE", "-f", "UTF-8", str(made / name)]
        if shutil.which("localedef") is None or not Path("/usr/share/i18n/locales/de_DE").exists():
            pytest.skip("the sources of de_DE aren't installed (the package locales)")
        if not (made / name).exists():
            subprocess.run(words, check=True, capture_output=True)
        monkeypatch.setenv("LOCPATH", str(made))
    monkeypatch.setenv("LC_ALL", name)
    return name


@NEEDS_RRDTOOL
def test_fetched(rrd: str, language: str, folder: Path, program: str) -> None:
    assert main([str(folder / "s"), rrd, "--value", "temp", "--scale", "0.1"]) == 0
    with summarystore.open(folder / "s", existing=True) as store:
        assert str(store.query("temp", "max")) == "10.5" and store.query("temp", "count") == 10


@NEEDS_RRDTOOL
@pytest.mark.parametrize("options", [[], ["--showtime"], ["--json"], ["--json", "--showtime"]])
def test_exported(rrd: str, language: str, folder: Path, program: str, options: list[str],
                  capsys: pytest.CaptureFixture[str]) -> None:
    with open(folder / "x", "wb") as out:
        subprocess.run(["rrdtool", "xport", *options, "--start", str(START), "--end", str(START + 600),
                        f"DEF:t={rrd}:temp:AVERAGE", f"DEF:l={rrd}:load:AVERAGE", "XPORT:t:in the attic",
                        "XPORT:l:load"], check=True, stdout=out)
    assert main([str(folder / "s"), str(folder / "x"), "--name", "house", "--value", "in the attic",
                 "--value", "load"]) == 0
    shown = capsys.readouterr().out
    assert "rrdtool xport, times as whole numbers of s" in shown
    assert "house/in the attic: 10 rows stored" in shown and "house/load: 0 rows stored" in shown
    with summarystore.open(folder / "s", existing=True) as store:
        assert str(store.query("house/in the attic", "sum")) == "60.0"
        last = store.last("house/in the attic")
        assert last is not None and str(last.value) == "10.5"
        assert str(last.time) == "2025-11-29 09:10:00+00:00"


@pytest.mark.parametrize("text", [
    "<xport>", "<xport><meta></meta></xport>", '{ "about": "RRDtool graph JSON output", "meta": 5}',
    '{ "about": "RRDtool', "<xport><meta><start>1</start><step>1</step><legend><entry>a</entry></legend>"
    "</meta><data><row><v>1</v><v>2</v><v>3</v></row></data></xport>"])
def test_what_is_no_xport(folder: Path, program: str, text: str, capsys: pytest.CaptureFixture[str]) -> None:
    (folder / "x").write_text(text)
    assert main([str(folder / "s"), str(folder / "x")]) == 3
    assert "x" in capsys.readouterr().err and not (folder / "s").exists()


def test_it_is_asked_in_its_own_language(folder: Path, program: str, monkeypatch: pytest.MonkeyPatch,
                                         capsys: pytest.CaptureFixture[str]) -> None:
    """A made-up rrdtool that answers by the language that it is asked in, and one that fails."""
    tool = folder / "rrdtool"
    tool.write_text('#!/bin/sh\ncase $1 in\nfirst) echo 1764406800 ;; last) echo 1764406920 ;;\nfetch)\n'
                    'point=.; [ "$LC_ALL" = C ] || point=,\nprintf "   temp\\n\\n"\n'
                    'printf "1764406860: 2${point}5e+01\\n1764406920: -nan\\n" ;;\nesac\n')
    tool.chmod(0o755)
    (folder / "a.rrd").write_bytes(b"RRD\x000003\x00")
    monkeypatch.setenv("PATH", f"{folder}:{os.environ['PATH']}")
    monkeypatch.setenv("LC_ALL", "de_DE.UTF-8")
    assert main([str(folder / "s"), str(folder / "a.rrd")]) == 0
    assert "1 rows stored, 0 there before, 0 refused, 1 without a value" in capsys.readouterr().out
    tool.write_text("#!/bin/sh\necho 'ERROR: broken' >&2\nexit 1\n")
    assert main([str(folder / "s"), str(folder / "a.rrd")]) == 3
    assert "broken" in capsys.readouterr().err
    monkeypatch.setenv("PATH", str(folder / "nothing"))
    assert main([str(folder / "s"), str(folder / "a.rrd")]) == 3
    assert "rrdtool isn't installed" in capsys.readouterr().err
