"""Windows and series as files."""

from __future__ import annotations

import importlib.util
import json
from pathlib import Path

import pandas
import pytest

import summarystore
from summarystore.exporting import main


@pytest.fixture
def room(path: Path) -> str:
    """A store of six readings."""
    with summarystore.open(path) as store:
        store.create("home/room", "exp 2 1 1", scale="0.1", unit="°C", time="minute")
        store.append_many("home/room", [(f"2026-11-29T10:0{at}Z", f"2{at}.5") for at in range(6)])
    return str(path)


def test_series_as_csv(room: str, capsys: pytest.CaptureFixture[str]) -> None:
    assert main([room, "home/room", "--series", "max", "--step", "3min", "--to", "2026-11-29T10:08Z"]) == 0
    assert capsys.readouterr().out.splitlines() == [
        "start,lo,mid,hi,maybe_none", "2026-11-29T10:00:00+00:00,22.5,23.0,23.5,false",
        "2026-11-29T10:03:00+00:00,25.5,25.5,25.5,false", "2026-11-29T10:06:00+00:00,,,,false"]


def test_windows_as_csv(room: str, folder: Path) -> None:
    assert main([room, "home/room", "--windows", "--zone", "Europe/Berlin", "-o", str(folder / "w.csv")]) == 0
    lines = (folder / "w.csv").read_text().splitlines()
    assert lines[0] == "first,last,count,sum,least,greatest,start,end"
    assert lines[1] == "1,2,2,42.0,20.5,21.5,2026-11-29T11:00:00+01:00,2026-11-29T11:01:00+01:00"


def test_json_lines(room: str, capsys: pytest.CaptureFixture[str]) -> None:
    assert main([room, "home/room", "--series", "sum", "--step", "100min", "--format", "jsonl"]) == 0
    (line,) = capsys.readouterr().out.splitlines()
    assert json.loads(line) == {"start": "2026-11-29T10:00:00+00:00", "lo": "138.0", "mid": "138.0",
                                "hi": "138.0", "maybe_none": False}


def test_parquet(room: str, folder: Path) -> None:
    words = [room, "home/room", "--windows", "--format", "parquet", "-o", str(folder / "w.parquet")]
    engines = any(importlib.util.find_spec(name) for name in ("pyarrow", "fastparquet"))
    assert main(words) == (0 if engines else 3)


def test_parquet_has_each_of_two_hours(room: str, folder: Path, monkeypatch: pytest.MonkeyPatch) -> None:
    """What is given to the engine, whichever there is."""
    given: list[pandas.DataFrame] = []
    monkeypatch.setattr(pandas.DataFrame, "to_parquet", lambda frame, _path: given.append(frame))
    with summarystore.open(room) as store:
        store.create("twice", "exp 2 1 1", time="minute")
        store.append_many("twice", [(f"2026-10-25T0{hour}:30Z", hour) for hour in range(3)])
    words = [room, "twice", "--series", "sum", "--from", "2026-10-25T00:30Z", "--step", "1h",
             "--zone", "Europe/Berlin", "--format", "parquet", "-o", str(folder / "w.parquet")]
    assert main(words) == 0
    assert [each.isoformat()[11:] for each in given[0]["start"]] == [
        "02:30:00+02:00", "02:30:00+01:00", "03:30:00+01:00"]


def test_a_picture(room: str, folder: Path) -> None:
    assert main([room, "home/room", "--series", "mean", "--plot", str(folder / "a.png")]) == 0
    assert (folder / "a.png").stat().st_size > 1000


def test_ranges_of_whole_numbers(path: Path, room: str, capsys: pytest.CaptureFixture[str]) -> None:
    with summarystore.open(path, existing=True) as store:
        store.create("plain", "exp 2 1 1")
        store.append_many("plain", [(time, time) for time in range(10, 20)])
    assert main([room, "plain", "--series", "sum", "--from", "18", "--to", "19", "--step", "1"]) == 0
    assert capsys.readouterr().out.splitlines()[1:] == ["18,18,18,18,false", "19,19,19,19,false"]
    assert main([room, "plain", "--series", "sum", "--from", "2026-11-29", "--step", "1"]) == 3


def test_mistakes(room: str, folder: Path, capsys: pytest.CaptureFixture[str]) -> None:
    assert main([room, "cellar/x", "--windows"]) == 3 and "UNKNOWN" in capsys.readouterr().err
    assert main([room, "home/room", "--series", "max", "--step", "1.5h"]) == 3
    assert main([room, "home/room", "--series", "max", "--plot", str(folder / "a.unknown")]) == 3
    capsys.readouterr()
    assert main([room, "home/room", "--series", "max", "--from", "2030-01-01T00:00Z"]) == 3
    assert "RANGE" in capsys.readouterr().err
    for words in ([room, "home/room"], [room, "home/room", "--windows", "--plot", "x.png"],
                  [room, "home/room", "--windows", "--format", "parquet"]):
        with pytest.raises(SystemExit):
            main(words)
