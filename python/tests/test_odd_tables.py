"""Tables that may be read in two ways, or not at all: nothing of them is guessed in silence."""

from __future__ import annotations

from pathlib import Path

import pytest

import summarystore
from summarystore import exporting, filling, importing


def run(folder: Path, text: str, *words: str) -> int:
    (folder / "t.csv").write_text(text)
    return importing.main([str(folder / "s"), str(folder / "t.csv"), "--quiet", "--zone", "UTC", *words])


@pytest.mark.parametrize("text, words", [
    ("day,v\n20260101,1\n20260102,2\n", ["--time-format", "%Y%m%d"]),
    ("day,v\n20260101,1\n20260102,2\n", ["--time-unit", "s"]),
    ("day,v\n20260101100000,1\n20260102100000,2\n", ["--time-format", "%Y%m%d%H%M%S"]),
    ("day,v\n01-02-2026,1\n02-02-2026,2\n", ["--time-format", "%m-%d-%Y"]),
    ("t;v\n2026-01-01T00:00Z;1,234\n2026-01-02T00:00Z;2,345\n", ["--decimal", ","]),
    ("t,v,v\n2026-01-01T00:00Z,1,2\n2026-01-02T00:00Z,2,3\n", ["--value", "3"]),
])
def test_what_may_be_two_things_is_asked(program: str, folder: Path, text: str, words: list[str]) -> None:
    assert run(folder, text) == 3
    assert not (folder / "s").exists()
    assert run(folder, text, *words) == 0
    with summarystore.open(folder / "s") as store:
        assert store.list()[0].values == 2


@pytest.mark.parametrize("text, delimiter, total", [
    ("2026-01-01T00:00Z;21,5\n2026-01-02T00:00Z;-0,5\n", ";", "21.0"),
    ("1764406800;21,5\n1764406801;-0,25\n", ";", "21.25"),
    ("01.01.2026 00:00;21,5\r\n01.01.2026 00:01;7\r\n", ";", "28.5"),
    ("1764406800\t21,5\n1764406801\t0,5\n", "\\t", "22.0"),
    ("1764406800;5\n1764406801;6\n", ";", "11"),
    ("1764406800;1;21,5\n1764406801;2;22,5\n", ";", None),
    ("t;v\n1764406800;21,5\n1764406801;0,5\n", ";", "22.0"),
    ("2026-01-01 00:00,5\n2026-01-01 00:01,6\n", ",", "11"),
    ('1764406800,5,"a;b"\n1764406801,6,"c;d"\n', ",", "11"),
    ("time;v\n1764406800;21,5\n\n1764406801;;\n1764406802;1,5\n", ";", "23.0"),
])
def test_delimiters_and_decimal_commas_without_heads(program: str, folder: Path, text: str, delimiter: str,
                                                     total: str | None,
                                                     capsys: pytest.CaptureFixture[str]) -> None:
    (folder / "t.csv").write_text(text, newline="")
    assert importing.main([str(folder / "s"), str(folder / "t.csv"), "--zone", "UTC", "--name", "n"]) == 0
    assert f"delimiter '{delimiter}'" in capsys.readouterr().out
    with summarystore.open(folder / "s") as store:
        streams = [stream.name for stream in store.list()]
        if total is None:
            assert [str(store.query(name, "sum")) for name in streams] == ["3", "44.0"]
        else:
            assert [str(store.query(name, "sum")) for name in streams] == [total]


def test_commas_that_are_surely_decimal(program: str, folder: Path) -> None:
    assert run(folder, "t;v\n2026-01-01T00:00Z;1,234\n2026-01-02T00:00Z;0,345\n") == 0


def test_lines_with_more_cells_than_heads(program: str, folder: Path,
                                          capsys: pytest.CaptureFixture[str]) -> None:
    text = "t,v\n2026-01-01T00:00Z,1\n2026-01-02T00:00Z,21,5\n2026-01-03T00:00Z,3,\n"
    assert run(folder, text) == 1
    assert "line 3: v: 3 cells, and 2 heads" in capsys.readouterr().err
    with summarystore.open(folder / "s") as store:
        assert store.query("v", "sum") == 4


def test_a_quote_without_its_second_one(program: str, folder: Path,
                                        capsys: pytest.CaptureFixture[str]) -> None:
    text = "t,v\n2026-01-01T00:00Z,1\n2026-01-02T00:00Z,\"21\n" + "2026-01-03T00:00Z,3\n" * 20
    assert run(folder, text) == 3
    assert "quotes come in pairs" in capsys.readouterr().err


def test_a_column_that_is_not_read_is_shown(program: str, folder: Path, capsys: pytest.CaptureFixture[str]
                                            ) -> None:
    assert run(folder, "t,v,sensor\n2026-01-01T00:00Z,1,attic\n", "--dry-run") == 0
    assert "not read: sensor" in capsys.readouterr().out


def test_rows_that_came_too_late_are_not_there(program: str, folder: Path, capsys: pytest.CaptureFixture[str]
                                               ) -> None:
    assert run(folder, "t,v\n2026-12-01T00:00Z,1\n") == 0
    assert run(folder, "t,v\n2026-12-01T00:00Z,1\n") == 0
    assert run(folder, "t,v\n2026-01-01T00:00Z,5\n2026-01-02T00:00Z,6\n") == 1
    assert "at most 0 of them are there" in capsys.readouterr().err


def test_few_rows_of_many_streams(program: str, folder: Path, monkeypatch: pytest.MonkeyPatch) -> None:
    most = 0
    send = importing.Import._send

    def watched(work: importing.Import, into: filling.Into) -> None:
        nonlocal most
        most = max(most, sum(len(each.waiting) for each in work._streams.values()))
        send(work, into)
    monkeypatch.setattr(importing.Import, "_send", watched)
    monkeypatch.setattr(importing, "MOST_WAITING", 50)
    rows = "".join(f"{at},{at % 7},n{at % 20}\n" for at in range(1_700_000_000, 1_700_000_400))
    assert run(folder, "t,v,n\n" + rows, "--stream", "n") == 0
    assert most == 50
    with summarystore.open(folder / "s") as store:
        assert [stream.values for stream in store.list()] == [20] * 20


def test_an_export_makes_no_store(program: str, folder: Path) -> None:
    assert exporting.main([str(folder / "typo"), "v", "--windows"]) == 3
    assert not (folder / "typo").exists()


def test_parquet_keeps_whole_numbers_where_some_are_missing(monkeypatch: pytest.MonkeyPatch) -> None:
    pandas = pytest.importorskip("pandas")
    kept: list[object] = []
    monkeypatch.setattr(pandas.DataFrame, "to_parquet", lambda frame, path: kept.append(frame))
    big = 2**53 + 1
    rows = [[1, big, None, 2**70, True], [2, None, None, 3, False]]
    exporting.write_parquet("any", ["start", "lo", "mid", "hi", "maybe_none"], rows)
    frame = kept[0]
    assert isinstance(frame, pandas.DataFrame)
    assert frame["lo"][0] == big and frame["lo"].isna()[1]
    assert list(frame["hi"]) == [str(2**70), "3"] and list(frame["maybe_none"]) == [True, False]
    assert frame["start"].dtype == "int64" and frame["maybe_none"].dtype == bool
