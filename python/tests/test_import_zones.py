"""Tables of a zone: hours that come twice, rows of minutes, and what is proposed for whole days."""

from __future__ import annotations

import datetime
from collections.abc import Sequence
from pathlib import Path

import pytest

import summarystore
from summarystore.importing import main

BERLIN = ["--zone", "Europe/Berlin"]
TWICE = ["01:30", "02:00", "02:30", "02:00", "02:30", "03:00"]
"""What a clock of Berlin shows each half an hour, as summer ends on 25 October 2026."""


def table(folder: Path, clocks: Sequence[str], name: str = "a.csv") -> str:
    """A table of these times of that day, whose values count them."""
    rows = "".join(f"2026-10-25 {clock},{at}\n" for at, clock in enumerate(clocks, 1))
    (folder / name).write_text("t,v\n" + rows)
    return str(folder / name)


def stored(folder: Path) -> list[str]:
    """The times that stand, in UTC: of single values, each of which is a window."""
    with summarystore.open(folder / "s") as store:
        return [str(window.start)[11:16] for window in store.windows("v")]


def test_an_hour_that_comes_twice(program: str, folder: Path, capsys: pytest.CaptureFixture[str]) -> None:
    words = [str(folder / "s"), table(folder, TWICE), *BERLIN, "--target", "power 1 1 9 1"]
    assert main([*words, "--dry-run"]) == 1
    shown = capsys.readouterr()
    assert "v: 2 rows to store, 0 there before, 4 refused" in shown.out and "shows it twice" in shown.err
    assert main([*words, "--fold", "order", "--dry-run"]) == 0
    assert "v: 6 rows to store, 0 there before, 0 refused" in capsys.readouterr().out
    assert main([*words, "--fold", "order"]) == 0
    assert "v: 6 rows stored, 0 there before, 0 refused" in capsys.readouterr().out
    assert stored(folder) == ["23:30", "00:00", "00:30", "01:00", "01:30", "02:00"]
    assert main([*words, "--fold", "order"]) == 0
    assert "v: 0 rows stored, 6 there before, 0 refused" in capsys.readouterr().out


def test_each_hour_once(program: str, folder: Path) -> None:
    """A reading each hour: the clock shows the same twice."""
    clocks = ["00:00", "01:00", "02:00", "02:00", "03:00"]
    words = [str(folder / "s"), table(folder, clocks), *BERLIN, "--fold", "order", "--quiet"]
    assert main([*words, "--target", "power 1 1 9 1"]) == 0
    assert stored(folder) == ["22:00", "23:00", "00:00", "01:00", "02:00"]


@pytest.mark.parametrize("late", ["02:15", "02:30"])
def test_a_row_of_a_passed_hour(program: str, folder: Path, capsys: pytest.CaptureFixture[str],
                                late: str) -> None:
    """It is told as passed over, and not as there before, also when the same table comes again."""
    words = [str(folder / "s"), table(folder, [*TWICE, late]), *BERLIN, "--fold", "order", "--name", "v"]
    for done in ("6 rows stored, 0 there before", "0 rows stored, 6 there before"):
        assert main(words) == 1
        shown = capsys.readouterr()
        assert f"v: {done}, 0 refused, 1 passed over\n" in shown.out
        assert f"line 8: v: 2026-10-25 {late} comes twice, and the table has passed both" in shown.err


def test_a_table_that_begins_in_such_an_hour(program: str, folder: Path,
                                             capsys: pytest.CaptureFixture[str]) -> None:
    """Which of the two it is isn't known, so a row that may be new isn't taken for one that is there."""
    words = [*BERLIN, "--fold", "order", "--name", "v", "--target", "power 1 1 9 1"]
    assert main([str(folder / "s"), table(folder, ["01:30", "02:00", "02:30"]), *words]) == 0
    assert main([str(folder / "s"), table(folder, ["02:15", "02:30", "03:00"], "b.csv"), *words]) == 1
    shown = capsys.readouterr()
    assert "v: 1 rows stored, 1 there before, 0 refused, 1 passed over\n" in shown.out
    assert "line 2: v: the table begins in an hour that comes twice" in shown.err
    assert stored(folder) == ["23:30", "00:00", "00:30", "02:00"]


def test_rows_out_of_order_are_not_there_before(program: str, folder: Path,
                                                capsys: pytest.CaptureFixture[str]) -> None:
    words = [str(folder / "s"), table(folder, ["10:00", "10:20", "10:10", "10:30"]), *BERLIN]
    assert main(words) == 1
    assert "v: 3 rows stored, 0 there before, 1 refused\n" in capsys.readouterr().out
    assert main(words) == 1
    shown = capsys.readouterr()
    assert "v: 0 rows stored, 3 there before, 0 refused, 1 passed over\n" in shown.out
    assert "line 4: v: it isn't later than the rows before it: passed over" in shown.err


def test_a_wrong_row_has_no_part_in_the_order(program: str, folder: Path) -> None:
    """A row without a number, or of a time far ahead, says nothing of the hours of others."""
    clocks = ["01:30", "02:00", "02:30", "02:00", "02:30", "03:00"]
    rows = [f"2026-10-25 {clock},{at}" for at, clock in enumerate(clocks)]
    (folder / "a.csv").write_text("\n".join(["t,v", rows[0], "2026-10-25 03:30,n/a", *rows[1:3],
                                             "2999-01-01 00:00,5", *rows[3:]]) + "\n")
    assert main([str(folder / "s"), str(folder / "a.csv"), *BERLIN, "--fold", "order",
                 "--target", "power 1 1 9 1"]) == 1
    assert stored(folder) == ["23:30", "00:00", "00:30", "01:00", "01:30", "02:00"]


def test_order_and_lateness(folder: Path, capsys: pytest.CaptureFixture[str]) -> None:
    with pytest.raises(SystemExit):
        main([str(folder / "s"), table(folder, TWICE), *BERLIN, "--fold", "order", "--lateness", "1h"])
    assert "--lateness says that there is none" in capsys.readouterr().err


def of_minutes(folder: Path, apart: int = 60, begin: str = "2026-11-29T10:00:00+00:00") -> str:
    """A table with a row each minute, or each so many seconds."""
    start = datetime.datetime.fromisoformat(begin)
    rows = "".join(f"{(start + datetime.timedelta(seconds=apart * at)):%Y-%m-%d %H:%M:%S},{at}\n"
                   for at in range(200))
    (folder / "m.csv").write_text("t,v\n" + rows)
    return str(folder / "m.csv")


@pytest.mark.parametrize("apart, begin, more, time, told", [
    (60, "10:00:00", [], "minute", "60 s apart: time minute is taken; --resolution s keeps seconds"),
    (60, "10:00:00", ["--resolution", "s"], "s", "--resolution minute is proposed in the place of s"),
    (60, "10:00:30", [], "s", None), (30, "10:00:00", [], "s", None), (300, "10:00:00", [], "s", None),
    (60, "10:00:00", ["--resolution", "hour"], "hour", None)])
def test_rows_of_minutes(program: str, folder: Path, capsys: pytest.CaptureFixture[str], apart: int,
                         begin: str, more: Sequence[str], time: str, told: str | None) -> None:
    words = [str(folder / "s"), of_minutes(folder, apart, f"2026-11-29T{begin}+00:00"), *BERLIN, *more]
    main([*words, "--dry-run"])
    shown = capsys.readouterr().out
    assert f"scale 1, time {time}, " in shown
    assert told in shown if told else "60 s apart" not in shown
    if time == "hour":
        return
    assert main(words) == 0
    with summarystore.open(folder / "s") as store:
        description = store.description("v")
        assert description is not None and description.time == time
        assert store.query("v", "count") == 200
    assert main(words) == 0
    assert "proposed" not in capsys.readouterr().out.split("200 there before")[0].split("200 rows stored")[1]


def test_minutes_since_1970(program: str, folder: Path, capsys: pytest.CaptureFixture[str]) -> None:
    (folder / "a.csv").write_text("".join(f"{1764406800 + 60 * at},{at}\n" for at in range(50)))
    assert main([str(folder / "s"), str(folder / "a.csv"), "--name", "v"]) == 0
    assert "time minute is taken" in capsys.readouterr().out
    with summarystore.open(folder / "s") as store:
        assert store.query("v", "sum", "2025-11-29T09:47Z", "2025-11-29T09:49Z") == 47 + 48 + 49


@pytest.mark.parametrize("zone, apart, step", [
    (BERLIN, 60, 60), (BERLIN, 300, 3600), (["--zone", "Asia/Kathmandu"], 60, 15),
    (["--zone", "Australia/Lord_Howe"], 300, 1800), (["--zone", "UTC"], 60, 1440)])
def test_a_target_is_proposed(program: str, folder: Path, capsys: pytest.CaptureFixture[str],
                              zone: Sequence[str], apart: int, step: int) -> None:
    """Whole days of the zone are exact with what is proposed for it."""
    words = [str(folder / "s"), of_minutes(folder, apart), *zone]
    assert main([*words, "--dry-run"]) == 0
    proposed = f"proposed: --target 'exp 2 60 1' --within {step}: whole days of {zone[1]} stay exact\n"
    assert proposed in capsys.readouterr().out
    assert main([*words, "--target", "exp 2 60 1", "--within", str(step)]) == 0
    assert "proposed" not in capsys.readouterr().out
    with summarystore.open(folder / "s") as store:
        days = store.series("v", "sum", "2026-11-28", "2026-11-30", "1d", zone[1])
        assert all(row.interval.exact for row in days)


def test_what_is_not_proposed(program: str, folder: Path, capsys: pytest.CaptureFixture[str]) -> None:
    """Days by themselves need no step, and `--quiet` says nothing."""
    (folder / "d.csv").write_text("t,v\n" + "".join(f"2026-11-{at:02},{at}\n" for at in range(1, 30)))
    assert main([str(folder / "s"), str(folder / "d.csv"), *BERLIN]) == 0
    assert "proposed" not in capsys.readouterr().out
    assert main([str(folder / "t"), of_minutes(folder), *BERLIN, "--quiet"]) == 0
    assert capsys.readouterr().out == "v: 200 rows stored, 0 there before, 0 refused\n"
