"""Tables into streams: what is guessed, what is refused, and again after kills."""

from __future__ import annotations

import contextlib
import os
import signal
import sqlite3
import subprocess
import sys
import time
from pathlib import Path

import pytest

import summarystore
from summarystore import errors, storefile, tables, timeforms
from summarystore.importing import main
from summarystore.store import Store

from .conftest import HOME, IMPORTED
from .waiting import ended, until

UTC = "2026-11-29T10:0{}:00Z"


def test_a_csv_file_of_a_spreadsheet(folder: Path, program: str,
                                     capsys: pytest.CaptureFixture[str]) -> None:
    rows = ["10:00;21,5;a", "10:05;n/a;b", "10:10;1.234,5;c", "10:15;;d", "10:20;-3;"]
    text = "".join(f"29.11.2026 {row}\r\n" for row in rows)
    (folder / "log.csv").write_text(f"\ufeffZeit;temp;note\r\n{text}")
    store = str(folder / "a.store")
    words = [store, str(folder / "log.csv"), "--zone", "Europe/Berlin"]
    assert main([*words, "--dry-run"]) == 1
    shown = capsys.readouterr()
    assert "delimiter ';', decimal comma, times as %d.%m.%Y %H:%M in Europe/Berlin" in shown.out
    assert "temp: from column 2, scale 0.1, time s, target power 1 1 4 1" in shown.out
    assert "temp: 2 rows to store, 0 there before, 2 refused, 1 without a value" in shown.out
    assert "line 3: temp: not a number: 'n/a'" in shown.err
    assert "line 4: temp: not a number: '1.234,5'" in shown.err
    assert not (folder / "a.store").exists() and not (folder / "a.store.names.json").exists()
    assert main(words) == 1
    assert "temp: 2 rows stored, 0 there before" in capsys.readouterr().out
    assert main([*words, "--quiet"]) == 1
    assert capsys.readouterr().out.startswith("temp: 0 rows stored, 2 there before")
    with summarystore.open(store) as opened:
        assert str(opened.query("temp", "sum")) == "18.5"
        last = opened.last("temp")
        assert last is not None and str(last.time) == "2026-11-29 09:20:00+00:00"


@pytest.mark.parametrize("text,shown", [
    ("2026-11-29T10:00Z,1\n", "ISO 8601"), ("1764406800,1\n", "whole numbers of s"),
    ("1764406800123,1\n", "whole numbers of ms"), ("1764406800123456789,1\n", "whole numbers of ns"),
    ("2026-11-29,1\n2026-11-30,2\n", "ISO 8601"), ("29/11/2026 10:00:00,1\n", "%d/%m/%Y %H:%M:%S in UTC"),
    ("11/29/2026 10:00,1\n", "%m/%d/%Y %H:%M in UTC"), ("2026/11/29,1\n", "%Y/%m/%d in UTC"),
    ("time\tv\n2026-11-29 10:00\t1.5\n", "delimiter '\\t'"), ("2026-11-29T10:00Z|1\n", "delimiter '|'"),
    ("1764406800 5\n1764406801 6\n", "delimiter ' '"),
])
def test_what_is_guessed(folder: Path, program: str, capsys: pytest.CaptureFixture[str], text: str,
                         shown: str) -> None:
    (folder / "a.csv").write_text(text)
    assert main([str(folder / "s"), str(folder / "a.csv"), "--zone", "UTC"]) == 0
    assert shown in capsys.readouterr().out
    with summarystore.open(folder / "s") as store:
        (stream,) = store.list()
        assert stream.values == len([line for line in text.splitlines() if line[0].isdigit()])


@pytest.mark.parametrize("text,reason", [
    ("01/02/2026,1\n02/03/2026,2\n", "both"), ("monday,1\n", "no form"), ("5,1\n6,2\n", "may count anything"),
    ("2026-11-29T10:00Z,x\n", "no column holds numbers"), ("", "no column"), ("a,b\n", "no column"),
])
def test_what_cannot_be_guessed(folder: Path, program: str, capsys: pytest.CaptureFixture[str], text: str,
                                reason: str) -> None:
    (folder / "a.csv").write_text(text)
    assert main([str(folder / "s"), str(folder / "a.csv")]) == 3
    assert reason in capsys.readouterr().err
    assert not (folder / "s").exists()


def test_what_is_no_number_is_never_stored(folder: Path, program: str) -> None:
    wrong = ["unavailable", "nan", "inf", "1_0", "0x1", "--5", "1e999", "٣", "1 2", "5 W", "true", "None",
             "99999999999999999999", "1.25"]
    rows = [f"2026-11-29T10:00:{at:02}Z,{text}" for at, text in enumerate(["1.5", *wrong, "2.5"])]
    (folder / "a.csv").write_text("t,v\n" + "\n".join(rows) + "\n")
    assert main([str(folder / "s"), str(folder / "a.csv"), "--scale", "0.1"]) == 1
    with summarystore.open(folder / "s") as store:
        assert store.query("v", "count") == 2 and str(store.query("v", "sum")) == "4.0"


def test_wide_and_long_tables(folder: Path, program: str) -> None:
    (folder / "wide.csv").write_text("t,in,out\n2026-11-29T10:00Z,1,2.5\n2026-11-29T10:01Z,3,\n")
    assert main([str(folder / "s"), str(folder / "wide.csv"), "--name", "house", "--quiet"]) == 0
    (folder / "long.csv").write_text("t,where,v\n2026-11-29T10:00Z,attic,1\n2026-11-29T10:00Z,cellar,2\n"
                                     "2026-11-29T10:01Z,attic,5\n")
    assert main([str(folder / "s"), str(folder / "long.csv"), "--stream", "where", "--name", "long",
                 "--unit", "°C"]) == 0
    with summarystore.open(folder / "s") as store:
        found = {stream.name: str(store.query(stream.name, "sum")) for stream in store.list()}
        assert found == {"house/in": "4", "house/out": "2.5", "long/attic": "6", "long/cellar": "2"}
        description = store.description("long/attic")
        assert description is not None and description.unit == "°C"


def test_columns_and_formats_that_are_told(folder: Path, program: str) -> None:
    (folder / "a.csv").write_text("v,when\n2.54,87\n2.55,94\n")
    words = ["--time", "when", "--value", "v", "--time-unit", "day", "--since", "1958-01-01",
             "--scale", "0.1", "--rounding", "half-even"]
    assert main([str(folder / "s"), str(folder / "a.csv"), *words]) == 0
    with summarystore.open(folder / "s") as store:
        assert str(store.query("v", "sum", "1958-03-29", "1958-03-29")) == "2.5"
        assert str(store.query("v", "sum")) == "5.1"
    (folder / "b.csv").write_text("01/02/2026,1\n02/03/2026,2\n")
    assert main([str(folder / "s"), str(folder / "b.csv"), "--time-format", "%d/%m/%Y", "--name", "b"]) == 0
    with summarystore.open(folder / "s", zone="UTC") as store:
        assert store.query("b", "count", "2026-02-01", "2026-02-01") == 1


def test_whole_days(folder: Path, program: str, capsys: pytest.CaptureFixture[str]) -> None:
    (folder / "a.csv").write_text("".join(f"2026-01-{1 + at // 24:02}T{at % 24:02}:00Z,{at}\n"
                                          for at in range(24 * 31)))
    words = [str(folder / "s"), str(folder / "a.csv"), "--name", "a", "--target", "exp 2 1 1"]
    assert main([*words, "--within", "86400"]) == 0
    assert ", target exp 2 1 1 within 86400\n" in capsys.readouterr().out
    with summarystore.open(folder / "s") as store:
        assert store.list()[0].within == 86400
        rows = store.series("a", "sum", "2026-01-01T00:00Z", "2026-01-31T23:59:59Z", "1d")
        assert [row.interval for row in rows] == [24 * 24 * day + 276 for day in range(31)]


def test_late_rows(folder: Path, program: str, capsys: pytest.CaptureFixture[str]) -> None:
    text = "".join(f"{UTC.format(at)},{at}\n" for at in (0, 2, 1, 3, 3, 5, 4))
    (folder / "a.csv").write_text(text)
    assert main([str(folder / "s"), str(folder / "a.csv"), "--name", "a", "--lateness", "2min"]) == 1
    shown = capsys.readouterr()
    assert "a: 6 rows stored, 0 there before, 1 refused" in shown.out and "line 5" in shown.err
    words = [str(folder / "t"), str(folder / "a.csv"), "--name", "a"]
    assert main([*words, "--dry-run"]) == 1
    assert "a: 4 rows to store, 0 there before, 3 refused" in capsys.readouterr().out
    assert main(words) == 1
    assert "a: 4 rows stored, 0 there before, 3 refused" in capsys.readouterr().out


def test_times_ahead_of_the_clock(folder: Path, program: str, capsys: pytest.CaptureFixture[str]) -> None:
    """One wrong time doesn't make the right ones after it late."""
    (folder / "a.csv").write_text(f"{UTC.format(0)},1\n2999-01-01T00:00Z,2\n{UTC.format(1)},3\n")
    words = [str(folder / "s"), str(folder / "a.csv"), "--name", "a"]
    assert main(words) == 1
    shown = capsys.readouterr()
    assert "a: 2 rows stored, 0 there before, 1 refused" in shown.out
    assert "line 2: a: more than 1h ahead of the clock: --future" in shown.err
    assert main([*words, "--future", "1000000d"]) == 0
    assert "a: 1 rows stored, 2 there before, 0 refused" in capsys.readouterr().out
    assert main([*words, "--future", "soon"]) == 3


def test_sqlite(folder: Path, program: str, capsys: pytest.CaptureFixture[str]) -> None:
    with sqlite3.connect(folder / "log.db") as database:
        database.execute("create table r (t integer, v real, n text)")
        rows = [(1764406800 + at, 21.5 + at, "a") for at in range(5)]
        database.executemany("insert into r values (?, ?, ?)", [*rows, (1764406900, None, "a")])
    database.close()
    words = [str(folder / "s"), str(folder / "log.db")]
    assert main(words) == 3
    assert main([*words, "--query", "select nothing"]) == 3
    odd = "select 1764406800, 1e300 union select 1764406801, 0.5 union select 1764406802, x'00ff'"
    assert main([str(folder / "odd"), *words[1:], "--query", odd, "--name", "odd"]) == 1
    assert "odd: 1 rows stored, 0 there before, 2 refused" in capsys.readouterr().out
    assert main([*words, "--query", "select t, v as power from r order by t"]) == 0
    assert "5 rows stored, 0 there before, 0 refused, 1 without a value" in capsys.readouterr().out
    words += ["--query", "select t, v, n from r order by t", "--stream", "n", "--name", "all"]
    assert main(words) == 0
    with summarystore.open(folder / "s") as store:
        assert str(store.query("all/a", "sum")) == "117.5"


@pytest.mark.parametrize("words,reason", [
    (["--since", "monday"], "a day is written as"), (["--scale", "-1"], "a scale is more than 0"),
    (["--unit", "\udc80"], "a unit and labels are text"),
])
def test_words_that_cannot_be_are_told_before_a_store_is_made(
        folder: Path, program: str, capsys: pytest.CaptureFixture[str], words: list[str],
        reason: str) -> None:
    (folder / "a.csv").write_text(f"{UTC.format(0)},1\n")
    assert main([str(folder / "s"), str(folder / "a.csv"), *words]) == 3
    assert reason in capsys.readouterr().err
    assert not (folder / "s").exists() and not (folder / "s.names.json").exists()


def test_whisper(folder: Path, program: str) -> None:
    whisper = pytest.importorskip("whisper")
    file = str(folder / "load.wsp")
    whisper.create(file, [(60, 60), (300, 300)])
    now = int(time.time()) // 300 * 300
    whisper.update_many(file, [(now - 60 * at, float(at)) for at in range(1, 30)])
    assert main([str(folder / "s"), file, "--rounding", "half-even"]) == 0
    with summarystore.open(folder / "s") as store:
        found = store.query("load", "count")
        assert found.exact and found.lo >= 29
        assert main([str(folder / "missing"), str(folder / "none.wsp")]) == 3


def test_files_that_cannot_be_read(folder: Path, program: str) -> None:
    assert main([str(folder / "s"), str(folder / "missing.csv")]) == 3
    (folder / "latin.csv").write_bytes(b"t,v\n2026-11-29T10:00Z,1\n\xe9\xff,2\n")
    assert main([str(folder / "s"), str(folder / "latin.csv")]) == 3
    late = b"".join(b"%d,1\n" % (1764406800 + at) for at in range(2000)) + b"1764409000,\xff\n"
    (folder / "late.csv").write_bytes(late)
    assert main([str(folder / "s"), str(folder / "late.csv")]) == 3
    with pytest.raises(errors.SourceError):
        tables.whisper_table(str(folder / "latin.csv"))
    with pytest.raises(errors.TimeError):
        timeforms.guess([], None)
    for words in list[list[str]](([], ["s", "f.csv", "--delimiter", ";;"])):
        with pytest.raises(SystemExit):
            main(words)


def test_a_stream_of_whole_numbers_that_stands(path: Path, folder: Path) -> None:
    with Store(path) as store:
        store.create("a", "exp 2 1 1")
        store.append("a", 1764406800, 5)
    (folder / "a.csv").write_text("1764406800,5\n1764406801,6\n1764406802,6.5\n")
    assert main([str(path), str(folder / "a.csv"), "--name", "a"]) == 1
    with Store(path) as store:
        assert store.query("a", "sum") == 11


def test_an_interrupt(folder: Path, backend: str) -> None:
    """Ctrl-C ends an import in order, and the same command goes on from there."""
    lines = b"".join(b"%d,%d.5\n" % (1764406800 + at, at) for at in range(12_000))
    # Where the tests run in the background of a shell, the signal is passed over without a handler.
    script = "import signal, sys; signal.signal(signal.SIGINT, signal.default_int_handler); " \
             "from summarystore.importing import main; sys.exit(main())"
    words = [sys.executable, "-c", script, str(folder / "s"), "-", "--name", "n"]
    child = subprocess.Popen(words, env={**os.environ, "PYTHONPATH": str(HOME / "src")},
                             stdin=subprocess.PIPE, stdout=subprocess.DEVNULL, stderr=subprocess.PIPE)
    assert child.stdin is not None and child.stderr is not None
    child.stdin.write(lines[:len(lines) * 2 // 3])
    child.stdin.flush()

    def has_begun() -> bool:
        assert child.poll() is None
        image = (folder / "s").read_bytes() if (folder / "s").exists() else b""
        in_use = image[storefile.ENTRY:storefile.FIRST_SLOT:storefile.ENTRY_SIZE].count(storefile.OPEN)
        return len(image) >= 40_000 or in_use > 10      # what one group changed may lie in entries alone
    until(has_begun)
    child.send_signal(signal.SIGINT)
    assert ended(child) == 130
    child.stdin.close()
    assert b"the same command goes on from here" in child.stderr.read()
    child.stderr.close()
    (folder / "all.csv").write_bytes(lines)
    assert main([str(folder / "s"), str(folder / "all.csv"), "--name", "n", "--quiet"]) == 0
    with summarystore.open(folder / "s", existing=True) as store:
        assert store.query("n", "count") == 12_000
        assert str(store.query("n", "sum")) == str(sum(range(12_000)) + 6_000) + ".0"


def test_killed_ten_times(folder: Path, backend: str) -> None:
    """The import is killed at ten places, and the store is that of one that wasn't."""
    with open(folder / "big.csv", "w", encoding="ascii") as out:
        out.write("time,power\n")
        out.writelines(f"{1764406800 + at},{at * 7919 % 100003}.{at % 10}\n" for at in range(IMPORTED))
    words = [sys.executable, "-m", "summarystore.importing", str(folder / "s"), "-", "--quiet",
             "--name", "power"]
    here = {**os.environ, "PYTHONPATH": str(HOME / "src")}
    lines = (folder / "big.csv").read_bytes()
    for part in range(1, 11):
        # So much of the file, and then a kill, while the rest is still to come.
        child = subprocess.Popen(words, env=here, stdin=subprocess.PIPE, stdout=subprocess.DEVNULL,
                                 stderr=subprocess.PIPE, start_new_session=True)
        assert child.stdin is not None and child.stderr is not None
        with contextlib.suppress(BrokenPipeError):      # the one before may hold the lock still
            child.stdin.write(lines[:part * len(lines) // 11])
        child.kill()
        child.wait()
        with contextlib.suppress(BrokenPipeError):
            child.stdin.close()
        said = child.stderr.read().decode()
        child.stderr.close()
        assert not said or "another process" in said, said
    words[words.index("-")] = str(folder / "big.csv")
    while "another process" in (done := subprocess.run(words, env=here, capture_output=True, text=True,
                                                       check=False)).stderr:
        os.sched_yield()
    assert done.returncode == 0, done.stderr
    with summarystore.open(folder / "s") as store:
        assert store.query("power", "count") == IMPORTED
        total = sum(at * 7919 % 100003 * 10 + at % 10 for at in range(IMPORTED))
        assert store.query("power", "sum").lo * 10 == total
        shown = [window for window in store.windows("power")]
    assert main([str(folder / "whole"), str(folder / "big.csv"), "--quiet", "--name", "power"]) == 0
    with summarystore.open(folder / "whole") as store:
        assert [window for window in store.windows("power")] == shown
