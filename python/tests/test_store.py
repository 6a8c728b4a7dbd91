"""The calls of a store, over the program."""

from __future__ import annotations

import datetime
from decimal import Decimal
from pathlib import Path
from typing import cast

import numpy
import pandas
import pytest

import summarystore
from summarystore import Interval, Presence, errors
from summarystore.kinds import ENDS, ESTIMATED, KINDS, Estimated, Kind
from summarystore.series import index_of
from summarystore.store import Store

SEVEN = list(zip(range(10, 80, 10), (5, -3, 8, 1, 9, 2, 7)))


@pytest.fixture
def seven(plain: Store) -> Store:
    """The store of seven values that the guide shows."""
    plain.create("a", "exp 2 1 1")
    assert plain.append_many("a", SEVEN) == 7
    return plain


def test_answers_of_the_guide(seven: Store) -> None:
    table: dict[tuple[Kind, int | None, int | None], str] = {
        ("count", 10, 40): "4", ("sum", 10, 40): "11", ("max", 45, 65): "9", ("count", 10, 25): "1 .. 3",
        ("sum", 10, 25): "-5 .. 16", ("min", 10, 25): "-3 .. 8", ("count", 15, 25): "0 .. 2",
        ("min", 15, 25): "-3 .. 8, or none", ("min", 71, 80): "none", ("count", 25, 55): "2 .. 4",
        ("sum", 25, 55): "-3 .. 25", ("sum", None, None): "29"}
    assert {key: str(seven.query("a", *key)) for key in table} == table
    mean = seven.mean("a", 10, 40)
    assert mean.exact and mean == Interval("2.75") and seven.query("a", "mean", 10, 40) == mean
    assert [seven.has("a", value, 10, 40) for value in (8, 1, 4)] == [
        Presence.PRESENT, Presence.MAYBE, Presence.ABSENT]


def test_series_and_frames(seven: Store) -> None:
    rows = seven.series("a", "max", 0, 100, 50)
    assert [(row.start, str(row.interval)) for row in rows] == [(0, "8"), (50, "9"), (100, "none")]
    assert len(rows) == 3 and rows[1].start == 50 and "3 rows" in repr(rows)
    frame = rows.to_frame()
    assert list(frame["lo"][:2]) == [8.0, 9.0] and frame["mid"].isna()[100] and frame.index[1] == 50
    exact = seven.series("a", "mean", 10, 40, 31).to_frame(exact=True)
    assert exact["mid"][10] == Decimal("2.75")


def test_frames_of_an_hour_that_a_clock_shows_twice(path: Path, backend: str) -> None:
    """Each row has its own time in pandas, too, as it has in its datetime."""
    starts = [f"2026-10-25T0{hour}:{minute}Z" for hour in range(3) for minute in ("00", "30")]
    with summarystore.open(path, zone="Europe/Berlin") as store:
        store.create("a", "exp 2 60 1", time="minute")
        store.append_many("a", [(start, at) for at, start in enumerate(starts)])
        rows = store.series("a", "sum", starts[0], starts[-1], "30 min")
    index = rows.to_frame().index
    assert [each.isoformat() for each in index] == [
        cast(datetime.datetime, row.start).isoformat() for row in rows]
    assert list(index.tz_convert("UTC").strftime("%Y-%m-%dT%H:%MZ")) == starts
    far = datetime.datetime(9000, 1, 1, tzinfo=datetime.timezone.utc)      # beyond what 64 bits of ns count
    assert list(index_of([far])) == [far] and list(index_of([far, 5])) == [far, 5]


def test_windows_last_and_list(seven: Store) -> None:
    windows = list(seven.windows("a"))
    assert [(w.first, w.last, w.count, w.sum, w.least, w.greatest, w.start, w.end) for w in windows] == [
        (1, 4, 4, 11, -3, 8, 10, 40), (5, 6, 2, 11, 2, 9, 50, 60), (7, 7, 1, 7, 7, 7, 70, 70)]
    last = seven.last("a")
    assert last is not None and (last.time, last.newest, last.value) == (70, 70, Interval(7))
    (stream,) = seven.list()
    assert (stream.name, stream.target, stream.values, stream.windows) == ("a", "exp 2 1 1", 7, 3)


def test_last_of_a_new_stream(plain: Store) -> None:
    plain.create("a", ("exp", 2, 1, 1))
    assert plain.last("a") is None and plain.span("a") is None
    with plain.landmark("a", 5, 9):
        found = plain.last("a")
        assert found is not None and (found.time, found.newest, found.value) == (5, None, None)


def test_landmarks(seven: Store) -> None:
    with seven.landmark("a", 80):
        assert seven.append("a", 80, 95) == (7, 3)
        seven.append("a", 90, 97)
    assert [tuple(reading) for reading in seven.values("a")] == [(80, 95), (90, 97)]
    assert seven.query("a", "max", 80, 90) == 97
    with pytest.raises(errors.LateError) as late:
        seven.append("a", 90, 1)
    assert late.value.newest == 90
    with seven.landmark("a", 100, 200):
        with pytest.raises(errors.LandmarkOpenError):
            with seven.landmark("a", 110):
                pass
    last = seven.last("a")
    assert last is not None and last.time == 200
    with pytest.raises(errors.RangeError):
        with seven.landmark("a", 300, 299):     # it isn't opened
            pass
    with pytest.raises(ValueError):
        with seven.landmark("a", 300, 310):
            raise ValueError("closed all the same")
    assert seven.append("a", 311, 1).values == 8


def test_certificates(seven: Store) -> None:
    for kind in ESTIMATED[:2]:      # those of means are fractions
        for end in ENDS:
            for first in (0, 15, 25, 45):
                for last in (45, 55, 100):
                    found = seven.certify("a", kind, end, first, last)
                    answer = seven.query("a", kind, first, last)
                    assert found.check() == (answer.lo if end == "lo" else answer.hi)


def test_certificates_with_landmarks(seven: Store) -> None:
    with seven.landmark("a", 80, 90):
        seven.append("a", 85, 50)
    seven.append_many("a", [(100, 3), (110, 4), (120, 5)])
    for last in (84, 85, 104, 115):
        found = seven.certify("a", "sum", "hi", 15, last, landmarks=[(80, 90)])
        assert found.check() == seven.query("a", "sum", 15, last).hi
    with pytest.raises(errors.CertificateError, match="1 landmarks"):
        seven.certify("a", "sum", "hi", 15, 55).check()


REFUSED = [
    ("create a exp 2 1 1", errors.StreamExistsError), ("create b exp 1 1 1", errors.TargetError),
    ("create b exp 2 1", errors.CommandError), ("create b! exp 2 1 1", errors.StreamNameError),
    ("append b 1 1", errors.UnknownStreamError), ("append a 70 1", errors.LateError),
    ("append a 80 9223372036854775808", errors.NumberError), ("query a avg 1 2", errors.CommandError),
    ("query a sum 2 1", errors.RangeError), ("landmark a close 80", errors.LandmarkNotOpenError),
    ("cursor close", errors.NoCursorError), ("series a sum 0 100000 1", errors.NumberError),
    ("append " + "a" * 250 + " 1 1", errors.LineTooLongError),
]


@pytest.mark.parametrize("line,kind", REFUSED)
def test_refusals(seven: Store, line: str, kind: type[errors.RefusedError]) -> None:
    request = seven.send([line])
    word = request.replies[0].head.removeprefix("refused ")
    refusal = errors.refusal_of(word, line)
    assert type(refusal) is kind and refusal.refusal == word and line in str(refusal)


def test_refusals_of_calls(seven: Store) -> None:
    with pytest.raises(errors.StreamExistsError):
        seven.create("a", "exp 2 1 1")
    with pytest.raises(errors.UnknownStreamError):
        seven.append("b", 1, 1)
    with pytest.raises(errors.LateError, match="70") as late:
        seven.append("a", 70, 1)
    assert late.value.newest == 70
    with pytest.raises(errors.NumberError):
        seven.append("a", 80, 2**63)
    with pytest.raises(errors.NumberError):
        seven.append("a", 80, 1.5)
    with pytest.raises(errors.NumberError):
        seven.append("a", "80", 1)
    with pytest.raises(errors.RangeError):
        seven.query("a", "sum", 5, 4)
    with pytest.raises(errors.KindError, match="one of count, sum, min, max, mean, .* and not 'median'"):
        seven.query("a", cast(Kind, "median"), 1, 2)
    with pytest.raises(errors.KindError, match="one of count, sum, mean, and not"):
        seven.certify("a", cast(Estimated, "min"), "lo", 1, 2)
    assert seven.query("a", "count") == 7


def test_within(plain: Store) -> None:
    """However old a step is, what is asked of it is one number. Without a step it isn't."""
    for name, within in (("hours", 60), ("all", None)):
        plain.create(name, "exp 2 1 1", within=within)
        plain.append_many(name, [(minute, minute % 7) for minute in range(30, 3000, 4)])
    assert [(stream.name, stream.target, stream.within) for stream in plain.list()] == [
        ("hours", "exp 2 1 1", 60), ("all", "exp 2 1 1", None)]
    for kind in KINDS[:4]:
        assert all(row.interval.exact for row in plain.series("hours", kind, 0, 2999, 60))
    assert plain.query("hours", "sum", 60, 119) == sum(minute % 7 for minute in range(62, 120, 4))
    assert not plain.query("all", "sum", 60, 119).exact
    spans = [(cast(int, window.start), cast(int, window.end)) for window in plain.windows("hours")]
    assert all(start // 60 == end // 60 for start, end in spans)


def test_steps_that_are_refused(plain: Store) -> None:
    for step, kind in ((0, errors.TargetError), (2**32, errors.NumberError), (2**70, errors.NumberError),
                       (-1, errors.NumberError)):
        with pytest.raises(kind):
            plain.create("a", "exp 2 1 1", within=step)
    with pytest.raises(errors.NumberError):
        plain.create("a", "exp 2 1 1", within=cast(int, "60"))
    with pytest.raises(errors.CommandError):
        plain.create("a", "exp 2 1 1 withing 60")
    plain.create("a", "exp 2 1 1 within 60")
    plain.create("b", ("power", 1, 1, 4, 1), 2**32 - 1)
    assert [stream.within for stream in plain.list()] == [60, 2**32 - 1]


def test_rows_of_many_forms(plain: Store) -> None:
    plain.create("a", "exp 2 1 1")
    assert plain.append_many("a", {1: 5, 2: 6}) == 2
    assert plain.append_many("a", pandas.Series([7, 8], index=[3, 4])) == 2
    assert plain.append_many("a", zip(numpy.arange(5, 7), numpy.array([1, 2]))) == 2
    assert plain.append_many("a", ((t, t) for t in range(7, 10))) == 3
    assert plain.append_many("a", []) == 0
    assert plain.query("a", "sum") == 5 + 6 + 7 + 8 + 1 + 2 + 7 + 8 + 9
    with pytest.raises(TypeError):
        plain.append_many("a", 5)


def test_refused_rows(seven: Store) -> None:
    rows = [(80, 1), (80, 2), (81, 3)]
    with pytest.raises(errors.RowsRefusedError) as many:
        seven.append_many("a", rows)
    assert many.value.stored == 2 and many.value.refused[0][0] == (80, 2)
    late = many.value.refused[0][1]
    assert isinstance(late, errors.LateError) and late.newest == 81
    met: list[object] = []
    stored = seven.append_many("a", [(82, 1), (5, 5), (83, "x"), (83, 1.5), (84, 2)],
                               refused=lambda row, error: met.append((row, type(error))))
    assert stored == 2
    expected = [((5, 5), errors.LateError), ((83, "x"), errors.NumberError), ((83, 1.5), errors.NumberError)]
    assert sorted(map(str, met)) == sorted(map(str, expected))


def test_sending_stops_at_a_refusal(plain: Store) -> None:
    plain.create("a", "exp 2 1 1")
    taken = 0

    def rows() -> object:
        nonlocal taken
        for taken in range(1, 10**6):
            yield (taken if taken != 1500 else 3, 0)

    with pytest.raises(errors.RowsRefusedError) as many:
        plain.append_many("a", rows())
    assert taken < 10**4 and many.value.stored == taken - 1


def test_drop_and_check(seven: Store) -> None:
    found = seven.check()
    assert tuple(found) == (1, 3, 0, 0)
    seven.drop("a")
    with pytest.raises(errors.UnknownStreamError):
        seven.query("a", "count")
    assert seven.check().streams == 0 and not seven.list()


def test_opening_again(path: Path, backend: str) -> None:
    with Store(path) as first:
        first.create("a", "exp 2 1 1")
        first.append_many("a", SEVEN)
    with Store(path) as again:
        assert again.query("a", "sum") == 29
    assert "closed" in repr(again)
    again.close()
    with pytest.raises(errors.StoreClosedError):
        again.query("a", "sum")


def test_many_bytes_renew_the_process(path: Path) -> None:
    with Store(path, renew_at=1000) as store:
        store.create("a", "exp 2 1 1")
        pids = set()
        for time in range(1, 200):
            store.append("a", time, time)
            pids.add(store.pid)
        assert len(pids) > 2 and store.query("a", "count") == 199


def test_whole_store_check(seven: Store, folder: Path) -> None:
    with pytest.raises(errors.LockedError):
        summarystore.check(seven.path)
    seven.close()
    assert summarystore.check(seven.path).windows == 3
    assert summarystore.check(folder / "missing.store") == (0, 0, 0, 0)
    with pytest.raises(errors.NoStoreError):
        summarystore.check(folder / "missing.store", existing=True)


def test_pictures(seven: Store, folder: Path) -> None:
    axes = seven.plot("a")
    axes.figure.savefig(folder / "a.svg")
    assert (folder / "a.svg").stat().st_size > 1000
    assert seven.plot("a", "max", 0, 200, 50, ax=axes) is axes
    with pytest.raises(errors.NoValueError):
        seven.create("b", "exp 2 1 1")
        seven.plot("b")
