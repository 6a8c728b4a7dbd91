"""Days, weeks, months and years of a zone: rows from midnight to midnight, whatever its clocks do between."""

from __future__ import annotations

import datetime
import warnings
import zoneinfo
from collections.abc import Callable, Mapping, Sequence
from itertools import pairwise
from pathlib import Path

import pytest
from hypothesis import given, strategies

import summarystore
from summarystore import aio, errors
from summarystore.calendars import Calendar, unit_of
from summarystore.clock import UTC
from summarystore.exporting import main
from summarystore.kinds import Kind
from summarystore.store import Store

from .waiting import run

BERLIN, KATHMANDU, LORD_HOWE = "Europe/Berlin", "Asia/Kathmandu", "Australia/Lord_Howe"
HOUR = datetime.timedelta(hours=1)
Moment = datetime.datetime
NAMES = ("1d", "1w", "1mon", "1y")
ONES: Mapping[Kind, Callable[[Sequence[int]], int]] = {"count": len, "sum": sum, "min": min, "max": max}


def local(zone: str, year: int, month: int, day: int, hour: int = 0) -> Moment:
    """What a clock of a zone shows."""
    return Moment(year, month, day, hour, tzinfo=zoneinfo.ZoneInfo(zone))


def readings(first: Moment, last: Moment, apart: datetime.timedelta) -> list[tuple[Moment, int]]:
    """A reading each span of time, in UTC."""
    begin, count = first.astimezone(UTC), int((last.astimezone(UTC) - first.astimezone(UTC)) / apart)
    return [(begin + at * apart, at % 97 - 20) for at in range(count)]


def by_hand(rows: Sequence[tuple[Moment, int]], zone: str, step: str) -> Mapping[datetime.date, list[int]]:
    """The values of each day, week, month or year by what the clock of a zone shows at each reading."""
    first: Mapping[str, Callable[[datetime.date], datetime.date]] = {
        "1d": lambda day: day, "1w": lambda day: datetime.date.fromisocalendar(*day.isocalendar()[:2], 1),
        "1mon": lambda day: datetime.date(day.year, day.month, 1),
        "1y": lambda day: datetime.date(day.year, 1, 1)}
    found: dict[datetime.date, list[int]] = {}
    for time, value in rows:
        found.setdefault(first[step](time.astimezone(zoneinfo.ZoneInfo(zone)).date()), []).append(value)
    return found


@pytest.mark.parametrize("zone, within, apart, years", [
    (BERLIN, 3600, HOUR, (2025, 2028)), (KATHMANDU, 900, HOUR / 4, (2026, 2027)),
    (LORD_HOWE, 1800, HOUR / 2, (2025, 2027))])
def test_rows_of_a_zone(store: Store, zone: str, within: int, apart: datetime.timedelta,
                        years: tuple[int, int]) -> None:
    """Each row is exact where the step of the stream fits, and holds the readings of its own days."""
    ends = [local(zone, year, 1, 1) for year in years]
    rows = readings(ends[0], ends[1], apart)
    store.create("house", "exp 2 1 1", within, scale=1)
    store.append_many("house", rows)
    last = ends[1].astimezone(UTC) - datetime.timedelta(seconds=1)
    for step in NAMES:
        truth = by_hand(rows, zone, step)
        days = sorted(truth)
        for kind in ONES:
            with warnings.catch_warnings():
                warnings.simplefilter("error")
                found = store.series("house", kind, ends[0], last, step, zone)
            assert [row.interval for row in found] == [ONES[kind](truth[day]) for day in days], (step, kind)
        starts = [row.start for row in found]
        assert starts == [local(zone, day.year, day.month, day.day) for day in days]
        mean, values = store.series("house", "mean", ends[0], last, step, zone)[0].interval, truth[days[0]]
        assert mean.lo * len(values) <= sum(values) <= mean.hi * len(values) and mean.width < 1


def hours(rows: Sequence[summarystore.Row]) -> list[float]:
    """How long each row is, but the last."""
    starts = [row.start for row in rows if isinstance(row.start, Moment)]
    return [(after.astimezone(UTC) - start.astimezone(UTC)) / HOUR for start, after in pairwise(starts)]


def test_days_of_23_and_25_hours(store: Store) -> None:
    store.create("house", "exp 2 60 1", 3600, scale=1)
    store.append_many("house", readings(local(BERLIN, 2025, 1, 1), local(BERLIN, 2028, 1, 1), HOUR))
    for year, spring, autumn in ((2025, 30, 26), (2026, 29, 25), (2027, 28, 31)):
        days = store.series("house", "count", f"{year}-01-01", f"{year}-12-31", "1d", BERLIN)
        assert len(days) == 365
        changed = {str(row.start)[5:10]: long for row, long in zip(days, hours(days)) if long != 24}
        assert changed == {f"03-{spring}": 23, f"10-{autumn}": 25}
        months = store.series("house", "count", f"{year}-01-01", f"{year}-12-31", "1mon", BERLIN)
        assert [row.interval for row in months] == [
            24 * days - (month == 3) + (month == 10) for month, days in
            enumerate((31, 28, 31, 30, 31, 30, 31, 31, 30, 31, 30, 31), 1)]
    years = store.series("house", "count", "2025-01-01", "2027-12-31", "1y", BERLIN)
    assert [row.interval for row in years] == [8760] * 3
    weeks = store.series("house", "count", "2025-03-24", "2025-04-06", "1w", BERLIN)
    assert [row.interval for row in weeks] == [167, 168]


def test_half_an_hour(store: Store) -> None:
    """On Lord Howe clocks go on by half an hour."""
    store.create("house", "exp 2 60 1", 1800, scale=1)
    rows = readings(local(LORD_HOWE, 2026, 1, 1), local(LORD_HOWE, 2027, 1, 1), HOUR / 2)
    store.append_many("house", rows)
    found = store.series("house", "count", "2026-01-01", "2026-12-31", "1d", LORD_HOWE)
    assert {str(row.start)[5:10]: row.interval.mid for row in found if row.interval != 48} == {
        "04-05": 49, "10-04": 47}


def test_24_hours_stay_24_hours(path: Path, program: str) -> None:
    with summarystore.open(path, zone=BERLIN) as store:
        store.create("house", "exp 2 60 1", scale=1)
        store.append_many("house", readings(local(BERLIN, 2025, 3, 1), local(BERLIN, 2025, 5, 1), HOUR))
        span = ("2025-03-28", "2025-04-02")
        assert set(hours(store.series("house", "count", *span, "24h"))) == {24}
        assert set(hours(store.series("house", "count", *span, datetime.timedelta(days=1)))) == {24}
        assert hours(store.series("house", "count", *span, "24h", BERLIN)) == [24] * 5
        assert hours(store.series("house", "count", *span, "1d")) == [24, 24, 23, 24, 24]
        kathmandu = store.series("house", "count", *span, "1d", KATHMANDU)
        assert [str(row.start) for row in kathmandu[:1]] == ["2025-03-28 00:00:00+05:45"]
    with summarystore.open(path) as store:
        rows = store.series("house", "count", local(BERLIN, 2025, 3, 28), local(BERLIN, 2025, 4, 2), "1d")
        assert set(hours(rows)) == {24}
        with pytest.raises(errors.TimeError, match="1mon needs a zone"):
            store.series("house", "count", rows[0].start, rows[1].start, "1mon")
        with pytest.raises(errors.TimeError, match="no such zone"):
            store.series("house", "count", rows[0].start, rows[1].start, "1d", "Europe/Nowhere")


def test_whole_days_however_the_range_is_told(store: Store) -> None:
    """The first row is that of the day in which the range begins, the last that in which it ends."""
    store.create("house", "exp 2 60 1", 3600, scale=1)
    store.append_many("house", readings(local(BERLIN, 2025, 3, 1), local(BERLIN, 2025, 5, 1), HOUR))
    rows = store.series("house", "count", "2025-03-29T11:30+01:00", "2025-03-31T00:00+02:00", "1d", BERLIN)
    assert [str(row.start) for row in rows] == [
        "2025-03-29 00:00:00+01:00", "2025-03-30 00:00:00+01:00", "2025-03-31 00:00:00+02:00"]
    assert [row.interval for row in rows] == [24, 23, 24]
    with pytest.raises(errors.RangeError):
        store.series("house", "count", "2025-03-31", "2025-03-29", "1d", BERLIN)
    with pytest.raises(errors.NumberError):
        store.series("house", "count", None, None, "1d", BERLIN)
    with pytest.raises(errors.TimeError, match="year 9999"):
        store.series("house", "count", "9999-12-01", "9999-12-30", "1mon", BERLIN)


def test_a_step_that_does_not_fit_is_told_once(store: Store) -> None:
    span = local(BERLIN, 2026, 3, 1), local(BERLIN, 2026, 4, 1)
    for name, within, time in (("days", 86400, "s"), ("hours", 3600, "s"), ("minutes", 1440, "minute")):
        store.create(name, "exp 2 1 1", within, scale=1, time=time)
        store.append_many(name, readings(*span, HOUR))
    with pytest.warns(errors.StepWarning) as told:
        for zone in (BERLIN, BERLIN, "UTC", KATHMANDU, LORD_HOWE):
            for name in ("days", "hours", "minutes"):
                store.series(name, "sum", *span, "1d", zone)
    text = [str(warning.message) for warning in told if warning.category is errors.StepWarning]
    assert text[0] == ("days: within 86400 doesn't fit: a day of Europe/Berlin doesn't begin at a multiple "
                       "of it, so its row cuts windows; `within 3600` would")
    assert [(line.split(":")[0], line.split("; ")[1]) for line in text] == [
        ("days", "`within 3600` would"), ("minutes", "`within 60` would"),
        ("days", "`within 900` would"), ("hours", "`within 900` would"), ("minutes", "`within 15` would"),
        ("days", "`within 1800` would"), ("minutes", "`within 30` would")]
    fits = store.series("days", "sum", *span, "1d", "UTC")
    assert all(row.interval.exact for row in fits)


def test_coarse_times(store: Store) -> None:
    """Where midnight lies between two times of a stream, each time is of the day that it lies in."""
    store.create("hours", "exp 2 60 1", 24, scale=1, time="hour")
    rows = readings(local("UTC", 2026, 3, 1), local("UTC", 2026, 3, 9), HOUR)
    store.append_many("hours", rows)
    truth = by_hand(rows, KATHMANDU, "1d")
    with pytest.warns(errors.StepWarning, match="no step of times like these would"):
        found = store.series("hours", "count", "2026-03-01", "2026-03-08", "1d", KATHMANDU)
    assert [row.interval for row in found] == [len(truth[day]) for day in sorted(truth)][:8]
    store.create("days", "exp 2 60 1", scale=1, time="day")
    store.append_many("days", [(datetime.date(2026, 1, 1) + datetime.timedelta(days=at), at)
                               for at in range(365)])
    months = store.series("days", "count", "2026-01-01", "2026-12-31", "1mon", KATHMANDU)
    assert [row.interval for row in months] == [31, 28, 31, 30, 31, 30, 31, 31, 30, 31, 30, 31]


def test_counters_and_estimates(path: Path, program: str) -> None:
    """A row of an increase goes until the next row begins, and estimates have rows of the zone, too."""
    with summarystore.open(path, zone=BERLIN) as store:
        store.create("energy", "exp 2 1 1", 3600, scale=1, kind="counter")
        store.append_many("energy", [(time, 10 * at) for at, (time, _) in enumerate(
            readings(local(BERLIN, 2026, 3, 28), local(BERLIN, 2026, 4, 2), HOUR))])
        rows = store.series("energy", "increase", "2026-03-28", "2026-03-31", "1d")
        assert [row.interval for row in rows] == [240, 230, 240, 240]
        guessed = store.estimates("energy", "count", "2026-03-28", "2026-03-31", "1d")
        assert [row.guess for row in guessed] == [24, 23, 24, 24]
        assert [row.start for row in guessed] == [row.start for row in rows]


def test_many_rows_in_one_go(store: Store) -> None:
    store.create("house", "exp 2 1 1", 3600, scale=1)
    store.append_many("house", [(f"{year}-07-01T12:00Z", year) for year in range(1971, 2026)])
    rows = store.series("house", "mean", "1971-01-01", "2025-12-31", "1d", BERLIN)
    assert len(rows) == sum(366 if year % 4 == 0 else 365 for year in range(1971, 2026))
    assert [row.interval for row in rows if not row.interval.none] == list(range(1971, 2026))


def test_numbers_have_no_days(store: Store) -> None:
    store.create("plain", "exp 2 60 1")
    store.append("plain", 5, 5)
    with pytest.raises(errors.DescriptionError, match="no days of a zone"):
        store.series("plain", "sum", 0, 10, "1d", BERLIN)


def test_for_asyncio(path: Path, program: str) -> None:
    async def work() -> None:
        async with await aio.open(path) as store:
            await store.create("house", "exp 2 1 1", 3600, scale=1)
            month = local(BERLIN, 2026, 3, 1), local(BERLIN, 2026, 4, 1)
            await store.append_many("house", readings(*month, HOUR))
            rows = await store.series("house", "count", "2026-03-28", "2026-03-30", "1d", BERLIN)
            assert [row.interval for row in rows] == [24, 23, 24]
            assert await store["house"].series("count", "2026-03-28", "2026-03-30", "1d", BERLIN)
    run(work())


def test_export(path: Path, program: str, capsys: pytest.CaptureFixture[str]) -> None:
    with summarystore.open(path) as store:
        store.create("house", "exp 2 1 1", 86400, scale=1)
        store.append_many("house", readings(local(BERLIN, 2026, 1, 1), local(BERLIN, 2027, 1, 1), HOUR))
    words = [str(path), "house", "--series", "count", "--step", "1mon", "--zone", BERLIN]
    assert main(words) == 0
    shown = capsys.readouterr()
    lines = shown.out.splitlines()
    assert len(lines) == 13 and lines[4].startswith("2026-04-01T00:00:00+02:00,")
    assert shown.err.count("`within 3600` would") == 1
    assert shown.err.startswith("summarystore-export: house: ")
    assert main(words[:-2]) == 3 and "say --zone" in capsys.readouterr().err


SOME = sorted(set(zoneinfo.available_timezones()) - {"localtime"})
SINCE, UNTIL = 1325376000, 2082758400
"""From 2012 to 2036, in which no clock was put back to the day before."""


@given(strategies.sampled_from(SOME), strategies.sampled_from(NAMES), strategies.integers(SINCE, UNTIL),
       strategies.integers(0, 400 * 86400))
def test_edges_are_the_first_moments_of_days(zone: str, step: str, first: int, length: int) -> None:
    unit = unit_of(step)
    assert unit is not None
    where = zoneinfo.ZoneInfo(zone)
    found = Calendar(unit, where).edges(first * 10**9, (first + length) * 10**9, 1000)
    assert found is not None and found[0] <= first * 10**9
    assert found[-2:-1] == [edge for edge in found if edge <= (first + length) * 10**9][-1:]
    for edge in found:
        moment = Moment.fromtimestamp(edge // 10**9, UTC)
        shown, before = moment.astimezone(where), (moment - datetime.timedelta(seconds=1)).astimezone(where)
        assert before.date() < shown.date()
        assert unit != "week" or shown.weekday() == 0
        assert unit not in ("month", "year") or shown.day == 1
        assert unit != "year" or shown.month == 1


def test_days_that_zones_left_out() -> None:
    """Samoa had no 30 December 2011, and in Beirut summer begins at midnight."""
    apia = Calendar("day", zoneinfo.ZoneInfo("Pacific/Apia")).edges(
        int(local("Pacific/Apia", 2011, 12, 28).timestamp()) * 10**9,
        int(local("Pacific/Apia", 2012, 1, 1).timestamp()) * 10**9, 100)
    assert apia is not None and [after - edge for edge, after in pairwise(apia)] == [86400 * 10**9] * 4
    beirut = zoneinfo.ZoneInfo("Asia/Beirut")
    found = Calendar("day", beirut).edges(int(local("Asia/Beirut", 2025, 3, 29).timestamp()) * 10**9,
                                          int(local("Asia/Beirut", 2025, 3, 30, 5).timestamp()) * 10**9, 100)
    assert found is not None
    assert [(after - edge) // 3600 // 10**9 for edge, after in pairwise(found)] == [24, 23]


def test_gauges(store: Store) -> None:
    """What a gauge adds up to in a day goes until the next day begins."""
    store.create("power", "exp 2 1 1", 3600, scale=1, kind="gauge", integrate="h")
    rows = readings(local(BERLIN, 2026, 3, 28), local(BERLIN, 2026, 4, 2), HOUR)
    store.append_many("power", [(time, 100) for time, _ in rows])
    found = store.series("power", "integral", "2026-03-28", "2026-03-31", "1d", BERLIN)
    assert [row.interval for row in found] == [2400, 2300, 2400, 2400]
    mean = store.series("power", "time_mean", "2026-03-28", "2026-03-31", "1d", BERLIN)
    assert [row.interval for row in mean] == [100] * 4
