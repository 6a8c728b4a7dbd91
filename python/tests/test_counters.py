"""Counters: joined over resets and overflows, also where something is killed at any moment."""

from __future__ import annotations

import asyncio
import os
import signal
import warnings
from collections.abc import Iterator, Sequence
from decimal import Decimal
from itertools import accumulate
from pathlib import Path

import pytest
from hypothesis import given
from hypothesis import strategies as st

import summarystore
from summarystore import Interval, aio, errors, sending
from summarystore.meters import Counter, Join, Joins, Standing, increase_of
from summarystore.store import Store

from .waiting import run

METER = "home/meter/energy"


def truth_of(readings: Sequence[int], overflow: int | None = None) -> list[int]:
    """What a counter has after each reading, by adding up what was used between two."""
    used = list(readings[:1])
    for last, value in zip(readings, readings[1:]):
        over = overflow is not None and 2 * (overflow - last + value) < overflow
        fallen = overflow - last + value if over and overflow else value
        used.append(value - last if value >= last else fallen)
    return list(accumulate(used))


READINGS = st.lists(st.integers(0, 999), max_size=30)


@given(READINGS, st.one_of(st.none(), st.just(1000)), st.data())
def test_whatever_is_lost_nothing_is_counted_twice(readings: list[int], overflow: int | None,
                                                   data: st.DataObject) -> None:
    """Readings come in batches. After each the store has some first of them, and the joins are those that
    were written before. What has no answer is sent again, and more may come behind it."""
    stored: list[tuple[int, int]] = []
    file: Joins = ()

    def keep(joins: Joins) -> None:
        nonlocal file
        file = joins
    at = 0
    while at < len(readings):
        batch = [(time + 1, readings[time]) for time in range(at, min(len(readings), at + data.draw(
            st.integers(1, 8))))]
        standing = Standing(stored[-1][0], stored[-1][1]) if stored else Standing()
        rows = Counter("a", standing, file, overflow, keep).rows(batch)
        lasted = data.draw(st.integers(0, len(rows)))
        stored += rows[:lasted]
        at += lasted
        if data.draw(st.booleans()) and lasted < len(rows):
            continue        # sent again
        if lasted < len(rows):      # it never is: what it said isn't known to anybody
            readings[at:at + len(rows) - lasted] = []
            readings[:] = readings[:at] + readings[at:]
            at = at if at < len(readings) else len(readings)
    assert [value for _, value in stored] == truth_of([readings[time - 1] for time, _ in stored], overflow)


def test_resets_and_overflows() -> None:
    kept: list[Joins] = []
    counter = Counter("a", Standing(), (), 1000, kept.append)
    assert counter.rows([(1, 900), (2, 990), (3, 10), (4, 400), (5, 30)]) == [
        (1, 900), (2, 990), (3, 1010), (4, 1400), (5, 1430)]
    assert kept == [(Join(2, 1000), Join(4, 1400))]
    for wrong in (-1, 1000):
        with pytest.raises(errors.MeterError):
            counter.rows([(6, 40), (7, wrong)])
    assert counter.rows([(6, 41)]) == [(6, 1441)]
    assert counter.rows([(3, 10), (4, 400)]) == [(3, 1010), (4, 1400)]


def test_a_join_whose_reading_was_not_stored() -> None:
    """The join is on the disk and its reading isn't: the old offset holds."""
    joins = (Join(2, 1000), Join(4, 1400))
    assert Counter("a", Standing(4, 1400), joins, None, print).rows([(5, 500)]) == [(5, 1500)]
    assert Counter("a", Standing(5, 1430), joins, None, print).rows([(6, 31)]) == [(6, 1431)]


def test_what_rose() -> None:
    assert increase_of(Interval(5), Interval(7), Interval(1)) == 2
    assert increase_of(Interval.nothing(), Interval(7), Interval(1)) == 6
    assert increase_of(Interval(3, 6), Interval(5, 9), Interval(1)) == Interval(0, 6)
    assert increase_of(Interval(3, 6, maybe_none=True), Interval(7), Interval(1)) == Interval(1, 6)
    assert increase_of(Interval.nothing(), Interval.nothing(), Interval(1)).none


def test_a_meter(path: Path, backend: str) -> None:
    day = "2026-11-29T{:02}:00Z"
    with summarystore.open(path) as store:
        store.create(METER, "power 1 1 4 1", scale="0.1", unit="kWh", kind="counter", overflow="1000")
        store.append(METER, day.format(1), "998.5")
        assert store.append_many(METER, [(day.format(2), "999.5"), (day.format(3), "0.5")]) == 2
    with summarystore.open(path) as store:
        assert store.append(METER, day.format(4), "2.0").values == 4
        with pytest.raises(errors.MeterError):
            store.append(METER, day.format(5), 1000)
        store.append(METER, day.format(5), "1.5")
        meter = store[METER]
        assert meter.increase(day.format(1), day.format(5)) == Decimal("5.0")
        assert meter.increase() == Decimal("5.0") and meter.increase(day.format(2), day.format(3)) == 1
        assert meter.value_at(day.format(3)) == Decimal("1000.5") and meter.value_at(day.format(0)).none
        assert store.query(METER, "increase", day.format(3), day.format(5)) == 3
        rows = store.series(METER, "increase", day.format(0), day.format(6), "2h")
        assert [str(row.interval) for row in rows] == ["1.0", "2.5", "1.5"] and rows.unit == "kWh"
        assert str(rows[1].start) == "2026-11-29 02:00:00+00:00"
        with pytest.raises(errors.RangeError):
            meter.increase(day.format(2), day.format(1))
        with pytest.raises(errors.NumberError):
            store.series(METER, "increase", None, None, 1)
        with pytest.raises(errors.DescriptionError, match="lateness"):
            store.reordered(METER, "1h")
        store.create("plain", "exp 2 60 1", scale="0.1")
        with pytest.raises(errors.DescriptionError, match="kind='counter'"):
            store.increase("plain")
        with pytest.raises(errors.DescriptionError, match="another kind"):
            store.create("plain", "exp 2 60 1", scale="0.1", kind="counter", exist_ok=True)
        for kind, overflow in (("rain", None), (None, "5"), ("counter", "0")):
            with pytest.raises(errors.DescriptionError):
                store.create("other", "exp 2 60 1", kind=kind, overflow=overflow)


def test_intervals_hold_what_rose(store: Store) -> None:
    """Also when windows have become long."""
    store.create("m", "exp 2 1 1", time="minute", kind="counter")
    readings = [(time * 7 % 5000 if time < 900 else time % 500) for time in range(2000)]
    store.append_many("m", list(enumerate(readings, 1)))
    truth = truth_of(readings)
    for first, last in ((1, 2000), (3, 777), (500, 501), (1990, 1999), (950, 1400)):
        assert truth[last - 1] - truth[first - 1] in store.increase("m", first, last)
        assert truth[last - 1] in store.value_at("m", last)
    for row in store.series("m", "increase", 1, 2000, 250):
        assert row.interval.lo >= 0
    assert store.increase("m") == truth[-1] - truth[0]


def test_kills_of_the_program(path: Path, monkeypatch: pytest.MonkeyPatch) -> None:
    """Whatever the program had stored when it was killed: what is kept is right after it was sent again."""
    monkeypatch.setattr(sending, "CHUNK", 20)       # some are under way when it is killed
    readings = [time * 13 % 101 for time in range(600)]
    truth = truth_of(readings)
    with summarystore.open(path) as store:
        store.create("m", "exp 2 60 1", time="s", kind="counter")
        rows, sent, kills = list(enumerate(readings, 1)), 0, 0

        def some(begin: int) -> Iterator[tuple[int, int]]:
            for at, row in enumerate(rows[begin:begin + 150]):
                if at == 130 and store.pid is not None:
                    os.kill(store.pid, signal.SIGKILL)
                yield row
        while sent < len(rows):
            sent += store.append_many("m", rows[sent:sent + 60])
            with warnings.catch_warnings():
                warnings.simplefilter("ignore")
                try:
                    sent += store.append_many("m", some(sent))
                except errors.ProcessEndedError:
                    sent, kills = store.last_count("m") or 0, kills + 1
        assert kills > 1 and store.increase("m") == truth[-1] - truth[0]
        for at in range(len(rows) - 50, len(rows)):
            assert store.value_at("m", at + 1) == truth[at]


def test_with_asyncio(path: Path) -> None:
    async def work() -> None:
        async with await aio.open(path) as store:
            await store.create(METER, "exp 2 60 1", kind="counter")
            await store.append(METER, 1, 5)
            await asyncio.gather(*(store.append_many(METER, [(time, 8 - time)]) for time in (2, 3, 4)))
            assert await store[METER].increase() == 10 and await store.value_at(METER, 2) == 6
            assert await store.kept(METER, [(2, 6), (3, 5)]) == [(2, 6), (3, 11)]
            rows = await store.series(METER, "increase", 0, 4, 2)
            assert [row.interval for row in rows] == [1, 9]
    run(work())
