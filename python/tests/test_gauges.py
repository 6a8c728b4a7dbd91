"""Gauges: what they add up to over time, also where something is killed at any moment."""

from __future__ import annotations

import os
import signal
import warnings
from collections.abc import Iterator, Sequence
from decimal import Decimal
from fractions import Fraction
from pathlib import Path

import pytest
from hypothesis import given
from hypothesis import strategies as st

import summarystore
from summarystore import aio, errors, sending
from summarystore.gauges import BESIDE, Gauge, GaugeStanding, Triple
from summarystore.meters import Joins
from summarystore.store import Store

from .waiting import run

POWER = "home/meter/power"
DAY = "2026-11-29T{}Z"
RULES = ("step", "trapezoid")
Readings = Sequence[tuple[int, int]]


def truth_of(readings: Readings, rule: str = "step") -> list[int]:
    """What was added up until each reading: steps of time times steps of the value, or halves of them."""
    total = [0] * bool(readings)
    for (since, stood), (time, value) in zip(readings, readings[1:]):
        total.append(total[-1] + (time - since) * (stood if rule == "step" else stood + value))
    return total


class Disk:
    """What the two streams hold: a crash leaves some first of the lines that were sent."""

    def __init__(self) -> None:
        self.readings: list[tuple[int, int]] = []
        self.increments: list[tuple[int, int]] = []
        self.joins: Joins = ()

    def standing(self) -> GaugeStanding:
        """As the store says it."""
        time, value = self.readings[-1] if self.readings else (-1, None)
        until, added = self.increments[-1] if self.increments else (-1, 0)
        return GaugeStanding(time, value, until, added)

    def keep(self, joins: Joins) -> None:
        """What is kept beside the store."""
        self.joins = joins

    def take(self, rows: Sequence[tuple[int, int, int]], lines: int) -> int:
        """Takes so many of the lines. Gives how many rows were acknowledged."""
        for at in range(lines):
            time, value, added = rows[at // 2]
            into, number = ((self.increments, added), (self.readings, value))[at % 2]
            if not into or into[-1][0] < time:
                into.append((time, number))
            else:
                assert at % 2 == 0
        return lines // 2


STEPS = st.lists(st.tuples(st.integers(1, 9), st.integers(-99, 99)), max_size=30)


@given(st.sampled_from(RULES), STEPS, st.data())
def test_whatever_is_lost_it_adds_up(rule: str, steps: list[tuple[int, int]], data: st.DataObject) -> None:
    """Readings come in batches, of each of which some first lines are stored. What has no answer is sent
    again, or is never, and others come that may be earlier."""
    disk, time, left = Disk(), 0, list(steps)
    while left:
        batch = []
        for length, value in left[:data.draw(st.integers(1, 6))]:
            time += length
            batch.append((time, value))
        gauge = Gauge("a", disk.standing(), rule, disk.joins, disk.keep)
        rows: list[Triple] = []
        for row in batch:
            try:
                rows += gauge.rows([row])
            except errors.LateError:
                assert row[0] <= disk.standing().until
        lasted = disk.take(rows, data.draw(st.integers(0, 2 * len(rows))))
        left = left[len(batch):]
        if lasted < len(rows) and data.draw(st.booleans()):     # sent again
            left = [(1, value) for _, value, _ in rows[lasted:]] + left
            time = rows[lasted][0] - data.draw(st.integers(0, 3))
        standing = disk.standing()
        truth = truth_of(disk.readings, rule)
        total = sum(added for _, added in disk.increments)
        assert total - standing.ahead(disk.joins) == (truth[-1] if truth else 0)


def test_a_reading_that_was_sent_before() -> None:
    """The increment of a reading stands, and the reading doesn't."""
    standing = GaugeStanding(10, 5, 14, 20)
    assert Gauge("a", standing, "step").rows([(14, 7), (15, 8)]) == [(14, 7, 0), (15, 8, 7)]
    assert Gauge("a", standing, "step").rows([(16, 7)]) == [(16, 7, 10)]
    with pytest.raises(errors.LateError):
        Gauge("a", standing, "step").rows([(13, 7)])
    standing = GaugeStanding(10, 5, 14, 48)
    assert Gauge("a", standing, "trapezoid").rows([(14, 7)]) == [(14, 7, 0)]
    with pytest.raises(errors.LateError):
        Gauge("a", standing, "trapezoid").rows([(14, 8)])
    gauge = Gauge("a", GaugeStanding(), "step")
    with pytest.raises(errors.MeterError):
        gauge.rows([(1, 2**62), (4, 1)])
    assert gauge.rows([(2, 5), (4, 1)]) == [(2, 5, 0), (4, 1, 10)]


def some(store: Store, rule: str = "step") -> None:
    """A gauge with four readings of two hours."""
    store.create(POWER, "power 1 1 4 1", scale="0.1", unit="W", kind="gauge", integrate="h", rule=rule)
    assert store.append_many(POWER, [(DAY.format("01:00"), 100), (DAY.format("01:30"), 200)]) == 2
    assert store.append(POWER, DAY.format("02:00"), 50).values == 3
    assert store.append(POWER, DAY.format("03:00"), 0).values == 4


def test_watts_give_watt_hours(path: Path, backend: str) -> None:
    with summarystore.open(path) as store:
        some(store)
    with summarystore.open(path) as store:
        power = store[POWER]
        assert power.integral(DAY.format("01:00"), DAY.format("03:00")) == 200
        assert power.integral() == 200 and power.integral(DAY.format("02:00")) == 50
        assert power.time_mean() == power.time_mean(DAY.format("00:00"), DAY.format("09:00")) == 100
        assert power.time_mean(DAY.format("01:30"), DAY.format("03:00")) == Decimal(100)
        assert power.query("mean") == Decimal("87.5")       # weighted by how often they came
        rows = store.series(POWER, "integral", DAY.format("01:00"), DAY.format("03:00"), "1h")
        assert [row.interval for row in rows] == [150, 50] and rows.unit == "W·h"
        assert str(rows[1].start) == "2026-11-29 02:00:00+00:00"
        means = store.series(POWER, "time_mean", DAY.format("00:00"), DAY.format("05:00"), "1h")
        assert [row.interval.none for row in means] == [True, False, False, True, True]
        assert [row.interval for row in means][1:3] == [150, 50]
        assert means.unit == "W"
        assert power.integral(DAY.format("02:00"), DAY.format("02:00")) == 0
        assert power.time_mean(DAY.format("04:00"), DAY.format("05:00")).none
        assert store.query(POWER + BESIDE, "sum") == 720_000 and store.list()[0].name == POWER + BESIDE
        third = power.integral(DAY.format("01:00"), DAY.format("01:30:01"))
        assert third.exact and third == 50


def test_a_trapezoid(store: Store) -> None:
    some(store, rule="trapezoid")
    assert store.integral(POWER) == Decimal("162.5") and store.time_mean(POWER) == Decimal("81.25")


def test_a_quotient_that_does_not_end(store: Store) -> None:
    store.create("a", "exp 2 60 1", unit="W", kind="gauge", integrate="h")
    store.append_many("a", [(0, 1), (1, 0)])
    found = store.integral("a")
    assert Fraction(found.lo) < Fraction(1, 3600) < Fraction(found.hi) and found.width < Decimal("1e-50")


def test_it_goes_along(path: Path, backend: str) -> None:
    """What is renamed and dropped, with the stream of its increments."""
    with summarystore.open(path) as store:
        some(store)
        store.rename(POWER, "power")
        assert [each.name for each in store.list()] == ["power" + BESIDE, "power"]
    with summarystore.open(path) as store:
        store.append("power", DAY.format("04:00"), 10)
        store.append("power", DAY.format("05:00"), 10)
        assert store.integral("power") == 210
        store.create("power", "power 1 1 4 1", scale="0.1", unit="W", kind="gauge", integrate="h",
                     exist_ok=True)
        with pytest.raises(errors.StreamExistsError):
            store.create("power", "power 1 1 4 1", scale="0.1", unit="W", kind="gauge", integrate="h")
        store.drop("power")
        assert store.list() == []
        some(store)
        assert store.integral(POWER) == 200


def test_what_is_no_gauge(store: Store) -> None:
    store.create("plain", "exp 2 60 1", scale="0.1")
    for asked in (store.integral, store.time_mean):
        with pytest.raises(errors.DescriptionError, match="kind='gauge'"):
            asked("plain")
    for kind, integrate, rule, overflow in (
            ("gauge", None, None, None), ("gauge", "year", None, None), (None, "h", None, None),
            ("gauge", "h", "spline", None), ("counter", "h", None, None), ("gauge", "h", None, "5")):
        with pytest.raises(errors.DescriptionError):
            store.create("other", "exp 2 60 1", kind=kind, integrate=integrate, rule=rule, overflow=overflow)
    with pytest.raises(errors.DescriptionError, match="one value each"):
        store.create("other", "exp 2 60 5", kind="gauge", integrate="h")
    with pytest.raises(errors.DescriptionError, match="another kind"):
        store.create("plain", "exp 2 60 1", scale="0.1", kind="gauge", integrate="h", exist_ok=True)
    assert [each.name for each in store.list()] == ["plain"]
    some(store)
    with pytest.raises(errors.LateError) as late:
        store.append(POWER, DAY.format("02:30"), 5)
    assert str(late.value.newest) == "2026-11-29 03:00:00+00:00"
    with pytest.raises(errors.DescriptionError, match="lateness"):
        store.reordered(POWER, "1h")
    refused: list[object] = []
    rows = [(DAY.format("04:00"), 1), (DAY.format("03:30"), 2), (DAY.format("05:00"), "x"),
            (DAY.format("06:00"), 3)]
    assert store.append_many(POWER, rows, refused=lambda row, error: refused.append(row)) == 2
    assert refused == rows[1:3] and store.integral(POWER, DAY.format("03:00")) == 2
    assert store.append_many(POWER, [(DAY.format("07:30"), 4), (DAY.format("07:00"), 1)], lateness="1h") == 2


def test_intervals_hold_the_integral(store: Store) -> None:
    """Also when windows have become long."""
    store.create("g", "exp 2 1 1", time="s", kind="gauge", integrate="s")
    readings = [(time * 3 + time % 2, time * 7 % 500 - 90) for time in range(2000)]
    store.append_many("g", readings)
    truth = truth_of(readings)
    for first, last in ((0, 1999), (3, 777), (500, 501), (1990, 1999), (950, 1400)):
        assert truth[last] - truth[first] in store.integral("g", readings[first][0], readings[last][0])
    assert store.integral("g") == truth[-1]
    total = sum((row.interval for row in store.series("g", "integral", 0, readings[-1][0], 500)), start=0)
    assert truth[-1] in summarystore.Interval(0) + total


@pytest.mark.parametrize("rule", RULES)
def test_kills_of_the_program(path: Path, monkeypatch: pytest.MonkeyPatch, rule: str) -> None:
    """Whatever the program had stored when it was killed: its increments are those of what is kept."""
    monkeypatch.setattr(sending, "CHUNK", 20)       # some are under way when it is killed
    rows = [(1 + time * 3, time * 13 % 101 - 50) for time in range(600)]
    with summarystore.open(path) as store:
        store.create("g", "exp 2 60 1", time="s", kind="gauge", integrate="s", rule=rule)
        sent = kills = 0

        def drawn(begin: int) -> Iterator[tuple[int, int]]:
            for at, row in enumerate(rows[begin:begin + 150]):
                if at == 130 and store.pid is not None:
                    os.kill(store.pid, signal.SIGKILL)
                yield row
        while sent < len(rows):
            sent += store.append_many("g", rows[sent:sent + 60])
            with warnings.catch_warnings():
                warnings.simplefilter("ignore")
                try:
                    sent += store.append_many("g", drawn(sent))
                except errors.ProcessEndedError:
                    newest = store.last_count("g") or 0
                    sent, kills = sum(time <= newest for time, _ in rows), kills + 1
        truth = truth_of(rows, rule)
        half = Decimal(1 if rule == "step" else "0.5")
        assert kills > 1 and store.integral("g") == truth[-1] * half
        assert store.integral("g", rows[550][0], rows[590][0]) == (truth[590] - truth[550]) * half


def test_with_asyncio(path: Path) -> None:
    async def work() -> None:
        async with await aio.open(path) as store:
            await store.create(POWER, "exp 2 60 1", unit="W", kind="gauge", integrate="min")
            await store.append(POWER, 60, 5)
            assert await store.append_many(POWER, [(120, 7), (240, 1)]) == 2
            assert await store[POWER].integral() == 19 and await store[POWER].time_mean(60, 120) == 5
            rows = await store.series(POWER, "time_mean", 60, 240, 60)
            assert [str(row.interval) for row in rows] == ["5", "0", "14"]
            store.rename(POWER, "p")
            assert await store.integral("p") == 19
            await store.drop("p")
            assert not await store.list()
    run(work())
