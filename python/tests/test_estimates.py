"""The likeliest counts and sums."""

from __future__ import annotations

import asyncio
from decimal import Decimal
from pathlib import Path

import pytest

import summarystore
from summarystore import Estimate, EstimateRow, Interval, aio, errors, wire
from summarystore.kinds import Estimated
from summarystore.store import Store

SEVEN = list(zip(range(10, 80, 10), (5, -3, 8, 1, 9, 2, 7)))
ROWS = [(10, "-5 .. 16", 7), (35, "-3 .. 25", 9), (60, "9 .. 16", 12)]


@pytest.fixture
def seven(plain: Store) -> Store:
    """The store of seven values that the guide shows."""
    plain.create("a", "exp 2 1 1")
    assert plain.append_many("a", SEVEN) == 7
    return plain


def test_estimates_of_the_guide(seven: Store) -> None:
    table: dict[tuple[Estimated, int | None, int | None], tuple[str, int]] = {
        ("count", 10, 25): ("1 .. 3", 2), ("sum", 10, 25): ("-5 .. 16", 6),
        ("sum", 25, 55): ("-3 .. 25", 11), ("sum", 45, 55): ("2 .. 9", 6),
        ("sum", None, None): ("29", 29), ("count", 71, 80): ("0", 0)}
    found = {key: seven.estimate("a", *key) for key in table}
    assert {key: (str(estimate.interval), estimate.guess) for key, estimate in found.items()} == table
    assert all(estimate.guess in estimate.interval and estimate.interval == seven.query("a", *key)
               for key, estimate in found.items())


def test_rows(seven: Store) -> None:
    rows = seven.estimates("a", "sum", 10, 70, 25)
    assert [(row.start, str(row.interval), row.guess) for row in rows] == ROWS
    assert rows[0] == EstimateRow(10, Interval(-5, 16), 7)
    assert [row.guess for row in seven.estimates("a", "count", 10, 70, 25)] == [3, 2, 2]


@pytest.mark.parametrize("ask, error", [
    (("a", "max", 0, 9), errors.CommandError), (("a", "min", 0, 9), errors.CommandError),
    (("x", "sum", 0, 9), errors.UnknownStreamError), (("a", "sum", 9, 4), errors.RangeError)])
def test_refused(seven: Store, ask: tuple[str, Estimated, int, int], error: type[errors.RefusedError]
                 ) -> None:
    with pytest.raises(error):
        seven.estimate(*ask)
    with pytest.raises(error):
        seven.estimates(*ask, step=1)


def test_units(path: Path) -> None:
    with summarystore.open(path) as store:
        store.create("home/room", "power 1 0 1 2", scale="0.1", unit="°C")
        for minute, value in enumerate(("21.5", "22.5")):
            store.append("home/room", f"2026-11-29T10:0{minute}Z", value)
        first = ("2026-11-29T10:00Z", "2026-11-29T10:00Z")
        estimate = Estimate(Interval("21.5", "22.5"), Decimal("22.0"))
        assert store.estimate("home/room", "sum", *first) == estimate
        assert store.estimate("home/room", "count", *first) == Estimate(Interval(1), 1)
        (row,) = store.estimates("home/room", "sum", *first, "1h")
        assert row.guess == Decimal("22.0") and row.interval == Interval("21.5", "22.5")


def test_asynchronous(path: Path) -> None:
    async def work() -> None:
        async with await aio.open(path) as store:
            await store.create("a", "exp 2 1 1")
            await store.append_many("a", SEVEN)
            assert (await store.estimate("a", "sum", 10, 25)).guess == 6
            rows = await store.estimates("a", "sum", 10, 70, 25)
            assert [row.guess for row in rows] == [row[2] for row in ROWS]
    asyncio.run(work())


@pytest.mark.parametrize("text", ["", "1", "1 2", "1 2 3 4", "1 x 3", "1 2.5 3", "none", "3 2 1"])
def test_what_is_no_estimate(text: str) -> None:
    with pytest.raises((errors.ProtocolError, ValueError)):
        wire.estimate_of(text)
    assert wire.estimate_of("1 2 3") == (Interval(1, 3), 2)
