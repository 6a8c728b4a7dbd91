"""`now` is one moment in a call: a range of it has the same length, however late its second end is read."""

from __future__ import annotations

import asyncio
import datetime
import itertools
import time
from collections.abc import Iterator
from pathlib import Path

import pytest

from summarystore import Interval, aio
from summarystore.clock import Clock
from summarystore.codec import Through
from summarystore.description import EPOCH
from summarystore.store import Store

HOUR = 3600 * 10**9


@pytest.fixture
def stepping(monkeypatch: pytest.MonkeyPatch) -> Iterator[None]:
    """A clock that is an hour later each time that it is read."""
    begun = time.time_ns()
    hours = itertools.count()
    with monkeypatch.context() as patch:
        patch.setattr(time, "time_ns", lambda: begun + next(hours) * HOUR)
        yield


@pytest.fixture
def falling(monkeypatch: pytest.MonkeyPatch) -> Iterator[None]:
    """A clock that is an hour earlier each time."""
    begun = time.time_ns()
    hours = itertools.count()
    with monkeypatch.context() as patch:
        patch.setattr(time, "time_ns", lambda: begun - next(hours) * HOUR)
        yield


@pytest.mark.usefixtures("stepping")
def test_both_ends_of_a_range() -> None:
    clock = Clock("s", EPOCH, None)
    for first, last in (("now-90min", "now-30min"), (datetime.timedelta(minutes=-90), "now-30m"),
                        ("now-1h", datetime.timedelta(0))):
        begin, end = clock.range_of(first, last)
        assert end - begin in (3599, 3600)      # the first is rounded up, and the last down


@pytest.fixture
def hall(store: Store) -> Store:
    """A stream of whole seconds."""
    store.create("hall", "exp 2 60 1", time="s")
    store.create("power", "exp 2 60 1", kind="gauge", integrate="h")
    store.append("power", "now-3d", 1)
    store.append("power", "now-1h", 1)
    return store


def test_rows_of_the_module(hall: Store, stepping: None) -> None:
    span = "now-90min", "now-30min"
    for kind in ("count", "max", "mean"):
        assert len(hall.series("hall", kind, *span, 3601)) == 1     # type: ignore[arg-type]
    assert len(hall.estimates("hall", "count", *span, 3601)) == 1
    assert len(hall.figures("hall", ("count",), *span, 3601)) == 1
    assert len(hall.series("power", "integral", *span, 3601)) == 1


def test_answers_of_the_module(hall: Store, falling: None) -> None:
    span = "now-50min", "now"       # a range that ends before it begins is refused
    assert hall.query("hall", "count", *span) == hall.estimate("hall", "sum", *span).guess == 0
    assert hall.mean("hall", *span).none and hall.time_mean("power", *span) in (0, Interval.nothing())
    assert not hall.has("hall", 1, *span) and not hall.values("hall", *span)
    assert hall.certify("hall", "sum", "lo", *span).check() == 0
    assert len(hall.whole_series("hall", "count", *span)[0]) > 100


def test_rows_with_asyncio(path: Path, stepping: None) -> None:
    async def work() -> None:
        async with await aio.open(path) as store:
            await store.create("hall", "exp 2 60 1", time="s")
            assert len(await store.series("hall", "max", "now-90min", "now-30min", 3601)) == 1
    asyncio.run(work())


def test_ranges_of_the_service(folder: Path, program: str) -> None:
    pytest.importorskip("aiohttp")
    from summarystore.server import asked, many
    begun, hours = time.time_ns(), itertools.count()
    with pytest.MonkeyPatch.context() as patch:
        patch.setattr(time, "time_ns", lambda: begun + next(hours) * HOUR)
        first, last = asked.range_of({"from": "now-90min", "to": "now-30min"})
        assert first is not None and last is not None and last - first == HOUR
        rows = many.rows_of({"from": "now-90min", "to": "now-30min", "step": "61min"}, 100)
        assert rows.count == 1 and rows.last - rows.first == HOUR
        assert many.rows_of({"from": "now-1h", "step": "61min"}, 100).count == 1


def test_what_goes_through_a_codec(store: Store) -> None:
    store.create("hall", "exp 2 60 1", time="s")
    assert Through(store.codec("hall")).range_of(1, 2) == (1, 2)
    assert Interval(0) == store.query("hall", "count", 1, 2)
