"""What somebody types on the first day: readings of now, streams that stand, times told from now."""

from __future__ import annotations

import asyncio
import datetime
import threading
import time
from pathlib import Path

import pandas
import pytest

import summarystore
from summarystore import Interval, TimeError, aio, errors
from summarystore.store import Store

from .waiting import joined, run, until

ROOM = "home/living room"


def test_the_commonest_loop(store: Store) -> None:
    """A reading after the other, faster than the steps of the stream."""
    store.create(ROOM, "power 1 1 4 1", scale="0.1", time="ms")
    before = datetime.datetime.now(datetime.timezone.utc)
    for value in range(200):
        store.append(ROOM, value / 10)
    assert store.query(ROOM, "count", "now-1min", "now+2s") == 200
    newest = store.last(ROOM)
    assert newest is not None and newest.value == Interval("19.9")
    assert isinstance(newest.time, datetime.datetime)
    assert before - datetime.timedelta(seconds=1) < newest.time < before + datetime.timedelta(minutes=5)


def test_now_waits_for_the_next_step_and_no_longer(store: Store) -> None:
    store.create("s", "exp 2 60 1", time="s")
    for value in range(4):
        store.append("s", value)
    last = store.last("s")
    assert last is not None and isinstance(last.time, datetime.datetime)
    ahead = last.time - datetime.datetime.now(datetime.timezone.utc)
    assert ahead <= datetime.timedelta(seconds=1)
    store.append("s", "now+1h", 5)
    with pytest.raises(errors.LateError):
        store.append("s", 6)
    store.create("day", "exp 2 60 1", time="day")
    store.append("day", value=5)
    with pytest.raises(errors.LateError):
        store.append("day", 6)


def test_what_append_needs(store: Store) -> None:
    store.create("whole", "exp 2 60 1")
    with pytest.raises(errors.DescriptionError, match="now"):
        store.append("whole", 5)
    with pytest.raises(TypeError, match="a value"):
        store.append("whole")


def test_clocks_of_python(store: Store) -> None:
    store.create(ROOM, "exp 2 60 1", scale="0.1")
    with pytest.warns(errors.RoundedTimeWarning):
        store.append(ROOM, time.time() - 10, 20)
    store.append(ROOM, datetime.datetime.now(datetime.timezone.utc) - datetime.timedelta(seconds=5), 21)
    assert store.query(ROOM, "sum", time.time() - 60, time.time()) == 41
    assert store.query(ROOM, "sum", datetime.timedelta(minutes=-1), "now") == 41
    with pytest.raises(TimeError):
        store.query(ROOM, "sum", "now-1moon", "now")


def test_streams_that_stand(path: Path) -> None:
    def declare(store: Store, unit: str | None = None) -> object:
        return store.create(ROOM, "power 1 1 4 1", exist_ok=True, scale="0.1", unit=unit)

    with summarystore.open(path) as store:
        assert declare(store, unit="K") == (0, 0)
        store.append(ROOM, 21)
    with summarystore.open(path) as store:
        assert declare(store) == (1, 1)
        assert declare(store, unit="°C") == (1, 1)
        known = store.description(ROOM)
        assert known is not None and known.unit == "°C"
        with pytest.raises(errors.StreamExistsError, match="power 1 1 4 1"):
            store.create(ROOM, "exp 2 60 1", exist_ok=True, scale="0.1")
        with pytest.raises(errors.StreamExistsError):
            store.create(ROOM, "power 1 1 4 1", 3600, exist_ok=True, scale="0.1")
        with pytest.raises(errors.DescriptionError, match="scale 0.1"):
            store.create(ROOM, "power 1 1 4 1", exist_ok=True, scale="0.01")
        with pytest.raises(errors.StreamExistsError):
            store.create(ROOM, "power 1 1 4 1", scale="0.1")
        store.create("whole", ("exp", 2, 60, 1), exist_ok=True)
        assert store.create("whole", ("exp", 2, 60, 1), exist_ok=True) == (0, 0)
        with pytest.raises(errors.DescriptionError, match="whole numbers"):
            store.create("whole", "exp 2 60 1", exist_ok=True, scale="0.1")


def test_the_same_with_asyncio(path: Path) -> None:
    async def work() -> None:
        async with await aio.open(path) as store:
            for _ in range(2):
                await store.create(ROOM, "power 1 1 4 1", scale="0.1", time="ms", exist_ok=True)
            await asyncio.gather(*(store.append(ROOM, 21) for _ in range(3)))
            for value in range(5):
                await store.append(ROOM, value)
            assert (await store.query(ROOM, "count", "now-1h", "now+2s")) == 8
            with pytest.raises(errors.StreamExistsError):
                await store.create(ROOM, "exp 2 60 1", scale="0.1", time="ms", exist_ok=True)
    run(work())


def test_a_frame_by_its_index_and_columns(store: Store) -> None:
    index = pandas.date_range("2026-11-29", periods=4, freq="h", tz="UTC")
    frame = pandas.DataFrame({"hall": [21.5, 21.6, None, 21.7], "home/attic": [1, None, None, 4]}, index)
    for name in frame.columns:
        store.create(name, "exp 2 60 1", scale="0.1")
    assert store.append_many(frame) == 5
    assert store.query("hall", "sum") == Interval("64.8") and store.query("home/attic", "sum") == 5
    later = frame.set_index(index + pandas.Timedelta("1d"))
    assert store.append_many("hall", later[["hall"]]) == 3
    with pytest.raises(TypeError, match="2 columns"):
        store.append_many("hall", later)
    with pytest.raises(errors.RowsRefusedError) as refused:
        store.append_many(later)
    assert any("not sent: ['home/attic']" in note for note in refused.value.__notes__)
    with pytest.raises(errors.UnknownStreamError):
        store.append_many(later.rename(columns={"home/attic": "home/cellar"}))
    assert store.query("home/attic", "count") == 2


def test_a_stream_by_its_handle(store: Store) -> None:
    store.create(ROOM, "exp 2 60 1", scale="0.1", time="ms")
    room = store[ROOM]
    room.append("now-1h", 20)
    room.append(21)
    assert room.append_many([("now+1s", 22), ("now+2s", "22.5")]) == 2
    assert room.query("count") == 4 and room.mean("now-2h", "now-30min") == 20
    assert room.has(21).value == "present" and room.name == ROOM and room.description is not None
    last = room.last()
    assert last is not None and last.value == Interval("22.5")
    assert [row.interval for row in room.series("max", "now-90min", "now-30min", "1h")] == [Interval(20)]
    assert sum(window.count for window in room.windows()) == 4 and room.values() == []
    assert room.estimate("count").guess == 4
    room.describe(unit="°C")
    assert ROOM in store and "hall" not in store and 5 not in store and list(store) == [ROOM]
    with pytest.raises(LookupError):
        store["hall"]
    room.drop()
    assert ROOM not in store


def test_what_comes_is_followed(store: Store) -> None:
    store.create("hall", "exp 2 60 1", time="ms")
    store.append("hall", "now-1h", 1)
    seen: list[object] = []

    def follow() -> None:
        for last in store["hall"].follow(0.01):
            seen.append(last.value)
            if last.value == 3:
                return
    thread = threading.Thread(target=follow)
    thread.start()
    for value in (2, 3):
        until(lambda: len(seen) == value - 1)
        store.append("hall", value)
    joined(thread)
    assert seen == [1, 2, 3]


def test_handles_with_asyncio(path: Path) -> None:
    async def work() -> None:
        async with await aio.open(path) as store:
            await store.create("hall", "exp 2 60 1", scale="0.1", time="ms")
            hall = store["hall"]
            await hall.append("now-1h", 1)
            assert await hall.append_many([("now-30min", 2), ("now-20min", 3)]) == 2
            assert await hall.query("sum") == 6 and [name async for name in store] == ["hall"]
            async for last in hall.follow(0.01):
                if last.value == 4:
                    break
                await hall.append(4)
            assert [window.count async for window in hall.windows()] == [1, 1, 1, 1]
            with pytest.raises(errors.UnknownStreamError):
                await store["attic"].last()
            await hall.drop()
    run(work())
