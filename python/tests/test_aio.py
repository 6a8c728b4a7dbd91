"""The calls for asyncio."""

from __future__ import annotations

import asyncio
import os
import signal
from collections.abc import Coroutine
from pathlib import Path

import pytest

import summarystore
from summarystore import Interval, Presence, aio, errors
from summarystore.program import Process


def run(work: Coroutine[object, object, None]) -> None:
    asyncio.run(work)


def test_all_calls(path: Path) -> None:
    async def work() -> None:
        async with await aio.open(path, zone="Europe/Berlin") as store:
            await store.create("home/room", "exp 2 1 1", scale="0.1", unit="°C")
            await store.append("home/room", "2026-11-29 10:00", "21.5")
            rows = [(f"2026-11-29 10:0{at}", "21.6") for at in range(1, 6)]
            assert await store.append_many("home/room", rows) == 5
            day = ("2026-11-29", "2026-11-29")
            assert await store.query("home/room", "count", *day) == 6
            assert str(await store.query("home/room", "max", *day)) == "21.6"
            assert 21 < float((await store.mean("home/room", *day)).mid) < 22
            assert await store.has("home/room", "21.6") is Presence.PRESENT
            series = await store.series("home/room", "count", *day, "1h")
            assert len(series) == 24 and sum(row.interval for row in series) == 6
            last = await store.last("home/room")
            assert last is not None and last.value == Interval("21.6")
            async with store.landmark("home/room", "2026-11-29 11:00", "2026-11-29 11:10"):
                await store.append("home/room", "2026-11-29 11:05", "30")
            async with store.landmark("home/room", "2026-11-29 12:00"):
                pass
            assert [str(reading.value) for reading in await store.values("home/room")] == ["30.0"]
            marks = [("2026-11-29 11:00", "2026-11-29 11:10"), ("2026-11-29 12:00", "2026-11-29 12:00")]
            certificate = await store.certify("home/room", "sum", "hi", "2026-11-29 10:01", None, marks)
            assert certificate.check() == certificate.answer != 0
            assert len([window async for window in store.windows("home/room")]) >= 1
            store.describe("home/room", unit="K")
            description = store.description("home/room")
            assert description is not None and description.unit == "K"
            assert (await store.check()).landmarks == 2
            assert [stream.name for stream in await store.list()] == ["home/room"]
            assert store.now("home/room")
            await store.drop("home/room")
            with pytest.raises(errors.UnknownStreamError):
                await store.query("home/room", "sum")
        with pytest.raises(errors.StoreClosedError):
            await store.list()
    run(work())


def test_a_landmark_in_two_places(path: Path) -> None:
    async def work() -> None:
        async with await aio.open(path) as store:
            await store.create("a", "exp 2 4 1", scale="0.1")
            await store.open_landmark("a", 10)
            with pytest.raises(errors.LandmarkOpenError):
                await store.open_landmark("a")
            await store.append("a", 11, "2.5")
            await store.close_landmark("a", 12)
            with pytest.raises(errors.LandmarkNotOpenError):
                await store.close_landmark("a")
            assert len(await store.values("a")) == 1
    run(work())
    with summarystore.open(path) as store:
        store.open_landmark("a")
        store.close_landmark("a")
        assert store.list()[0].landmarks == 2


def test_a_hundred_tasks(path: Path) -> None:
    async def work() -> None:
        async with await aio.open(path) as store:
            await store.create("a", "exp 2 4 1")
            found = await asyncio.gather(*(store.append("a", time, time) for time in range(1, 1001)))
            assert [stored.values for stored in found] == list(range(1, 1001))
            late = await asyncio.gather(*(store.append("a", time, 0) for time in range(1, 11)),
                                        return_exceptions=True)
            assert all(isinstance(error, errors.LateError) and error.newest == 1000 for error in late)
            assert await store.query("a", "sum") == 500500
    run(work())


def test_tasks_share_their_writes(path: Path, monkeypatch: pytest.MonkeyPatch) -> None:
    """What is ready in one turn of the loop goes to the program together, and so to the disk."""
    writes: list[int] = []
    plain = Process.write

    def counted(process: Process, data: bytes) -> bool:
        writes.append(len(data))
        return plain(process, data)

    async def work() -> None:
        async with await aio.open(path) as store:
            await store.create("a", "exp 2 4 1")
            monkeypatch.setattr(Process, "write", counted)
            await asyncio.gather(*(store.append("a", time, 1) for time in range(1, 101)))
            assert len(writes) == 1 and sum(writes) < 4096
    run(work())


def test_many_rows_beside_each_other(path: Path) -> None:
    async def work() -> None:
        async with await aio.open(path) as store:
            names = [f"s{number}" for number in range(5)]
            for name in names:
                await store.create(name, "exp 2 4 1")
            stored = await asyncio.gather(*(store.append_many(name, [(time, 1) for time in range(3000)])
                                            for name in names))
            assert stored == [3000] * 5
            met: list[object] = []
            assert await store.append_many("s0", [(5, 5), (3000, 1)],
                                           refused=lambda row, error: met.append(row)) == 1
            assert met == [(5, 5)]
            with pytest.raises(errors.RowsRefusedError) as many:
                await store.append_many("s0", [(3001, 1), (1, 1)])
            assert many.value.stored == 1
            assert await store.append_many("s1", [(5010, 1), (5000, 2)], lateness=20) == 2
    run(work())


def test_cursors(path: Path) -> None:
    async def work() -> None:
        async with await aio.open(path) as store:
            await store.create("a", "exp 2 4096 1")
            await store.append_many("a", [(time, 1) for time in range(2500)])

            async def count() -> int:
                return sum([window.count async for window in store.windows("a")])

            assert await asyncio.gather(*(count() for _ in range(20))) == [2500] * 20
            held = [store.windows("a") for _ in range(8)]
            for iterator in held:
                await iterator.__anext__()
            with pytest.raises(errors.CursorBusyError):
                await count()
            with pytest.raises(errors.CursorBusyError):
                await store.check()
            other = asyncio.create_task(count())
            await asyncio.sleep(0)
            assert not other.done()
            assert len([window async for window in held[0]]) == 2499
            assert await other == 2500
            with pytest.raises(errors.UnknownStreamError):
                await store.windows("b").__anext__()
    run(work())


def test_a_crash(path: Path) -> None:
    async def work() -> None:
        async with await aio.open(path) as store:
            await store.create("a", "exp 2 4 1")
            appends = [asyncio.create_task(store.append("a", time, 1)) for time in range(1, 12)]
            await asyncio.gather(*appends)
            assert store.pid is not None
            os.kill(store.pid, signal.SIGSTOP)      # so that what comes now has no reply when it is killed
            appends += [asyncio.create_task(store.append("a", time, 1)) for time in range(12, 501)]
            for _ in range(5000):       # turns of the loop: each task is sent in a few of them
                await asyncio.sleep(0)
            os.kill(store.pid, signal.SIGKILL)
            found = await asyncio.gather(*appends, return_exceptions=True)
            acknowledged = sum(not isinstance(each, BaseException) for each in found)
            unknown = sum(len(each.unknown) for each in found if isinstance(each, errors.ProcessEndedError))
            with pytest.warns(errors.ReopenedWarning):
                count = await store.query("a", "count")
            assert acknowledged == 11 and unknown == 489 and 11 <= count.lo <= 500
    run(work())


def test_cancelled_calls(path: Path) -> None:
    async def work() -> None:
        async with await aio.open(path) as store:
            await store.create("a", "exp 2 4 1")
            tasks = [asyncio.create_task(store.append("a", time, 1)) for time in range(1, 101)]
            await asyncio.sleep(0)
            for task in tasks[::2]:
                task.cancel()
            await asyncio.gather(*tasks, return_exceptions=True)
            assert (await store.append("a", 1000, 1)).values >= 51
    run(work())


def test_a_store_that_is_locked(path: Path) -> None:
    async def work() -> None:
        async with await aio.open(path):
            with pytest.raises(errors.LockedError):
                await aio.open(path)
    run(work())


def test_bytes_renew_the_process(path: Path) -> None:
    async def work() -> None:
        async with aio.Store(path, renew_at=500) as store:
            await store.create("a", "exp 2 4 1")
            pids = set()
            for time in range(1, 100):
                await store.append("a", time, 1)
                pids.add(store.pid)
            assert len(pids) > 2 and await store.query("a", "count") == 99
    run(work())
