"""A disk that is full: what stands is read, what can't be stored is refused, and later all goes on."""

from __future__ import annotations

import asyncio
import itertools
import os
import subprocess
import sys
import warnings
from collections.abc import Callable, Iterator
from pathlib import Path

import pytest

import summarystore
from summarystore import aio, base, errors
from summarystore.program import find_program

from .conftest import HOME
from .disk import Disk, small_disk
from .waiting import run, soon

ROWS = 300


@pytest.fixture
def disk(folder: Path, backend: str) -> Iterator[Disk]:
    """A disk with a store, whose last changes aren't in their places yet."""
    with small_disk(folder) as made, warnings.catch_warnings():
        warnings.simplefilter("ignore", errors.ReopenedWarning)
        with summarystore.open(made.folder / "any.store") as store:
            store.create("a/b", "exp 2 1000 1", scale="0.1")
            store.append_many("a/b", [(at, at) for at in range(1, ROWS + 1)])
        yield made


def fill(store: summarystore.Store, disk: Disk) -> int:
    """Appends until there is no room. Gives how many values are stored."""
    disk.fill()
    with pytest.raises(errors.DiskFullError) as ended:
        for first in itertools.count(ROWS + 1, 100):
            store.append_many("a/b", [(at, at) for at in range(first, first + 100)])
    assert ended.value.not_stored or ended.value.unknown
    found = store.query("a/b", "count")
    assert found.exact
    return int(found.lo)


def test_what_stands_is_read(disk: Disk, monkeypatch: pytest.MonkeyPatch) -> None:
    path = disk.folder / "any.store"
    with summarystore.open(path) as store:
        count = fill(store, disk)
        assert count >= ROWS and store.full is not None
        calls: list[tuple[Callable[..., object], tuple[object, ...]]] = [
            (store.append, ("a/b", 10**9, 1)), (store.create, ("c", "exp 2 1 1")),
            (store.append_many, ("a/b", [(10**9, 1)])), (store.drop, ("a/b",)),
            (store.open_landmark, ("a/b", 10**9))]
        for call, words in calls:
            with pytest.raises(errors.DiskFullError):
                call(*words)
        assert store.query("a/b", "count") == count and len(list(store.windows("a/b"))) > 10
    with summarystore.open(path) as store:      # opened anew, while it is full
        assert store.full is not None and store.query("a/b", "count") == count
        disk.make_room()
        monkeypatch.setattr(base, "AGAIN", 0.0)
        store.append("a/b", 10**9, 1)
        assert store.full is None and store.query("a/b", "count") == count + 1
    assert summarystore.check(path).streams == 1


def test_the_program_alone_is_told_the_way(disk: Disk) -> None:
    """An export of a store that was opened before answers, also where the program by itself ends."""
    path = disk.folder / "any.store"
    with summarystore.open(path) as store:
        count = fill(store, disk)
    alone = subprocess.run([find_program(), str(path)], input="list\n", capture_output=True, text=True,
                           check=False)
    assert alone.returncode == 4 and "no space left" in alone.stderr
    done = subprocess.run([sys.executable, "-m", "summarystore.exporting", str(path), "a/b", "--series",
                           "count", "--step", "1000000s"], capture_output=True, text=True, check=False,
                          env={**os.environ, "PYTHONPATH": str(HOME / "src")})
    assert done.returncode == 0 and f",{count}," in done.stdout.replace("\t", ","), done


def test_asyncio(disk: Disk, monkeypatch: pytest.MonkeyPatch) -> None:
    async def work() -> None:
        async with await aio.open(disk.folder / "any.store") as store:
            disk.fill()
            with pytest.raises(errors.DiskFullError):
                for first in itertools.count(ROWS + 1, 100):
                    await store.append_many("a/b", [(at, at) for at in range(first, first + 100)])
            count = await store.query("a/b", "count")
            assert store.full is not None and count.exact and count.lo >= ROWS
            found = await asyncio.gather(store.append("a/b", 10**9, 1), store.query("a/b", "count"),
                                         store.append_many("a/b", [(10**9, 1)]), return_exceptions=True)
            assert [type(each).__name__ for each in found] == ["DiskFullError", "Interval", "DiskFullError"]
            disk.make_room()
            monkeypatch.setattr(base, "AGAIN", 0.0)
            await store.append("a/b", 10**9, 1)
            assert await store.query("a/b", "count") == count + 1
    run(work())


def test_no_store_is_made_up(folder: Path, backend: str) -> None:
    with small_disk(folder) as disk:
        disk.fill()
        with pytest.raises(errors.DiskFullError):
            summarystore.open(disk.folder / "new.store")


def test_the_service(disk: Disk, monkeypatch: pytest.MonkeyPatch) -> None:
    pytest.importorskip("aiohttp")
    from .server.serving import over_http
    monkeypatch.setattr(base, "AGAIN", 0.2)
    monkeypatch.setattr("summarystore.server.supervision.LOOK", 0.2)
    mapping = '[[mapping]]\nmatch = "**"\nscale = 0.1\ntarget = "exp 2 1000 1"\n'

    async def work() -> None:
        async with over_http(mapping, disk.folder / "any.store") as client:
            disk.fill()
            taken, status = ROWS, 204
            while status == 204:
                lines = "".join(f"a b={at} {at}\n" for at in range(taken + 1, taken + 101))
                async with client.session.post(client.base + "/write?precision=s", data=lines) as answer:
                    status = answer.status
                taken += 100
            assert status == 503
            for _ in range(3):
                found = await client.get("/api/query", stream="a/b", kind="count")
                assert ROWS <= found["lo"] == found["hi"] <= taken
                await client.post("/api/append", {"stream": "a/b", "value": 1, "time": 10**6}, 503)
            assert (await client.get("/healthz", 503))["status"] == "store_full"
            assert len((await client.get("/api/streams"))["streams"]) == 1
            disk.make_room()
            await soon(lambda: client.service.supervisor.taking is not None)
            await client.post("/write?precision=s", "".join(f"a b={at} {at}\n" for at in range(1, taken + 1)),
                              204)
            found = await client.get("/api/query", stream="a/b", kind="sum")
            assert found["lo"] == taken * (taken + 1) // 2
            assert (await client.get("/healthz"))["status"] == "ok"
    run(work())
