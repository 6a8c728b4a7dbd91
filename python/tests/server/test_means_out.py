"""Means by HTTP, over several streams, by Graphite's face and over a connection: as the store tells them."""

from __future__ import annotations

import asyncio
from decimal import Decimal
from pathlib import Path

import pytest

pytest.importorskip("aiohttp")

import summarystore  # noqa: E402
from summarystore import Interval, aio  # noqa: E402

from ..conftest import must_have_means  # noqa: E402
from ..waiting import run  # noqa: E402
from .serving import Client, over_http  # noqa: E402

MAPPING = '[[mapping]]\nmatch = "**"\nscale = 0.1\ntime = "s"\ntarget = "exp 2 1 1"\n'
VALUES = (5, -3, 8, 1, 9, 2, 7)
READINGS = [{"stream": "home/a", "time": 10 + 10 * at, "value": value} for at, value in enumerate(VALUES)]
ANSWERS = [(10, 25, -3, 8), (25, 55, -1, "8.5"), (45, 55, 2, 9), (50, 70, 6, 6),
           (0, 100, "4.1428571428571", "4.1428571428572")]


@pytest.fixture
def made(path: Path) -> Path:
    """A store whose program has means."""
    with summarystore.open(path) as store:
        must_have_means(store)
    return path


def span(first: int, last: int) -> dict[str, str]:
    """The words of a range."""
    return {"from": str(first), "to": str(last)}


async def asked(client: Client, first: int, last: int, **words: str) -> tuple[object, object]:
    """The ends of a mean."""
    told = await client.get("/api/query", kind="mean", **words, **span(first, last))
    return told["lo"], told["hi"]


def test_by_http(made: Path) -> None:
    async def work() -> None:
        async with over_http(MAPPING, made) as client:
            assert (await client.post("/api/append", {"readings": READINGS}))["stored"] == 7
            for first, last, lo, hi in ANSWERS:
                wanted = Decimal(str(lo)), Decimal(str(hi))
                assert await asked(client, first, last, stream="home/a") == wanted
                assert await asked(client, first, last, streams="home/*") == wanted     # that of the only one
            maybe = await client.get("/api/query", stream="home/a", kind="mean", **span(15, 34))
            assert (maybe["lo"], maybe["hi"], maybe["maybe_none"], maybe["exact"]) == (-3, 8, True, False)
            assert (await client.get("/api/query", stream="home/a", kind="mean", **span(71, 80)))["none"]
            rows = (await client.get("/api/series", stream="home/a", kind="mean", step="31",
                                     **span(25, 55)))["rows"]
            assert [(row["lo"], row["hi"]) for row in rows] == [(-1, Decimal("8.5"))]
            drawn = await client.get("/render", **{"target": "home.a", "format": "json", "from": "49",
                                                   "until": "70"})
            assert drawn[0]["datapoints"]
    run(work())


def test_over_several_streams(made: Path) -> None:
    """It lies between their means, and is no wider than by their sums and counts."""
    async def work() -> None:
        async with over_http(MAPPING, made) as client:
            both = READINGS + [{"stream": "home/b", "time": 45, "value": 3}]
            assert (await client.post("/api/append", {"readings": both}))["stored"] == 8
            told = await client.get("/api/query", streams="home/*", kind="mean", **span(25, 55))
            assert (told["lo"], told["hi"]) == (0, Decimal("8.5"))
            assert told["parts"]["mean"] == {**told["parts"]["mean"], "lo": -1, "hi": Decimal("8.5")}
            rows = (await client.get("/api/series", streams="home/*", kind="mean", step="31",
                                     **span(25, 55)))["rows"]
            assert [(row["lo"], row["hi"]) for row in rows] == [(0, Decimal("8.5"))]
    run(work())


def test_over_a_connection(made: Path) -> None:
    async def work() -> None:
        async with over_http(MAPPING, made) as client:
            await client.post("/api/append", {"readings": READINGS})

            def ask() -> None:
                with summarystore.connect(client.base) as store:
                    for first, last, lo, hi in ANSWERS:
                        assert store.mean("home/a", first, last) == Interval(str(lo), str(hi))
                    assert store.estimate("home/a", "mean", 71, 80).guess is None
                    found = store.certify("home/a", "mean", "hi", 25, 55)
                    assert found.check() == 85      # of the whole numbers of the stream
            await asyncio.to_thread(ask)
            async with await aio.connect(client.base) as store:
                assert await store.mean("home/a", 25, 55) == Interval(-1, "8.5")
    run(work())
