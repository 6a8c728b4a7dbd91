"""Questions over a whole fleet by Dask, by brute force over four shards."""

from __future__ import annotations

import asyncio
from collections.abc import Callable
from contextlib import AsyncExitStack
from decimal import Decimal
from pathlib import Path
from typing import Any

import pytest

from summarystore.fleet import bulk

from ..server.serving import over_http
from ..waiting import result_of, run
from .shards import MAPPINGS, SHARDS, T, load, of_range, shard_of

distributed = pytest.importorskip("distributed")
pandas = pytest.importorskip("pandas")
DAY = 86400
DAYS = 6
NAMES = [f"{room}/{letter}" for room in ("kitchen", "attic") for letter in "abc"]
READINGS = {name: [(T + at * (3 + number) * 3600, Decimal(at % 37 - 9) / 2) for at in range(40)]
            for number, name in enumerate(NAMES)}


def held(kind: str, row: Any, values: list[Decimal]) -> bool:
    """Whether a row of a frame holds the truth."""
    if kind not in ("count", "sum") and not values:
        return bool(row.maybe_none) or row.lo != row.lo
    truths: dict[str, Callable[[], Decimal | float]] = {
        "count": lambda: len(values), "sum": lambda: sum(values), "min": lambda: min(values),
        "max": lambda: max(values), "mean": lambda: sum(values) / len(values)}
    truth = float(truths[kind]())
    return bool(row.lo <= truth + 1e-9 and truth <= row.hi + 1e-9)


def in_a_fleet(folder: Path, work: Callable[[Any, dict[str, list[str]], dict[str, Any]], None]) -> None:
    """Does work in a thread, over four shards and a cluster of Dask."""
    async def all_of_it() -> None:
        async with AsyncExitStack() as stack:
            clients = {}
            for shard in SHARDS:
                clients[shard] = await stack.enter_async_context(
                    over_http(MAPPINGS, folder / f"{shard}.store"))
                await load(clients[shard], READINGS, shard)
            bases = {shard: [client.base] for shard, client in clients.items()}
            loop = asyncio.get_running_loop()

            def ends(shard: str) -> None:
                result_of(asyncio.run_coroutine_threadsafe(clients[shard].service.stop(), loop))

            def with_a_cluster() -> None:
                with distributed.LocalCluster(n_workers=2, threads_per_worker=2, processes=False,
                                              dashboard_address=None) as cluster, \
                        distributed.Client(cluster) as client:
                    work(client, bases, {"ends": ends})
            await asyncio.to_thread(with_a_cluster)
    run(all_of_it())


def test_against_brute_force(folder: Path, program: str) -> None:
    first, last = T - DAY, T + DAYS * DAY - 1

    def work(client: Any, shards: dict[str, list[str]], more: dict[str, Any]) -> None:
        for kind, pattern in (("count", "*"), ("sum", "kitchen/*"), ("min", "*"), ("max", "*"),
                              ("mean", "*")):
            frame = bulk.series(client, shards, kind, first, last, "1d", streams=pattern, rows=5)
            assert len(frame) == DAYS + 1 and set(frame["missing"]) == {""}
            for at, row in zip(range(first, last, DAY), frame.itertuples()):
                assert row.Index == pandas.Timestamp(at, unit="s", tz="UTC")
                assert held(kind, row, of_range(READINGS, pattern, at, at + DAY - 1)), (kind, row)
        each = bulk.each_stream(client, shards, "sum", first, last, "2d", rows=2)
        assert each.attrs["missing"] == {} and len(each) == len(NAMES) * 4
        for (name, start), row in zip(each.index, each.itertuples()):
            at = int(start.timestamp())
            assert held("sum", row, of_range({name: READINGS[name]}, "*", at, min(last, at + 2 * DAY - 1)))
        gone = shard_of(NAMES[0])
        more["ends"](gone)
        frame = bulk.series(client, shards, "sum", first, last, "1d")
        assert set(frame["missing"]) == {gone} and frame["lo"].isna().all() and frame["hi"].isna().all()
        each = bulk.each_stream(client, shards, "sum", first, last, "2d")
        assert set(each.attrs["missing"]) == {gone}
        assert set(each.index.get_level_values(0)) == {name for name in NAMES if shard_of(name) != gone}
        shards[gone].append(shards[next(shard for shard in SHARDS if shard != gone)][0])
        with pytest.raises(bulk.BulkError, match="two shards"):
            bulk.series(client, shards, "sum", first, last, "1d")
        with pytest.raises(ValueError, match="no question"):
            bulk.series(client, shards, "sum", last, first, "1d")
    in_a_fleet(folder, work)
