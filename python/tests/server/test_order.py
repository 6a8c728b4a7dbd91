"""The order of what is handed over together, readings that wait for earlier ones, and times that are
wrong: none of them costs a right reading."""

from __future__ import annotations

import asyncio
import random
import time
from collections.abc import Callable, Coroutine
from pathlib import Path
from typing import TypeAlias

import pytest

from summarystore.server import intake
from summarystore.server.graphite import GraphiteListener

from ..waiting import run, soon
from .serving import Client, over_http

Way: TypeAlias = Callable[[Client, str, list[int]], Coroutine[object, object, None]]

T = 1764410400
HOUR = 3600
MAPPING = """
[graphite]
listen = "127.0.0.1:0"
[[mapping]]
match = "slow/*"
lateness = "5s"
target = "exp 2 60 1"
[[mapping]]
match = "**"
target = "exp 2 60 1"
"""


def shuffled(count: int) -> list[int]:
    found = list(range(count))
    random.Random(1).shuffle(found)
    return found


async def by_influx(client: Client, name: str, times: list[int]) -> None:
    measurement, _, key = name.rpartition("/")
    await client.text("POST", "/write?precision=s", 204,
                      data="".join(f"{measurement} {key}=1 {at}\n" for at in times))


async def by_json(client: Client, name: str, times: list[int]) -> None:
    await client.post("/api/append", {"readings": [{"stream": name, "time": at, "value": 1} for at in times]})


async def by_graphite(client: Client, name: str, times: list[int]) -> None:
    listener = next(each for each in client.service.listeners if isinstance(each, GraphiteListener))
    reader, writer = await asyncio.open_connection("127.0.0.1", listener.port)
    writer.write("".join(f"{name} 1 {at}\n" for at in times).encode())
    writer.write_eof()
    assert await reader.read() == b""
    writer.close()


@pytest.mark.parametrize("way", [by_influx, by_json, by_graphite])
def test_readings_of_a_body_are_sorted(path: Path, way: Way, monkeypatch: pytest.MonkeyPatch) -> None:
    """All of them together, also where they go to the store in several pieces."""
    monkeypatch.setattr(intake, "BATCH", 100)

    async def work() -> None:
        async with over_http(MAPPING, path) as client:
            await way(client, "room/t", [T + at for at in shuffled(1000)])
            assert await client.service.store().query("room/t", "count") == 1000
            assert client.service.counters.of("refused") == {}
    run(work())


@pytest.mark.parametrize("way", [by_influx, by_json, by_graphite])
def test_readings_wait_for_earlier_ones(path: Path, way: Way) -> None:
    """Three senders of a stream, each some seconds behind the other."""
    async def work() -> None:
        async with over_http(MAPPING, path) as client:
            sent = [asyncio.create_task(way(client, "slow/t", [T + at])) for at in (4, 1, 3)]
            await soon(lambda: client.service.intake.queued == 3)
            assert await client.service.ask(lambda store: store.list()) == []
            await way(client, "slow/t", [T + 60])       # waits for as long as it may
            await asyncio.gather(*sent)
            assert await client.service.store().query("slow/t", "count") == 4
    run(work())


def test_what_waits_is_stored_when_one_comes_that_is_later(path: Path) -> None:
    async def work() -> None:
        async with over_http(MAPPING.replace('"5s"', '"10min"'), path) as client:
            first = asyncio.create_task(by_json(client, "slow/t", [T + 5, T]))
            await soon(lambda: client.service.intake.queued == 2)
            later = asyncio.create_task(by_json(client, "slow/t", [T + 5 + 600]))
            await first
            assert client.service.intake.queued == 1
            later.cancel()
        assert client.service.counters.of("readings") == {("http", "stored"): 3}     # the end waits for none
    run(work())


def test_json_and_lines_answer_alike_where_some_are_refused(path: Path) -> None:
    async def work() -> None:
        async with over_http(MAPPING, path) as client:
            rows = [{"stream": "room/t", "time": T + at, "value": value}
                    for at, value in enumerate((1, "1.5", 2))]
            by_rows = await client.post("/api/append", {"readings": rows}, 400)
            lines = "".join(f"other {'t'}={row['value']} {row['time']}\n" for row in rows)
            by_lines = await client.post("/write?precision=s", lines, 400)
            assert list(by_rows) == list(by_lines)
            for key in ("error", "stored", "there", "dropped", "code"):
                assert by_rows[key] == by_lines[key]
            assert by_rows["refused"][0] == {"index": 1, "code": "scale",
                                             "reason": by_lines["refused"][0]["reason"]}
    run(work())


# ---- times that are wrong ---------------------------------------------------------------


@pytest.mark.parametrize("way", [by_influx, by_json, by_graphite])
@pytest.mark.parametrize("wrong", [T * 10**9 // 10**6, 2 * T])
def test_a_time_ahead_of_the_clock_is_refused(path: Path, way: Way, wrong: int) -> None:
    """Milliseconds where seconds are meant, and a clock that is wrong: the stream goes on."""
    async def work() -> None:
        async with over_http(MAPPING, path) as client:
            now = int(time.time())
            for times in ([now - 5], [min(wrong, 10**11)], [now], [now + HOUR - 60], [now + HOUR + 60]):
                try:
                    await way(client, "room/t", times)
                except AssertionError:
                    pass    # it says which aren't stored
            assert await client.service.store().query("room/t", "count") == 3
            codes = {code: count for (_, code), count in client.service.counters.of("refused").items()}
            assert codes == {"future": 2}
    run(work())


def test_the_limit_is_the_configuration_s(path: Path) -> None:
    async def work() -> None:
        async with over_http('[limits]\nfuture = "30d"\n' + MAPPING, path) as client:
            now = int(time.time())
            await by_influx(client, "room/t", [now + 29 * 24 * HOUR])
            told = await client.post("/api/append", {"stream": "room/t", "time": now + 31 * 24 * HOUR,
                                                     "value": 1}, 400)
            assert told["refused"][0]["code"] == "future" and "ahead of the clock" in told["reason"]
            mark = {"stream": "room/t", "action": "open", "time": now + 31 * 24 * HOUR}
            assert (await client.post("/api/landmark", mark, 400))["error"] == "future"
    run(work())
