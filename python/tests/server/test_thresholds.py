"""Thresholds: somebody is called where one is surely crossed, and not where it may be."""

from __future__ import annotations

import asyncio
import json
import time
from decimal import Decimal
from pathlib import Path
from typing import Any

import pytest
from aiohttp import web

from summarystore import Interval
from summarystore.server.configuration import parse
from summarystore.server.errors import ConfigurationError
from summarystore.server.threshold import Crossed, Threshold

from ..waiting import run, soon
from .real import found, mosquitto, needs
from .serving import Client, over_http

MAPPING = """
[[mapping]]
match = "home/*"
target = "exp 2 1 1"
time = "s"
"""
HOT = """
[[threshold]]
name = "too hot"
stream = "home/cellar"
kind = "max"
over = "700s"
every = "1s"
above = 50
"""


@pytest.mark.parametrize("answer, crossed", [
    (Interval(51, 60), Crossed.YES), (Interval(50, 60), Crossed.MAYBE), (Interval(5, 50), Crossed.NO),
    (Interval(1, 2), Crossed.YES), (Interval(2, 4), Crossed.MAYBE), (Interval(1, 60), Crossed.MAYBE),
    (Interval(51, 60, maybe_none=True), Crossed.MAYBE), (Interval(5, 9, maybe_none=True), Crossed.NO),
    (Interval.nothing(), Crossed.NO)])
def test_judged(answer: Interval, crossed: Crossed) -> None:
    """Above 50, or below 3."""
    assert Threshold("a", "a", "max", 1, 1, Decimal(50), Decimal(3)).judge(answer) is crossed


@pytest.mark.parametrize("line, wrong", [
    ('kind = "avg"', "kind"), ("above = true", "above"), ('every = "1ms"', "every"),
    ('webhook = "ftp://a"', "webhook"),
    ('topic = "a/#"', "topic"), ('topic = "a"', "topic"), ('above = "nan"', "above"), ("over_ = 5", "over_")])
def test_mistakes(line: str, wrong: str) -> None:
    rows = {key: f'{key} = {value}' for key, value in (("stream", '"a"'), ("kind", '"max"'), ("above", "5"))}
    rows[line.partition(" ")[0]] = line
    with pytest.raises(ConfigurationError, match=rf"\[\[threshold\]\].*{wrong}"):
        parse("[[threshold]]\n" + "\n".join(rows.values()), "a.toml")
    with pytest.raises(ConfigurationError, match="above"):
        parse('[[threshold]]\nstream = "a"\nkind = "max"\n', "a.toml")


class Alarm:
    """Somebody who is called. The first call is refused."""

    def __init__(self) -> None:
        self.told: list[Any] = []
        self.calls = 0

    async def __aenter__(self) -> Alarm:
        app = web.Application()
        app.router.add_post("/alarm", self._take)
        self._runner = web.AppRunner(app)
        await self._runner.setup()
        site = web.TCPSite(self._runner, "127.0.0.1", 0)
        await site.start()
        self.address = f"http://127.0.0.1:{self._runner.addresses[0][1]}/alarm"
        return self

    async def __aexit__(self, *error: object) -> None:
        await self._runner.cleanup()

    async def _take(self, request: web.Request) -> web.Response:
        self.calls += 1
        if self.calls == 1:
            return web.Response(status=500)
        self.told.append(json.loads(await request.text(), parse_float=Decimal))
        return web.Response(status=204)


def text(threshold: str, alarm: Alarm) -> str:
    """A configuration with a threshold that calls somebody."""
    return f'{MAPPING}{threshold}webhook = "{alarm.address}"\n'


async def append(client: Client, *rows: tuple[int, object]) -> None:
    told = [{"stream": "home/cellar", "time": at, "value": value} for at, value in rows]
    assert (await client.post("/api/append", {"readings": told}))["stored"] == len(rows)


async def crossed(client: Client) -> str:
    (row,) = (await client.get("/api/thresholds"))["thresholds"]
    return str(row["crossed"])


async def until(client: Client, word: str) -> None:
    end = time.monotonic() + 60
    while await crossed(client) != word:
        assert time.monotonic() < end, await client.get("/api/thresholds")
        await asyncio.sleep(0.05)


def test_a_webhook(path: Path, caplog: pytest.LogCaptureFixture) -> None:
    async def work() -> None:
        now = int(time.time())
        async with over_http(MAPPING, path) as client:
            # It falls by one each second. The threshold is crossed in the older half of a window alone.
            await append(client, *((now - 2000 + at, 2000 - at) for at in range(1990)))
            windows = (await client.get("/api/windows", stream="home/cellar"))["windows"]
        window = next(each for each in windows if 200 < each["count"] < 800)
        middle = int(window["from"] + window["to"]) // 2
        hot = HOT.replace("700s", f"{now - middle}s").replace("above = 50", f"above = {now - middle + 50}")
        async with Alarm() as alarm, over_http(text(hot, alarm), path) as client:
            listens = client.service.hub.subscribe(frozenset(["home/cellar"]))
            await until(client, "maybe")
            await asyncio.sleep(2.5)
            assert not alarm.calls
            await append(client, (now, 5000))
            await soon(lambda: alarm.told)
            told = alarm.told[0]
            assert (told["name"], told["crossed"], told["lo"]) == ("too hot", "yes", 5000)
            assert "threshold" in [event.kind for event in await listens.take(5)]
            assert (await client.get("/healthz"))["listeners"]["thresholds"].endswith("1 are crossed")
            await asyncio.sleep(2.5)
            assert len(alarm.told) == 1
            assert [row.message for row in caplog.records if "crossed=yes" in row.message]
    caplog.set_level("INFO", "summarystored")
    run(work())


def test_it_ends(path: Path) -> None:
    """Who was told that it is crossed is told that it isn't any more."""
    async def work() -> None:
        async with Alarm() as alarm, over_http(text(HOT.replace("700s", "3s"), alarm), path) as client:
            assert await crossed(client) == "unknown"
            await append(client, (int(time.time()), 77))
            await soon(lambda: len(alarm.told) == 2)
            assert [told["crossed"] for told in alarm.told] == ["yes", "no"]
    run(work())


def test_a_broker(path: Path, folder: Path) -> None:
    async def work() -> None:
        needs("mosquitto_sub")
        broker = mosquitto(folder)
        broker.start()
        try:
            mqtt = f'[mqtt]\nbroker = "127.0.0.1:{broker.port}"\ntopics = ["home/#"]\n'
            listens = await asyncio.create_subprocess_exec(
                str(found("mosquitto_sub")), "-p", str(broker.port), "-q", "1", "-t", "alarm/cellar",
                "-C", "1", "-W", "90", stdout=asyncio.subprocess.PIPE)
            async with over_http(mqtt + MAPPING + HOT + 'topic = "alarm/cellar"\n', path) as client:
                await soon(lambda: client.service.listeners[0].state == "connected")
                await asyncio.sleep(1)
                await append(client, (int(time.time()), 60))
                said, _ = await listens.communicate()
                assert json.loads(said)["crossed"] == "yes"
        finally:
            broker.end()
    run(work())
