"""Clients of InfluxDB as they are installed: python3-influxdb, and the command `influx`."""

from __future__ import annotations

import asyncio
import os
from collections.abc import AsyncIterator
from contextlib import asynccontextmanager
from decimal import Decimal
from pathlib import Path

import pytest

from summarystore.server import http_in
from summarystore.server.app import Service
from summarystore.server.http import Http

from ..waiting import run
from .conftest import Serving
from .real import found, needs

MAPPING = """
[http]
listen = "127.0.0.1:0"
[[mapping]]
match = "weather/*"
source = "influx"
stream = "weather/{room}/{1}"
scale = "0.01"
target = "exp 2 60 1"
[[mapping]]
match = "cpu/*"
source = "influx"
scale = "0.01"
target = "exp 2 60 1"
"""
BASE = 1764406800


@asynccontextmanager
async def serving_influx(serving: Serving) -> AsyncIterator[tuple[Service, int]]:
    """A service that takes line protocol, and its port."""
    async with serving(MAPPING) as service:
        http = Http(service, http_in.endpoints(service))
        await http.start()
        assert http.address is not None
        try:
            yield service, http.address[1]
        finally:
            await http.stop()


def test_write_points(serving: Serving) -> None:
    """What `write_points` sends by its own is stored, in batches and by other precisions."""
    influxdb = pytest.importorskip("influxdb", reason="python3-influxdb is missing")

    def written(port: int) -> None:
        client = influxdb.InfluxDBClient("127.0.0.1", port, "user", "secret", "home")
        assert client.ping().endswith("summarystore")
        client.create_database("home")
        points = [{"measurement": "weather", "tags": {"room": "living room"}, "time": BASE + at,
                   "fields": {"temperature": 20.5 + at, "humidity": 40 + at, "note": "text", "ok": True}}
                  for at in range(10)]
        assert client.write_points(points, time_precision="s")      # text and truth values are counted
        points[0]["time"] = BASE - 1
        with pytest.raises(influxdb.exceptions.InfluxDBClientError, match="partial write"):
            client.write_points(points, time_precision="s")     # late is told
        plain = [{"measurement": "weather", "tags": {"room": "attic"},
                  "time": f"2025-11-29T09:{at // 60:02}:{at % 60:02}Z", "fields": {"temperature": at / 4}}
                 for at in range(100)]
        assert client.write_points(plain, batch_size=30)
        assert client.write_points(plain[-5:])      # sent again: each is there
        client.close()

    async def work() -> None:
        async with serving_influx(serving) as (service, port):
            await asyncio.to_thread(written, port)
            store = service.store()
            assert str(await store.query("weather/living room/temperature", "sum")) == "250.00"
            assert await store.query("weather/living room/humidity", "sum") == 445
            assert await store.query("weather/attic/temperature", "count") == 100
            assert service.counters.of("refused")["influx", "not_a_number"] == 40
            assert await store.query("weather/attic/temperature", "sum") == Decimal(sum(range(100))) / 4
    run(work())


def test_the_command_influx(serving: Serving, folder: Path) -> None:
    """Lines that `influx` inserts, and a file that it imports."""
    needs("influx")

    async def influx(port: int, *words: str) -> str:
        process = await asyncio.create_subprocess_exec(
            str(found("influx")), "-host", "127.0.0.1", "-port", str(port), *words,
            env={**os.environ, "HOME": str(folder)}, stdout=asyncio.subprocess.PIPE,
            stderr=asyncio.subprocess.STDOUT)
        said, _ = await process.communicate()
        assert process.returncode == 0, said
        return said.decode()

    async def work() -> None:
        async with serving_influx(serving) as (service, port):
            words = ("-database", "home", "-execute")
            await influx(port, *words, f"insert cpu value=0.5 {BASE}000000000")
            await influx(port, "-precision", "s", *words, f"insert cpu value=1.25 {BASE + 1}")
            assert await service.store().query("cpu/value", "sum") == Decimal("1.75")
            file = folder / "lines.txt"
            rows = [f"cpu,host=a load={at / 4},users={at}i {BASE + at}\n" for at in range(500)]
            file.write_text("# DDL\nCREATE DATABASE home\n# DML\n# CONTEXT-DATABASE: home\n" + "".join(rows))
            said = await influx(port, "-import", "-path", str(file), "-precision", "s")
            assert "Processed 500 inserts" in said and "Failed 0 inserts" in said
            store = service.store()
            assert await store.query("cpu,host=a/load", "sum") == Decimal(sum(range(500))) / 4
            assert await store.query("cpu,host=a/users", "sum") == sum(range(500))
    run(work())
