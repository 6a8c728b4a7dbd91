"""Graphite's interface as Grafana asks it: the tree, and series with lo, hi and mid."""

from __future__ import annotations

from collections.abc import AsyncIterator, Mapping, Sequence
from contextlib import asynccontextmanager
from decimal import Decimal
from typing import Any

import aiohttp
import pytest

from summarystore.server import graphite_out
from summarystore.server.app import Service
from summarystore.server.graphite_functions import step_of
from summarystore.server.http import Http

from ..waiting import run
from .conftest import Serving

BASE = 1764406800
"""A whole number of hours since 1970."""
SETTINGS = '[http]\nlisten = "127.0.0.1:0"\n[limits]\nrows = 500\n'
Words = Mapping[str, str] | Sequence[tuple[str, str]]


class Client:
    """Asks a service."""

    def __init__(self, service: Service, session: aiohttp.ClientSession, base: str) -> None:
        self.service = service
        self.session = session
        self.base = base

    async def get(self, path: str, words: Words = ()) -> Any:
        """What is answered, or for an error its status and its word."""
        async with self.session.get(self.base + path, params=words) as answer:
            found = await answer.json()
            return found if answer.status == 200 else (answer.status, found["error"])

    async def post(self, path: str, words: Words) -> Any:
        """The same by a form."""
        async with self.session.post(self.base + path, data=words) as answer:
            found = await answer.json()
            return found if answer.status == 200 else (answer.status, found["error"])


@asynccontextmanager
async def asking(serving: Serving) -> AsyncIterator[Client]:
    """A service with some streams, and a client."""
    async with serving(SETTINGS) as service:
        store = service.store()
        await store.create("home/living room/temperature", "exp 2 1 1", scale="0.1", unit="°C")
        await store.create("home/attic/power", "exp 2 60 1", time="minute")
        await store.create("plain", "exp 2 60 1")
        rows = [(BASE + at, Decimal(at % 100) / 10) for at in range(600)]
        await store.append_many("home/living room/temperature", rows)
        await store.append_many("home/attic/power", [(BASE // 60 + at, at) for at in range(60)])
        await store.append_many("plain", [(BASE + at, at) for at in range(60)])
        service.intake.streams.learn(await store.list())
        http = Http(service, graphite_out.endpoints(service))
        await http.start()
        assert http.address is not None
        try:
            async with aiohttp.ClientSession() as session:
                yield Client(service, session, f"http://127.0.0.1:{http.address[1]}")
        finally:
            await http.stop()


def test_the_tree(serving: Serving) -> None:
    async def work() -> None:
        async with asking(serving) as client:
            top = await client.get("/metrics/find", {"query": "*", "from": "1", "until": "2"})
            assert [(node["text"], node["leaf"], node["expandable"]) for node in top] == [
                ("home", 0, 1), ("plain", 1, 1)]
            assert [node["id"] for node in await client.post("/metrics/find", {"query": "home.*.*"})] == [
                "home.attic.power", "home.living_room.temperature"]
            below = await client.get("/metrics/find", {"query": "plain.*"})
            assert [(node["id"], node["leaf"], node["expandable"]) for node in below] == [
                ("plain.hi", 1, 0), ("plain.lo", 1, 0)]
            assert await client.get("/metrics/expand", [("query", "home.*"), ("query", "pl*")]) == {
                "results": ["home.attic", "home.living_room", "plain"]}
            assert await client.get("/metrics/expand", {"query": "*", "leavesOnly": "1"}) == {
                "results": ["plain"]}
            assert len(await client.get("/metrics/index.json")) == 9
            assert await client.get("/tags/autoComplete/tags") == []
            assert await client.get("/metrics/find", {"query": "["}) == (400, "bad_request")
            assert await client.get("/metrics/find", {"format": "pickle"}) == (400, "bad_request")
            await client.service.store().create("later", "exp 2 1 1")
            assert await client.get("/metrics/expand", {"query": "lat*"}) == {"results": ["later"]}
    run(work())


def test_series_with_their_band(serving: Serving) -> None:
    """Each of lo, mid and hi has the same times, and the truth lies between them."""
    async def work() -> None:
        async with asking(serving) as client:
            words = [("target", "home.*.temperature"), ("target", "home.*.temperature.*"), ("format", "json"),
                     ("from", str(BASE)), ("until", str(BASE + 600)), ("maxDataPoints", "60")]
            found = await client.post("/render", words)
            name = "home.living_room.temperature"
            assert [each["target"] for each in found] == [name, f"{name}.hi", f"{name}.lo"]
            mid, high, low = (each["datapoints"] for each in found)
            assert [at for _, at in mid] == [at for _, at in low] == [BASE + 10 * at for at in range(61)]
            assert mid[-1][0] is None
            for at in range(60):
                truth = sum(second % 100 for second in range(10 * at, 10 * at + 10)) / 100
                assert low[at][0] <= mid[at][0] <= high[at][0] and low[at][0] <= truth <= high[at][0]
            assert any(lo < hi for (lo, _), (hi, _) in zip(low[:60], high))
    run(work())


def test_other_kinds_and_names(serving: Serving) -> None:
    async def work() -> None:
        async with asking(serving) as client:
            around = [("from", str(BASE)), ("until", str(BASE + 59)), ("maxDataPoints", "1")]
            found = await client.get("/render", [
                ("target", "consolidateBy(alias(plain, 'greatest'), 'max')"), *around,
                ("target", "consolidateBy(plain,\"sum\")"), ("target", "constantLine(100)")])
            assert [(each["target"], each["datapoints"]) for each in found] == [
                ("greatest", [[59.0, BASE]]), ("plain", [[sum(range(60)), BASE]]),
                ("100", [[100.0, BASE], [100.0, BASE + 59]])]
            minutes = await client.get("/render", {"target": "home.attic.power", "from": str(BASE),
                                                   "until": str(BASE + 599), "maxDataPoints": "400"})
            assert minutes[0]["datapoints"] == [[float(at), BASE + 60 * at] for at in range(10)]
            assert await client.get("/render", {"target": "nothing.*"}) == []
            assert await client.get("/render", {"target": "plain", "from": "-1h"}) != []
            before = await client.get("/render", {"target": "plain", "from": "0", "until": "10"})
            assert {value for value, _ in before[0]["datapoints"]} == {None}
    run(work())


WRONG: Sequence[Mapping[str, str]] = (
    {"target": "stddevSeries(plain)"}, {"target": "plain", "from": "soon"},
    {"target": "plain", "format": "png"},
    {"target": "plain", "from": "now", "until": "-1h"}, {"target": "plain", "maxDataPoints": "0"},
    {"target": "plain", "maxDataPoints": "x"}, {"target": "plain", "tz": "Nowhere/Land"}, {"target": "{"},
    {"target": "a" * 3000})


def test_what_can_not_be_answered(serving: Serving) -> None:
    async def work() -> None:
        async with asking(serving) as client:
            for words in WRONG:
                assert await client.get("/render", words) == (400, "bad_request")
                assert await client.post("/render", words) == (400, "bad_request")
    run(work())


def test_too_many_points(serving: Serving, monkeypatch: pytest.MonkeyPatch) -> None:
    monkeypatch.setattr(graphite_out, "MOST_POINTS", 1000)

    async def work() -> None:
        async with asking(serving) as client:
            assert await client.get("/render", {"target": "plain", "maxDataPoints": "99999"}) != []
            assert await client.get("/render", {"target": "plain*", "maxDataPoints": "99999"}) != []
            many = [("target", "plain")] * 4 + [("maxDataPoints", "99999")]
            assert await client.get("/render", many) == (400, "bad_request")
            assert await client.get("/render", [("target", "plain")] * 300) == (400, "bad_request")
    run(work())


@pytest.mark.parametrize("seconds, points, least, step", [
    (3600, 60, 1, 60), (3600, 61, 1, 60), (3600, 3600, 1, 1), (10, 1000, 1, 1), (86400, 100, 1, 900),
    (86400 * 365, 100, 1, 345600), (3600, 3600, 60, 60), (86400, 1000, 86400, 86400), (86400, 24, 3600, 3600),
    (7 * 86400, 1, 1, 604800)])
def test_step(seconds: int, points: int, least: int, step: int) -> None:
    assert step_of(seconds, points, least) == step
