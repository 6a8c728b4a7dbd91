"""Counters and gauges in the service: by mapping, over kills of the service and of its program."""

from __future__ import annotations

import asyncio
from itertools import accumulate
from pathlib import Path

import summarystore
from summarystore import aio

from ..waiting import run
from .running import Running, over_store
from .serving import over_http

MAPPING = """
[[mapping]]
match = "home/energy"
kind = "counter"
overflow = 1000
target = "exp 2 60 1"
time = "s"
unit = "kWh"
"""
START = 1764406800
EACH = 20


def test_asked_by_http_and_graphite(path: Path) -> None:
    async def work() -> None:
        async with over_http(MAPPING, path) as client:
            listens = client.service.hub.subscribe(frozenset(["home/energy"]))
            rows = [{"stream": "home/energy", "time": START + 60 * at, "value": value}
                    for at, value in enumerate((990, 995, 5, 20, 3))]
            assert (await client.post("/api/append", {"readings": rows}))["stored"] == 5
            assert [event.data["value"] for event in await listens.take(5)] == [990, 995, 1005, 1020, 1023]
            assert (await client.post("/api/append", {"readings": rows}))["there"] == 5
            over = {"stream": "home/energy", "time": START + 600, "value": 1000}
            refused = await client.post("/api/append", over, 400)
            assert refused["refused"][0]["code"] == "counter"
            told = {"stream": "home/energy", "from": str(START), "to": str(START + 240)}
            assert (await client.get("/api/query", kind="increase", **told))["lo"] == 33
            assert (await client.get("/api/query", kind="value_at", **told))["hi"] == 1023
            series = await client.get("/api/series", kind="increase", step="120", **told)
            assert [row["lo"] for row in series["rows"]] == [15, 18] and series["unit"] == "kWh"
            assert (await client.get("/api/streams"))["streams"][0]["kind"] == "counter"
            graphite = await client.get("/render", **{
                "target": 'consolidateBy(home.energy,"increase")', "format": "json", "from": str(START),
                "until": str(START + 240)})
            assert graphite[0]["datapoints"]
    run(work())


def hold_under_kills(running: Running, stream: str, kind: str, readings: list[int], truth: list[int]) -> None:
    """Sends readings in eight bodies, each again until it is answered, while the service and its program
    are killed in turn, and asks for the truth after each reading."""
    for part in range(8):
        rows = [{"stream": stream, "time": START + at, "value": readings[at]}
                for at in range(part * EACH, (part + 1) * EACH)]
        if part % 2:    # of the first rows it isn't known whether they are stored
            running.ask("/api/append", {"readings": rows[:7 + part]})
            running.killed()
        elif part:
            assert running.kill_program()
        status = 0
        while status != 200:
            status, _ = running.ask("/api/append", {"readings": rows})
        for at in range(part * EACH, (part + 1) * EACH):
            _, told = running.ask(f"/api/query?stream={stream}&kind={kind}&to={START + at}")
            assert (told["lo"], told["hi"]) == (truth[at], truth[at])
    running.end()


def test_kills(folder: Path, program: str) -> None:
    """Each body is sent again until it is answered. Nothing is lost or counted twice then."""
    readings = [time * 37 % 210 for time in range(8 * EACH)]
    truth = list(accumulate(value - last if value >= last else value
                            for last, value in zip([0, *readings], readings)))
    running = over_store(folder, MAPPING.replace("overflow = 1000\n", ""))
    hold_under_kills(running, "home/energy", "value_at", readings, truth)


GAUGE = """
[[mapping]]
match = "home/*/power"
kind = "gauge"
integrate = "h"
target = "exp 2 60 1"
time = "s"
unit = "W"
"""


def test_gauges_by_http(path: Path) -> None:
    async def work() -> None:
        async with over_http(GAUGE, path) as client:
            rows = [{"stream": "home/hall/power", "time": START + 600 * at, "value": value}
                    for at, value in enumerate((60, 120, 0, 30, 30, 60, 0))]
            assert (await client.post("/api/append", {"readings": rows[:2]}))["stored"] == 2
            assert (await client.post("/api/append", {"readings": rows}))["stored"] == 5
            told = {"stream": "home/hall/power", "from": str(START), "to": str(START + 3600)}
            assert (await client.get("/api/query", kind="integral", **told))["lo"] == 50
            assert (await client.get("/api/query", kind="time_mean", **told))["hi"] == 50
            series = await client.get("/api/series", kind="integral", step="1800", **told)
            assert [row["lo"] for row in series["rows"]] == [30, 20] and series["unit"] == "W·h"
            streams = (await client.get("/api/streams", match="*power"))["streams"]
            assert [(each["kind"], each["integrate"]) for each in streams] == [("gauge", "h")]
            renamed = await client.text("PATCH", "/api/streams/home/hall/power", data=b'{"rename": "p"}')
            assert renamed and (await client.get("/api/query", stream="p", kind="integral"))["lo"] == 50
            assert (await client.get("/api/query", stream="p~integral", kind="count"))["lo"] == 7
            await client.text("DELETE", "/api/streams/p")
            assert not (await client.get("/api/streams"))["streams"]
            assert (await client.post("/api/append", {"readings": rows}))["stored"] == 7
            made = {"name": "made", "target": "exp 2 60 1", "kind": "gauge", "integrate": "s",
                    "rule": "trapezoid"}
            await client.post("/api/streams", made)
            assert (await client.get("/api/query", stream="made", kind="integral"))["lo"] == 0
    run(work())


def test_meters_together(path: Path) -> None:
    """What several meters rose by, and add up to. Others of the pattern have no part in it."""
    async def work() -> None:
        async with over_http(MAPPING.replace("home/energy", "home/*/energy") + GAUGE, path) as client:
            rows = [{"stream": f"home/{room}/{kind}", "time": START + 600 * at, "value": value}
                    for room in ("hall", "attic")
                    for kind, values in (("energy", (5, 7, 20)), ("power", (6, 6, 0)))
                    for at, value in enumerate(values)]
            assert (await client.post("/api/append", {"readings": rows}))["stored"] == 12
            told = {"streams": "home/**", "from": str(START), "to": str(START + 1200)}
            rose = await client.get("/api/query", kind="increase", **told)
            assert (rose["lo"], rose["matched"], rose["unit"]) == (30, 2, "kWh")
            added = await client.get("/api/series", kind="integral", step="600", **told)
            assert [row["lo"] for row in added["rows"]][:2] == [2, 2] and added["unit"] == "W·h"
            series = await client.get("/api/series", kind="increase", step="600", **told)
            assert [row["lo"] for row in series["rows"]][:2] == [4, 26]
            for pattern in ("home/*/power", "home/*/power~integral"):
                assert (await client.get("/api/query", kind="count", streams=pattern))["matched"] == 2
            await client.get("/api/query", 404, kind="increase", streams="home/*/power")
    run(work())


def test_gauges_over_a_service(path: Path) -> None:
    async def work() -> None:
        async with over_http(GAUGE, path) as client:
            def asked() -> None:
                with summarystore.connect(client.base) as store:
                    store.create("p", "exp 2 60 1", unit="W", kind="gauge", integrate="min")
                    store.append_many("p", [(START, 5), (START + 60, 7), (START + 180, 1)])
                    assert store.integral("p") == 19 and store.time_mean("p", START - 60, START + 60) == 5
                    assert store["p"].integral(START + 60) == 14
            await asyncio.to_thread(asked)
            async with await aio.connect(client.base) as store:
                assert await store.integral("p") == 19 and await store["p"].time_mean(START, START + 60) == 5
    run(work())


def test_kills_of_gauges(folder: Path, program: str) -> None:
    """Each body is sent again until it is answered. Its increments stand once then."""
    readings = [time * 37 % 210 for time in range(8 * EACH)]
    running = over_store(folder, GAUGE.replace('"h"', '"s"'))
    sums = [sum(readings[:at]) for at in range(len(readings))]
    hold_under_kills(running, "home/hall/power", "integral", readings, sums)
