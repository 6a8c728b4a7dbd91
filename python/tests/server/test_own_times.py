"""Readings without a time of their own: the service gives each the next free one, and loses none."""

from __future__ import annotations

import asyncio
import json
import os
import signal
from collections.abc import AsyncIterator, Iterator
from contextlib import asynccontextmanager, suppress
from pathlib import Path

import pytest

pytest.importorskip("paho.mqtt.client", reason="MQTT: python3-paho-mqtt is missing")

from summarystore.server.intake import Incoming  # noqa: E402
from summarystore.server.mqtt import MqttListener  # noqa: E402

from ..waiting import run, soon  # noqa: E402
from .real import Server, mosquitto, needs  # noqa: E402
from .serving import Client, over_http  # noqa: E402

MAPPING = """
[[mapping]]
match = "home/*/temperature"
time = "s"
target = "exp 2 60 1"
[[mapping]]
match = "home/*/power"
source = "mqtt"
target = "exp 2 60 1"
[[mapping]]
match = "home/*/door"
words = { ON = 1, OFF = 0 }
target = "exp 2 60 1"
[[mapping]]
match = "home/*/rain"
time = "day"
target = "exp 2 60 1"
"""


@pytest.fixture
def broker(folder: Path) -> Iterator[Server]:
    """mosquitto, started."""
    made = mosquitto(folder)
    made.start()
    yield made
    made.end()


@asynccontextmanager
async def calling(path: Path, port: int, more: str = "") -> AsyncIterator[tuple[Client, MqttListener]]:
    """A service that calls a broker, and a client of it."""
    mqtt = f'[mqtt]\nbroker = "127.0.0.1:{port}"\ntopics = ["home/#"]\n'
    async with over_http(f'[http]\nlisten = "127.0.0.1:0"\n{mqtt}{more}{MAPPING}', path) as client:
        listener = next(each for each in client.service.listeners if isinstance(each, MqttListener))
        await soon(lambda: listener.subscriber.connected)
        yield client, listener


async def publish(broker: Server, topic: str, *payloads: str) -> None:
    """What mosquitto_pub sends by QoS 1 over one connection, each line a message."""
    needs("mosquitto_pub")
    process = await asyncio.create_subprocess_exec(
        "mosquitto_pub", "-p", str(broker.port), "-q", "1", "-t", topic, "-l", stdin=asyncio.subprocess.PIPE)
    await process.communicate("".join(f"{payload}\n" for payload in payloads).encode())
    assert process.returncode == 0


def count_of(client: Client, result: str) -> int:
    return client.service.counters.of("readings").get(("mqtt", result), 0)


@pytest.mark.parametrize("topic, step", [("home/hall/temperature", "s"), ("home/hall/power", "ms")])
def test_a_backlog_of_the_broker_is_stored(path: Path, broker: Server, topic: str, step: str) -> None:
    """Sixty messages that came while the service was away: each is stored, in its order."""
    async def work() -> None:
        async with calling(path, broker.port):
            pass
        await publish(broker, topic, *map(str, range(60)))
        async with calling(path, broker.port) as (client, listener):
            await soon(lambda: count_of(client, "stored") == 60)
            await soon(lambda: listener.subscriber.unacknowledged == 0)
            store = client.service.store()
            description = store.description(topic)
            assert description is not None and description.time == step
            assert await store.query(topic, "sum") == sum(range(60))
            last = await store.last(topic)
            assert last is not None and last.value == 59
            assert client.service.counters.total("readings") == 60
    run(work())


def test_what_lies_too_far_ahead_waits(path: Path, broker: Server) -> None:
    """Of three messages of a day the last waits, unacknowledged, and no other stream waits for it."""
    async def work() -> None:
        async with calling(path, broker.port) as (client, listener):
            await publish(broker, "home/yard/rain", "1", "2", "3")
            await publish(broker, "home/hall/power", *map(str, range(2000)))
            await soon(lambda: count_of(client, "stored") >= 2001)
            assert 1 <= listener.subscriber.unacknowledged <= 2
            told = await client.get("/healthz")
            ahead = told["queue"]["ahead_of_the_clock"]
            assert ahead == {"readings": listener.subscriber.unacknowledged, "streams": 1}
            assert told["refused_and_acknowledged"]["readings"] == 0 and "refused" not in told["readings"]
            stored = count_of(client, "stored")
        async with calling(path, broker.port) as (client, listener):       # they come again
            await soon(lambda: client.service.intake.ahead == (2003 - stored, 1))
    run(work())


def test_two_messages_of_a_door_within_a_second(path: Path, broker: Server) -> None:
    async def work() -> None:
        async with calling(path, broker.port) as (client, _listener):
            await publish(broker, "home/hall/door", "ON", "OFF")
            await soon(lambda: count_of(client, "stored") == 2)
            store = client.service.store()
            last = await store.last("home/hall/door")
            description = store.description("home/hall/door")
            assert last is not None and last.value == 0
            assert description is not None and description.time == "ms"
            rows = [{"stream": "home/hall/door", "value": word} for word in ("ON", "ON", "OFF")]
            assert (await client.post("/api/append", {"readings": rows}))["stored"] == 3
            assert await store.query("home/hall/door", "count") == 5
    run(work())


def test_what_was_refused_and_acknowledged_is_told(path: Path, broker: Server) -> None:
    async def work() -> None:
        async with calling(path, broker.port) as (client, listener):
            await publish(broker, "home/hall/temperature", "21", "unavailable", "unknown")
            await publish(broker, "home/nothing", "5")
            await soon(lambda: client.service.counters.total("readings") == 4)
            await soon(lambda: listener.subscriber.unacknowledged == 0)
            told = (await client.get("/healthz"))["refused_and_acknowledged"]
            assert told == {"readings": 3, "codes": {"not_a_number": 2, "unmatched": 1}}
            text = await client.text("GET", "/metrics")
            name = "summarystore_refused_acknowledged_readings_total"
            assert f'{name}{{code="not_a_number",source="mqtt"}} 2.0' in text
    run(work())


def test_lines_and_json_without_a_time(path: Path) -> None:
    """Ten within a second, by each of both: none is late, and none is there before."""
    async def work() -> None:
        async with over_http(MAPPING, path) as client:
            room = "home/hall/temperature"
            rows = [{"stream": room, "value": 7} for _ in range(10)]
            assert (await client.post("/api/append", {"readings": rows}))["stored"] == 10
            await client.post("/write", "home/hall temperature=8\n" * 10, 204)
            assert await client.service.store().query(room, "count") == 20
            assert await client.service.store().query(room, "sum") == 150
    run(work())


def test_what_has_no_room_in_time_is_told(path: Path) -> None:
    """Who waits for an answer is told at once what the clock doesn't let in before the answer is due."""
    async def work() -> None:
        async with over_http("[limits]\nanswer_seconds = 1\n" + MAPPING, path) as client:
            rows = [{"stream": "home/yard/rain", "value": at} for at in range(3)]
            told = await client.post("/api/append", {"readings": rows}, 503)
            assert told["stored"] + len(told["not_stored"]) == 3 and 2 in told["not_stored"]
            assert not told["refused"] and not told["unknown"] and client.headers["Retry-After"]
            assert json.dumps(told).count("clock") == 1
    run(work())


def test_each_is_stored_once_whatever_ends_the_program(path: Path) -> None:
    """Where it isn't known whether one is stored it is tried again at the time that it had."""
    async def work() -> None:
        async with over_http(MAPPING, path) as client:
            supervisor, killed, sent = client.service.supervisor, set[int](), 0
            room = "home/hall/door"

            async def send() -> None:
                nonlocal sent
                while len(killed) < 5:
                    readings = [Incoming(room, "ON", source="mqtt") for _ in range(40)]
                    found = await client.service.intake.append_many(readings, wait=True)
                    assert all(outcome.good for outcome in found)
                    sent += len(found)
            sending = [asyncio.create_task(send()) for _ in range(3)]
            while not all(task.done() for task in sending):
                await asyncio.sleep(0.3)
                pid = supervisor.pid
                if pid is not None and pid not in killed:
                    with suppress(ProcessLookupError):
                        os.kill(pid, signal.SIGKILL)
                    killed.add(pid)
            await asyncio.gather(*sending)
            assert await client.service.ask(lambda store: store.query(room, "count")) == sent
    run(work())


def test_what_waits_leaves_room_for_others(path: Path, broker: Server) -> None:
    """A stream that is too coarse takes half of the queue, and what is refused then is told."""
    async def work() -> None:
        async with calling(path, broker.port, "[limits]\nqueue = 40\nlines = 20\n") as (client, listener):
            await publish(broker, "home/yard/rain", *map(str, range(50)))
            await soon(lambda: count_of(client, "refused") + client.service.intake.ahead[0] >= 48)
            stored = count_of(client, "stored")
            lost = (await client.get("/healthz"))["refused_and_acknowledged"]
            assert set(lost["codes"]) == {"too_many"} and client.service.intake.ahead[0] <= 20
            await publish(broker, "home/hall/power", "7")
            await soon(lambda: count_of(client, "stored") == stored + 1)
            assert listener.subscriber.unacknowledged >= 15
    run(work())
