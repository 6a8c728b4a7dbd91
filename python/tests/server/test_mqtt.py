"""Messages of a broker: what they mean, and when they are acknowledged."""

from __future__ import annotations

import asyncio
import os
import signal
from collections.abc import AsyncIterator, Iterator, Sequence
from contextlib import asynccontextmanager
from pathlib import Path
from typing import TypeAlias

import pytest
from hypothesis import given
from hypothesis import strategies as st

pytest.importorskip("paho.mqtt.client", reason="MQTT: python3-paho-mqtt is missing")

from summarystore.server import mqtt_client  # noqa: E402
from summarystore.server.app import Service  # noqa: E402
from summarystore.server.mqtt import MqttListener  # noqa: E402
from summarystore.server.mqtt_order import PATIENCE, Order, Timed  # noqa: E402

from .conftest import Serving  # noqa: E402
from ..waiting import run, soon  # noqa: E402
from .real import Server, mosquitto, needs  # noqa: E402
from .tap import PUBACK, Tap  # noqa: E402

Pair: TypeAlias = tuple[Service, MqttListener]

# ---- order ------------------------------------------------------------------------------


def timed(*times: int) -> list[Timed[int]]:
    return [Timed("a", time, time) for time in times]


def taken(order: Order[int], now: float, *times: int) -> list[int]:
    return [item.message for item in order.take(timed(*times), now)]


def test_what_overtook_waits() -> None:
    order: Order[int] = Order()
    assert taken(order, 0, 1, 2, 3) == [1, 2, 3]
    assert taken(order, 0, 9, 4, 5) == [4, 5] and len(order) == 1
    assert taken(order, 1, 6, 7) == [6, 7]
    assert taken(order, 1, 8, 10) == [8, 9, 10] and len(order) == 0
    assert taken(order, 2, 20, 21, 11) == [11]
    assert order.overdue(3.9) == [] and order.overdue(4) == timed(20, 21)
    other = [Timed("b", 1, 1), Timed("c", None, 0)]
    assert [item.message for item in order.take([*timed(30, 25), *other], 5)] == [0, 25, 1]
    assert [item.message for item in order.all()] == [30] and len(order) == 0


def test_what_waits_is_bounded() -> None:
    order: Order[int] = Order()
    assert len(taken(order, 0, *range(2, 3000), 1)) == 2999 and len(order) == 0


@given(st.lists(st.integers(0, 60), max_size=40), st.lists(st.integers(1, 12), max_size=20))
def test_nothing_is_lost_by_the_order(times: list[int], cuts: list[int]) -> None:
    """However they come, each comes out once, and the last of all brings out what isn't later."""
    order: Order[int] = Order()
    found: list[int] = []
    rest, cut_at = list(times), iter(cuts)
    while rest:
        cut = next(cut_at, len(rest))
        batch, rest = rest[:cut], rest[cut:]
        out = taken(order, 0, *batch)
        assert out == sorted(out) and out[-1] == batch[-1]
        found += out
    found += [item.message for item in order.overdue(PATIENCE)]
    assert sorted(found) == sorted(times) and len(order) == 0


@given(st.integers(1, 40), st.integers(0, 39), st.integers(1, 12))
def test_one_that_overtakes_comes_at_its_place(count: int, overtaking: int, size: int) -> None:
    """As mosquitto does it: one comes before all that waited."""
    times = list(range(count))
    if overtaking < count:
        times.remove(overtaking)
        times.insert(0, overtaking)
    order: Order[int] = Order()
    found = taken(order, 0, *times[:size + 1])
    for at in range(size + 1, len(times), size):
        found += taken(order, 0, *times[at:at + size])
    found += [item.message for item in order.overdue(PATIENCE)]
    assert found == sorted(times)


# ---- a broker ---------------------------------------------------------------------------


MAPPING = """
[[mapping]]
match = "home/*/temperature"
source = "mqtt"
scale = 0.1
time = "ns"
target = "exp 2 60 1"
words = { ON = 1, OFF = 0 }
[[mapping]]
match = "plug/*/SENSOR"
stream = "plug/{1}/power"
json = "ENERGY.Power"
json_time = "Time"
time = "ms"
target = "exp 2 60 1"
[[mapping]]
match = "plug/*/SENSOR"
stream = "plug/{1}/switch"
json = "POWER"
time = "ns"
words = { ON = 1, OFF = 0, true = 1 }
target = "exp 2 60 1"
"""


@asynccontextmanager
async def calling(serving: Serving, port: int, more: str = "") -> AsyncIterator[Pair]:
    """A service that calls a broker."""
    mqtt = f'[mqtt]\nbroker = "127.0.0.1:{port}"\ntopics = ["home/#", "plug/#"]\n{more}\n'
    async with serving(mqtt + MAPPING) as service:
        listener = MqttListener(service)
        await listener.start()
        try:
            yield service, listener
        finally:
            await listener.stop()


@pytest.fixture
def broker(folder: Path) -> Iterator[Server]:
    """mosquitto, started."""
    made = mosquitto(folder)
    made.start()
    yield made
    made.end()


async def publish(broker: Server, topic: str, *payloads: str, words: Sequence[str] = ()) -> None:
    """What mosquitto_pub sends, each payload by QoS 1 if nothing else is said."""
    needs("mosquitto_pub")
    for payload in payloads:
        process = await asyncio.create_subprocess_exec(
            "mosquitto_pub", "-p", str(broker.port), "-q", "1", "-t", topic, "-m", payload, *words)
        assert await process.wait() == 0


def readings(service: Service, result: str = "stored") -> int:
    return service.counters.of("readings").get(("mqtt", result), 0)


def test_messages_are_stored(serving: Serving, broker: Server) -> None:
    async def work() -> None:
        async with calling(serving, broker.port) as (service, listener):
            await soon(lambda: listener.subscriber.connected)
            assert listener.state == "connected"
            await publish(broker, "home/attic/temperature", "21.5", "unavailable", "ON", "", "unknown",
                          "21.55", "21.6", " 21.7 ", "nan", "21,5", "None")
            await publish(broker, "plug/desk/SENSOR",
                          '{"Time": 1764406800000, "ENERGY": {"Power": 17}, "POWER": "ON"}',
                          '{"Time": 1764406801000, "ENERGY": {"Power": 18}}', '{"POWER": true}', "offline",
                          '{"Time": "2025-11-29T10:00:02", "ENERGY": {"Power": 19}}')
            await publish(broker, "home/other", "5")
            await soon(lambda: service.counters.total("readings") >= 21)
            store = service.store()
            assert await store.query("home/attic/temperature", "count") == 4
            assert str(await store.query("home/attic/temperature", "sum")) == "65.8"
            assert await store.query("plug/desk/power", "sum") == 35
            assert await store.query("plug/desk/switch", "sum") == 2
            assert service.counters.of("refused") == {
                ("mqtt", "not_a_number"): 5, ("mqtt", "empty"): 1, ("mqtt", "scale"): 1, ("mqtt", "time"): 1,
                ("mqtt", "unmatched"): 1, ("mqtt", "nothing_there"): 3, ("mqtt", "not_json"): 1}
            await soon(lambda: listener.subscriber.unacknowledged == 0)
            listed = {(each.name, each.code) for each in listener.refusals.all()}
            assert ("home/attic/temperature", "empty") in listed and ("plug/desk/SENSOR", "time") in listed
    run(work())


def test_retained_messages_and_quality_0(serving: Serving, broker: Server) -> None:
    """A retained message is of the past. One of QoS 0 is stored as others are."""
    async def work() -> None:
        await publish(broker, "home/attic/temperature", "1", words=["-r"])
        await publish(broker, "plug/desk/SENSOR", '{"Time": 1764406800000, "ENERGY": {"Power": 17}}',
                      words=["-r"])
        async with calling(serving, broker.port) as (service, listener):
            await soon(lambda: service.counters.total("readings") >= 3)
            await publish(broker, "home/attic/temperature", "2", words=["-q", "0"])
            await soon(lambda: readings(service) >= 2)
            assert await service.store().query("home/attic/temperature", "sum") == 2
            assert await service.store().query("plug/desk/power", "sum") == 17
            assert service.counters.of("refused") == {("mqtt", "retained"): 1, ("mqtt", "nothing_there"): 1}
    run(work())


def test_the_acknowledgement_comes_after_the_ok(serving: Serving, broker: Server) -> None:
    """While the store's program stands still, no message is acknowledged, and few are taken."""
    async def work() -> None:
        async with Tap(broker.port) as tap, calling(serving, tap.port, "receive_maximum = 5") as (
                service, listener):
            await soon(lambda: listener.subscriber.connected)
            await publish(broker, "home/attic/temperature", "0")
            await soon(lambda: tap.kinds.count(PUBACK) == 1)
            pid = service.supervisor.pid
            assert pid is not None
            os.kill(pid, signal.SIGSTOP)
            try:
                await publish(broker, "home/attic/temperature", *map(str, range(1, 21)))
                await soon(lambda: listener.subscriber.unacknowledged >= 5)
                await asyncio.sleep(0.5)
                assert tap.kinds.count(PUBACK) == 1
                assert listener.subscriber.unacknowledged == 5
            finally:
                os.kill(pid, signal.SIGCONT)
            await soon(lambda: tap.kinds.count(PUBACK) == 21)
            assert await service.store().query("home/attic/temperature", "sum") == sum(range(21))
    run(work())


@pytest.mark.parametrize("older", [False, True])
def test_what_is_not_acknowledged_comes_again(serving: Serving, broker: Server, older: bool) -> None:
    """Connections are cut while messages are under way: each is stored once, by both versions."""
    async def work() -> None:
        async with Tap(broker.port, older) as tap, calling(serving, tap.port, "receive_maximum = 10") as (
                service, listener):
            await soon(lambda: listener.subscriber.connected)
            assert tap.versions[-1] == (4 if older else 5)
            for at in range(40):
                await publish(broker, "home/attic/temperature", str(at))
                if at % 13 == 6:
                    tap.cut()
            await soon(lambda: readings(service) == 40)
            await soon(lambda: listener.subscriber.unacknowledged == 0)
            assert await service.store().query("home/attic/temperature", "sum") == sum(range(40))
            assert listener.subscriber.connections >= 2 and service.counters.total("readings") == 40
    run(work())


def test_a_message_that_comes_again_is_not_stored_again(serving: Serving, broker: Server) -> None:
    """The connection is cut before the acknowledgement: the message comes again, and is stored once."""
    async def work() -> None:
        async with Tap(broker.port) as tap, calling(serving, tap.port) as (service, listener):
            await soon(lambda: listener.subscriber.connected)
            await publish(broker, "home/attic/temperature", "0")
            await soon(lambda: readings(service) == 1)
            pid = service.supervisor.pid
            assert pid is not None
            os.kill(pid, signal.SIGSTOP)
            await publish(broker, "home/attic/temperature", "1", "2")
            await soon(lambda: listener.subscriber.unacknowledged == 2)
            tap.cut()
            os.kill(pid, signal.SIGCONT)
            await soon(lambda: readings(service) == 3)
            await soon(lambda: listener.subscriber.connections == 2)
            await publish(broker, "home/attic/temperature", "3")
            await soon(lambda: readings(service) == 4)
            await soon(lambda: tap.kinds.count(PUBACK) >= 4)
            assert await service.store().query("home/attic/temperature", "count") == 4
            assert service.counters.total("readings") == 4
    run(work())


def test_the_broker_keeps_what_comes_while_the_service_is_away(serving: Serving, broker: Server) -> None:
    async def work() -> None:
        async with calling(serving, broker.port) as (service, listener):
            await soon(lambda: listener.subscriber.connected)
        await publish(broker, "home/attic/temperature", "1", "2", "3")
        async with calling(serving, broker.port) as (service, listener):
            await soon(lambda: readings(service) == 3)
            assert await service.store().query("home/attic/temperature", "sum") == 6
    run(work())


def test_a_broker_that_is_not_there_is_called_again(serving: Serving, folder: Path,
                                                    monkeypatch: pytest.MonkeyPatch) -> None:
    monkeypatch.setattr(mqtt_client, "FIRST_WAIT", 0.1)

    async def work() -> None:
        broker = mosquitto(folder)
        async with calling(serving, broker.port) as (service, listener):
            await soon(lambda: "refused" in listener.state)
            broker.start()
            await soon(lambda: listener.subscriber.connected)
            broker.end(signal.SIGKILL)
            await soon(lambda: not listener.subscriber.connected)
            assert listener.state != "connected"
            broker.start()
            await soon(lambda: listener.subscriber.connected)
            await publish(broker, "home/attic/temperature", "1")
            await soon(lambda: readings(service) == 1)
        broker.end()
    run(work())


def test_who_may_not_is_told_so(serving: Serving, folder: Path) -> None:
    """A wrong password, and a topic that isn't given, stand in the state."""
    async def work() -> None:
        needs("mosquitto_passwd")
        passwords, rights = folder / "passwords", folder / "rights"
        passwords.touch(0o600)
        done = await asyncio.create_subprocess_exec("mosquitto_passwd", "-b", str(passwords), "reader",
                                                    "right")
        assert await done.wait() == 0
        rights.write_text("user reader\ntopic read home/#\n")
        broker = mosquitto(folder, f"password_file {passwords}\nacl_file {rights}\n", anyone=False)
        broker.start()
        secret = folder / "secret"
        for word, told in (("wrong", "refuses the connection"), ("right", "connected")):
            secret.write_text(f"{word}\n")
            secret.chmod(0o600)
            more = f'user = "reader"\npassword_file = "{secret}"'
            async with calling(serving, broker.port, more) as (_service, listener):
                await soon(lambda: told in listener.state)
        broker.end()
    run(work())


def test_the_program_is_killed_under_messages(serving: Serving, broker: Server) -> None:
    """Each message is stored once, in order, whatever happens to the program."""
    async def work() -> None:
        async with calling(serving, broker.port) as (service, listener):
            await soon(lambda: listener.subscriber.connected)
            for at in range(60):
                await publish(broker, "home/attic/temperature", str(at))
                if at % 20 == 10 and service.supervisor.pid is not None:
                    os.kill(service.supervisor.pid, signal.SIGKILL)
            await soon(lambda: readings(service) + readings(service, "there") >= 60)
            store = await service.supervisor.wait_open()
            assert await store.query("home/attic/temperature", "count") == 60
            assert await store.query("home/attic/temperature", "sum") == sum(range(60))
    run(work())
