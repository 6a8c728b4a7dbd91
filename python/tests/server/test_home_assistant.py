"""What Home Assistant sends, and the mappings for it that stand in `service/home-assistant.toml`."""

from __future__ import annotations

import asyncio
import datetime
from collections.abc import Sequence
from pathlib import Path

import pytest

from ..conftest import HOME
from ..waiting import run, soon
from .real import mosquitto, needs
from .serving import HTTP, over_http

MAPPING = (HOME / "service" / "home-assistant.toml").read_text("utf-8")
TOKEN = "t" * 16
LINES = Path(__file__).with_name("home_assistant.lines").read_text("utf-8")
SUMS = {"sensor/attic_temperature": "21.50", "sensor/meter": "1234.567", "sensor/wind": "12.35",
        "sensor/hall_humidity": "41.00", "binary_sensor/front_door": "1.00", "light/hall": "0.00",
        "climate/living/current_temperature": "20.40", "climate/living/temperature": "21.00"}


@pytest.mark.parametrize("address", [f"/write?db=home_assistant&u=homeassistant&p={TOKEN}",
                                     "/api/v2/write?org=home&bucket=home_assistant&precision=ns"])
def test_lines_of_the_integration(path: Path, folder: Path, address: str) -> None:
    """As both versions of it send them: each state that is a number is stored, and nothing is refused."""
    tokens = folder / "tokens"
    tokens.write_text(f"admin {TOKEN}\n")
    tokens.chmod(0o600)

    async def work() -> None:
        async with over_http(f'{HTTP}[tokens]\nfile = "{tokens}"\n{MAPPING}', path) as client:
            headers = {"Authorization": f"Token {TOKEN}"}
            await client.post(address, LINES, 204, headers=headers)
            await client.post(address, "", 204, headers=headers)       # with this it looks whether it may
            store = client.service.store()
            assert {stream.name.removeprefix("home/"): str(await store.query(stream.name, "sum"))
                    for stream in await store.list()} == SUMS
            assert await store.query("home/binary_sensor/front_door", "count") == 2
            description = store.description("home/sensor/meter")
            assert description is not None and description.unit == "kWh"
            assert "refused" not in {result for _, result in client.service.counters.of("readings")}
    run(work())


def test_points_by_its_client(path: Path) -> None:
    """The integration hands points to python3-influxdb, which makes the lines."""
    influxdb = pytest.importorskip("influxdb", reason="python3-influxdb is missing")
    fired = datetime.datetime(2025, 11, 29, 10, 0, 0, 123456, tzinfo=datetime.timezone.utc)
    point = {"measurement": "°C", "tags": {"domain": "sensor", "entity_id": "attic_temperature"},
             "time": fired, "fields": {"value": 21.5, "friendly_name_str": 'Attic "warm", °C'}}

    async def work() -> None:
        async with over_http(HTTP + MAPPING, path) as client:
            sender = influxdb.InfluxDBClient("127.0.0.1", client.port, "homeassistant", "", "home_assistant")
            for points in ([], [point]):
                assert await asyncio.to_thread(sender.write_points, points)
            sender.close()
            assert str(await client.service.store().query("home/sensor/attic_temperature", "sum")) == "21.50"
    run(work())


async def publish(port: int, *messages: tuple[str, str], words: Sequence[str] = ("-q", "1", "-r")) -> None:
    needs("mosquitto_pub")
    for topic, payload in messages:
        done = await asyncio.create_subprocess_exec("mosquitto_pub", "-p", str(port), *words, "-t", topic,
                                                    "-m", payload)
        assert await done.wait() == 0


def test_statestream(path: Path, folder: Path) -> None:
    """Messages as `mqtt_statestream` publishes them: by QoS 1, retained, and with attributes."""
    pytest.importorskip("paho.mqtt.client", reason="MQTT: python3-paho-mqtt is missing")
    broker = mosquitto(folder)
    mqtt = f'[mqtt]\nbroker = "127.0.0.1:{broker.port}"\ntopics = ["homeassistant/#"]\n'
    sensor, door = "homeassistant/sensor/attic_temperature", "homeassistant/binary_sensor/front_door"

    async def work() -> None:
        await publish(broker.port, (f"{sensor}/state", "20.0"))     # before: it isn't of now
        async with over_http(f"{HTTP}{mqtt}{MAPPING}", path) as client:
            counted = client.service.counters.of
            await soon(lambda: counted("refused") == {("mqtt", "retained"): 1})
            await publish(
                broker.port, (f"{sensor}/state", "21.456"), (f"{sensor}/unit_of_measurement", '"°C"'),
                (f"{sensor}/last_changed", '"2025-11-29T10:00:00.123456+00:00"'), (f"{door}/state", "on"),
                (f"{door}/state", "off"), (f"{sensor}/state", "unavailable"), (f"{sensor}/state", "unknown"),
                (f"{door}/device_class", '"door"'))
            await soon(lambda: sum(counted("readings").values()) == 9)
            store = client.service.store()
            assert str(await store.query("home/sensor/attic_temperature", "sum")) == "21.46"
            last = await store.last("home/binary_sensor/front_door")
            assert last is not None and last.value == 0
            assert await store.query("home/binary_sensor/front_door", "count") == 2
            assert counted("refused") == {("mqtt", "retained"): 1}
    broker.start()
    try:
        run(work())
    finally:
        broker.end()
