"""The broker, the service and the store's program are killed under load: nothing acknowledged is lost."""

from __future__ import annotations

import asyncio
import json
import os
import random
import signal
import subprocess
import sys
import threading
from collections.abc import Sequence
from contextlib import suppress
from pathlib import Path
from typing import Any

import aiohttp
import pytest

paho = pytest.importorskip("paho.mqtt.client", reason="MQTT: python3-paho-mqtt is missing")

import summarystore  # noqa: E402

from summarystore.clock import Clock  # noqa: E402
from summarystore.description import EPOCH  # noqa: E402

from ..ports import free_port  # noqa: E402
from ..waiting import TooLate, ended, joined, run, soon  # noqa: E402
from ..waiting import SECONDS as WAITS  # noqa: E402
from .real import Server, mosquitto  # noqa: E402
from .tap import SUBACK, Tap  # noqa: E402

LONG = bool(os.environ.get("SUMMARYSTORE_LONG"))
SECONDS = 300 if LONG else 15
BETWEEN = 3.0
PUBLISHERS = 4
EACH = 0.02
"""Each publisher waits so many seconds after each message."""
START = 1764406800000
CLOCK = Clock("ms", EPOCH, None)
SETTINGS = """
[http]
listen = "127.0.0.1:{http}"
[mqtt]
broker = "127.0.0.1:{broker}"
topics = ["load/#"]
[[mapping]]
match = "load/*"
json = "v"
json_time = "t"
time = "ms"
target = "exp 2 60 1"
"""


class Running:
    """The service as it is run: the command with a file."""

    def __init__(self, folder: Path, store: Path, broker: int) -> None:
        self.http = free_port()
        self._file = folder / "service.toml"
        self._file.write_text(SETTINGS.format(http=self.http, broker=broker))
        self._words = [sys.executable, "-m", "summarystore.server.main", "--config", str(self._file),
                       "--store", str(store)]
        self._said = folder / "service.said"
        self._process: subprocess.Popen[bytes] | None = None

    def start(self) -> None:
        """Starts it, and doesn't wait."""
        source = str(Path(summarystore.__file__).parents[1])
        with open(self._said, "ab") as out:
            self._process = subprocess.Popen(self._words, stdout=out, stderr=out, stdin=subprocess.DEVNULL,
                                             env={**os.environ, "PYTHONPATH": source})

    async def end(self, number: int) -> None:
        """Ends it by a signal, and waits for that."""
        assert self._process is not None
        self._process.send_signal(number)
        try:
            await asyncio.to_thread(ended, self._process, said=lambda: self._said.read_text("utf-8")[-2000:])
        except TooLate:
            self._process.kill()
            raise

    async def kill_program(self) -> None:
        """Kills the store's program, as soon as the service says which one that is."""
        end = asyncio.get_running_loop().time() + WAITS
        while asyncio.get_running_loop().time() < end:
            pid = await self._program()
            if pid is not None:
                with suppress(ProcessLookupError):
                    os.kill(pid, signal.SIGKILL)
                    return
            await asyncio.sleep(0.1)
        raise TooLate("no program is up")

    async def _program(self) -> int | None:
        try:
            async with aiohttp.ClientSession(timeout=aiohttp.ClientTimeout(2)) as session:
                async with session.get(f"http://127.0.0.1:{self.http}/healthz") as answer:
                    pid = (await answer.json())["store"]["pid"]
                    return None if pid is None else int(pid)
        except (aiohttp.ClientError, TimeoutError):
            return None


class Publisher:
    """Sends messages with times of their own, one after the other, whatever becomes of the broker."""

    def __init__(self, number: int, port: int) -> None:
        self.topic = f"load/{number}"
        self.sent: dict[int, int] = {}
        self._times: dict[int, int] = {}
        self._acknowledged: list[int] = []
        self._end = threading.Event()
        self._client = paho.Client(f"publisher-{number}", clean_session=False)
        self._client.reconnect_delay_set(1, 1)
        self._client.on_publish = self._published
        self._client.connect("127.0.0.1", port, 5)      # a lost connection is noticed soon
        self._client.loop_start()
        self._thread = threading.Thread(target=self._run)
        self._thread.start()

    def _published(self, _client: Any, _data: Any, mid: int) -> None:
        self._acknowledged.append(mid)      # under a lock of paho's: nothing is waited for here

    def _run(self) -> None:
        time = START
        while not self._end.wait(EACH):
            time += 1
            self.sent[time] = time % 1000
            payload = json.dumps({"t": time, "v": time % 1000})
            self._times[self._client.publish(self.topic, payload, 1).mid] = time

    def stop(self) -> None:
        """Sends no more."""
        self._end.set()
        joined(self._thread)

    @property
    def acknowledged(self) -> set[int]:
        """The times of the messages that the broker has acknowledged."""
        return {self._times[mid] for mid in self._acknowledged}

    @property
    def open(self) -> int:
        """How many it hasn't."""
        return len(self.sent) - len(set(self._acknowledged))

    def close(self) -> None:
        """Leaves the broker."""
        self.stop()
        self._client.disconnect()
        self._client.loop_stop()


async def is_calm(tap: Tap) -> None:
    """What the broker lost when it was killed isn't known: it has nothing more to send."""
    for _ in range(3):
        await asyncio.sleep(1)
        await soon(lambda: tap.connected and not tap.waiting)


def told(tap: Tap, topic: str) -> set[int]:
    """The times of the messages that the service has acknowledged."""
    return {json.loads(message.payload)["t"] for message in tap.acknowledged if message.topic == topic}


@pytest.mark.parametrize("kinds", [("service", "program"), ("service", "broker", "program")])
def test_nothing_acknowledged_is_lost(folder: Path, path: Path, kinds: Sequence[str]) -> None:
    """Each message that the service acknowledged is in the store, once, as it was sent. Where the broker
    isn't killed, each that the broker acknowledged is there, too."""
    with summarystore.open(path) as store:
        for number in range(PUBLISHERS):
            store.create(f"load/{number}", "exp 2 60 1", time="ms")
            store.open_landmark(f"load/{number}", 0)    # stays open: each value is kept as it is

    async def work() -> None:
        broker = mosquitto(folder)
        broker.start()
        async with Tap(broker.port) as tap:
            service = Running(folder, path, tap.port)
            service.start()
            publishers: list[Publisher] = []
            try:
                await soon(lambda: SUBACK in tap.answers)      # before it the broker keeps nothing for it
                publishers += [Publisher(number, broker.port) for number in range(PUBLISHERS)]
                await kill_them(broker, service, kinds)
                for publisher in publishers:
                    publisher.stop()
                await soon(lambda: not any(publisher.open for publisher in publishers))
                if "broker" in kinds:
                    await is_calm(tap)
                else:
                    await soon(lambda: all(publisher.acknowledged <= told(tap, publisher.topic)
                                           for publisher in publishers))
            finally:
                await service.end(signal.SIGTERM)
                for publisher in publishers:
                    publisher.close()
                broker.end()
            judge(path, tap, publishers, "broker" in kinds)

    run(work(), SECONDS + 600)


async def kill_them(broker: Server, service: Running, kinds: Sequence[str]) -> None:
    """Kills these in turn, every few seconds, and starts them again."""
    chance = random.Random(7)
    for turn in range(max(len(kinds), int(SECONDS / BETWEEN))):
        await asyncio.sleep(BETWEEN * chance.uniform(0.7, 1.3))
        what = kinds[turn % len(kinds)]
        if what == "broker":
            broker.end(signal.SIGKILL)
            broker.start()
        elif what == "service":
            await service.end(signal.SIGKILL)
            service.start()
        else:
            await service.kill_program()


def judge(path: Path, tap: Tap, publishers: Sequence[Publisher], broker_killed: bool) -> None:
    """Compares what is stored with what was acknowledged and what was sent."""
    def readings(topic: str, messages: list[Any]) -> set[tuple[int, int]]:
        return {(row["t"], row["v"]) for row in (json.loads(message.payload) for message in messages
                                                 if message.topic == topic)}
    summarystore.check(path)
    lost = 0
    with summarystore.open(path) as store:
        for publisher in publishers:
            rows = [(CLOCK.time(reading.time), int(reading.value))
                    for reading in store.values(publisher.topic)]
            stored = set(rows)
            assert len(rows) == len(stored) == len({time for time, _ in rows}) > 50
            assert not readings(publisher.topic, tap.acknowledged) - stored
            assert stored <= set(publisher.sent.items())
            lost += len({(time, publisher.sent[time]) for time in publisher.acknowledged} - stored)
    assert broker_killed or not lost
    print(f"{lost} messages were lost by the broker itself, when it was killed")
