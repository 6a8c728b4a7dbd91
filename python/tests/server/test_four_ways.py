"""The service and its program are killed while readings come on four ways: nothing acknowledged is lost.

Whoever sends does so again until it is acknowledged: by the status of HTTP, by the broker, and of Graphite's
lines, which have no reply, by what the service says of the stream. The gate sends few, and 100,000 readings
with 30 kills of each where SUMMARYSTORE_LONG is set.
"""

from __future__ import annotations

import http.client
import json
import os
import random
import socket
import threading
import time
from collections.abc import Callable, Sequence
from contextlib import suppress
from pathlib import Path
from typing import Any

import pytest

paho = pytest.importorskip("paho.mqtt.client", reason="MQTT: python3-paho-mqtt is missing")
pytest.importorskip("snappy", reason="remote_write: python3-snappy is missing")

import summarystore  # noqa: E402
from summarystore.clock import Clock  # noqa: E402
from summarystore.description import EPOCH  # noqa: E402

from ..ports import free_port  # noqa: E402
from ..waiting import joined, until  # noqa: E402
from .real import mosquitto  # noqa: E402
from .running import Running  # noqa: E402
from .test_prometheus_in import message, snappy  # noqa: E402

LONG = bool(os.environ.get("SUMMARYSTORE_LONG"))
EACH = 25_000 if LONG else 1_000
"""Readings on each way."""
KILLS = 30 if LONG else 2
"""Of the service, and as many of its program."""
BODY = 100
START = 1764406800
MILLISECONDS = Clock("ms", EPOCH, None)
STREAMS = ("load/http", "load_prometheus", "load.graphite", "load/mqtt")
SETTINGS = """
[http]
listen = "127.0.0.1:{http}"
[graphite]
listen = "127.0.0.1:{graphite}"
[mqtt]
broker = "127.0.0.1:{broker}"
topics = ["load/#"]
[[mapping]]
match = "load/mqtt"
json = "v"
json_time = "t"
time = "ms"
target = "exp 2 60 1"
"""


def value_of(at: int) -> int:
    """The value of a reading, so many seconds after the first."""
    return at * 37 % 1000


class Ports:
    """Where the service listens."""

    def __init__(self) -> None:
        self.http, self.graphite = free_port(), free_port()

    def ask(self, method: str, path: str, body: bytes | None = None, **headers: str) -> tuple[int, bytes]:
        """An answer. Its status is 0 where there is none."""
        connection = http.client.HTTPConnection("127.0.0.1", self.http, timeout=30)
        try:
            connection.request(method, path, body, headers)
            answer = connection.getresponse()
            return answer.status, answer.read()
        except (OSError, http.client.HTTPException):
            return 0, b""
        finally:
            connection.close()

    def newest(self, stream: str) -> float:
        """The newest time of a stream, or 0."""
        status, said = self.ask("GET", f"/api/streams?match={stream}")
        rows = json.loads(said)["streams"] if status == 200 else []
        return float(rows[0]["last"] or 0) if rows else 0.0


class Sender(threading.Thread):
    """Sends bodies of readings on one way, each until it is acknowledged."""

    def __init__(self, send: Callable[[range], bool]) -> None:
        super().__init__()
        self._send = send
        self._given_up = threading.Event()
        self.done = 0
        self.again = 0
        """How many bodies were sent once more."""
        self.start()

    def run(self) -> None:
        """Sends all."""
        while self.done < EACH and not self._given_up.is_set():
            part = range(self.done, min(EACH, self.done + BODY))
            if self._send(part):
                self.done = part.stop
            else:
                self.again += 1
                time.sleep(0.02)

    def give_up(self) -> None:
        """The test has failed."""
        self._given_up.set()


def by_http(ports: Ports, part: range) -> bool:
    """By JSON."""
    rows = [{"stream": "load/http", "time": START + at, "value": value_of(at)} for at in part]
    return ports.ask("POST", "/api/append", json.dumps({"readings": rows}).encode())[0] == 200


def by_prometheus(ports: Ports, part: range) -> bool:
    """By remote_write."""
    samples = [(float(value_of(at)), (START + at) * 1000) for at in part]
    body = snappy.compress(message(({"__name__": "load_prometheus"}, samples)))
    return ports.ask("POST", "/api/v1/write", body, **{"Content-Encoding": "snappy"})[0] == 204


def by_graphite(ports: Ports, part: range) -> bool:
    """By lines, until the newest of them stands."""
    lines = "".join(f"load.graphite {value_of(at)} {START + at}\n" for at in part)
    with suppress(OSError), socket.create_connection(("127.0.0.1", ports.graphite), 30) as sock:
        sock.sendall(lines.encode())
        sock.shutdown(socket.SHUT_WR)
        sock.settimeout(30)
        while sock.recv(1024):
            pass
    return ports.newest("load.graphite") >= START + part[-1]


class Publisher:
    """Publishes by QoS 1. What the broker has acknowledged is its own."""

    def __init__(self, port: int) -> None:
        self._done = threading.Event()
        self._open: set[int] = set()
        self._client = paho.Client("four-ways")
        self._client.on_publish = self._published
        self._client.max_inflight_messages_set(BODY)
        self._client.connect("127.0.0.1", port, 60)
        self._client.loop_start()

    def _published(self, _client: Any, _data: Any, mid: int) -> None:
        self._open.discard(mid)

    def __call__(self, part: range) -> bool:
        """Publishes some, and waits until the broker has them."""
        for at in part:
            payload = json.dumps({"t": (START + at) * 1000, "v": value_of(at)})
            message = self._client.publish("load/mqtt", payload, 1)
            message.wait_for_publish(60)
        return True

    def close(self) -> None:
        """Leaves the broker."""
        self._client.disconnect()
        self._client.loop_stop()


def kill_them(service: Running, senders: Sequence[Sender]) -> None:
    """Kills the service and the program in turn, spread over all that is sent."""
    chance = random.Random(11)
    for turn in range(2 * KILLS):
        wanted = EACH * len(senders) * (turn + chance.random()) / (2 * KILLS + 1)
        until(lambda: sum(sender.done for sender in senders) >= wanted, 600)
        if turn % 2:
            until(service.kill_program)
        else:
            service.killed()


def test_nothing_acknowledged_is_lost(folder: Path, path: Path) -> None:
    with summarystore.open(path) as store:
        for stream in STREAMS:
            store.create(stream, "exp 2 60 1", time="ms")
            store.open_landmark(stream, 0)      # stays open: each value is kept as it is
    broker, ports = mosquitto(folder), Ports()
    broker.start()
    config = SETTINGS.format(http=ports.http, graphite=ports.graphite, broker=broker.port)
    service = Running(folder, f"--store={path}", config=config)
    senders: list[Sender] = []
    publisher = None
    try:
        service.until("mqtt: connected")
        time.sleep(1)
        publisher = Publisher(broker.port)
        senders += [Sender(lambda part: by_http(ports, part)), Sender(publisher),
                    Sender(lambda part: by_prometheus(ports, part)),
                    Sender(lambda part: by_graphite(ports, part))]
        kill_them(service, senders)
        until(lambda: all(sender.done == EACH for sender in senders), 600)
        until(lambda: ports.newest("load/mqtt") >= START + EACH - 1, 600)
        assert service.end() == 0
    finally:
        for sender in senders:
            sender.give_up()
            joined(sender)
        if publisher is not None:
            publisher.close()
        service.process.kill()
        service.process.wait()
        broker.end()
    assert any(sender.again for sender in senders)
    judge(path)


def judge(path: Path) -> None:
    """Each reading stands once, with its value."""
    summarystore.check(path)
    sent = [((START + at) * 1000, value_of(at)) for at in range(EACH)]
    with summarystore.open(path) as store:
        for stream in STREAMS:
            kept = [(MILLISECONDS.time(each.time), int(each.value)) for each in store.values(stream)]
            assert kept == sent, stream
