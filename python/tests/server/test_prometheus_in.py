"""Prometheus' remote_write: messages of its own make, and Prometheus itself."""

from __future__ import annotations

import asyncio
import json
import os
import signal
import struct
import urllib.request
from collections.abc import Mapping, Sequence
from decimal import ROUND_HALF_EVEN, Decimal
from pathlib import Path
from typing import Any

import aiohttp
import pytest

snappy = pytest.importorskip("snappy", reason="remote_write: python3-snappy is missing")
pytest.importorskip("google.protobuf", reason="remote_write: python3-protobuf is missing")

from summarystore.server.prometheus_message import (STALE, MessageError, Sample, samples,  # noqa: E402
                                                    unpacked)

from ..ports import free_port  # noqa: E402
from ..waiting import run, until, within  # noqa: E402
from .real import Server, found, needs  # noqa: E402
from .running import Running  # noqa: E402
from .serving import Client, over_http  # noqa: E402

MAPPING = """
[[mapping]]
match = "gone_*"
source = "prometheus"
ignore = true

[[mapping]]
match = "*"
source = "prometheus"
tags = { job = "*" }
scale = 0.001
time = "ms"
rounding = "half-even"
target = "exp 2 60 1"
"""
T = 1764406800000
Series = tuple[Mapping[str, str], Sequence[tuple[float, int]]]
(NAN,) = struct.unpack("<d", struct.pack("<Q", 0x7FF8000000000001))
(ENDED,) = struct.unpack("<d", struct.pack("<Q", STALE))


def varint(number: int) -> bytes:
    """As protobuf writes a number."""
    number %= 2**64
    found = bytearray()
    while number > 127:
        found.append(number & 127 | 128)
        number >>= 7
    return bytes([*found, number])


def field(number: int, data: bytes) -> bytes:
    return varint(number << 3 | 2) + varint(len(data)) + data


def message(*given: Series, histogram: bool = False) -> bytes:
    """A message, put together here by the rules of protobuf."""
    told = b""
    for labels, values in given:
        series = b"".join(field(1, field(1, key.encode()) + field(2, value.encode()))
                          for key, value in labels.items())
        series += b"".join(field(2, b"\x09" + struct.pack("<d", value) + b"\x10" + varint(at))
                           for value, at in values)
        told += field(1, series + (field(4, b"\x08\x05") if histogram else b""))
    return told + field(3, field(2, b"up"))       # metadata, which says nothing here


def labels(name: str, **more: str) -> Mapping[str, str]:
    return {"__name__": name, **more}


async def send(client: Client, data: bytes, status: int = 204, **headers: str) -> Any:
    """Sends a body as Prometheus does."""
    told = {"Content-Encoding": "snappy", "Content-Type": "application/x-protobuf", **headers}
    said = await client.text("POST", "/api/v1/write", status, data=data, headers=told)
    return json.loads(said) if said else None


def test_a_message_is_read() -> None:
    data = message((labels("up", job="it"), [(1.5, T), (-0.1, -1)]), (labels("é"), []))
    assert list(samples(unpacked(snappy.compress(data), 10_000))) == [
        Sample("up", {"job": "it"}, 1.5, T), Sample("up", {"job": "it"}, -0.1, -1)]
    (ended,) = samples(message((labels("up"), [(ENDED, T)])))
    assert ended.is_end and not Sample("up", {}, NAN, T).is_end


@pytest.mark.parametrize("data", [
    b"", b"no snappy", b"\xff\xff\xff\xff\xff\xff", snappy.compress(bytes(5000)),
    snappy.compress(b"\x0a\x05ab"),
    snappy.compress(message(({"a": "1"}, [])) + field(1, 2 * field(1, field(1, b"a") + field(2, b"b")))),
    snappy.compress(field(1, field(1, field(1, b"\xff"))))])
def test_no_message(data: bytes) -> None:
    with pytest.raises(MessageError):
        list(samples(unpacked(data, 1000)))


def test_samples_are_stored(path: Path) -> None:
    async def work() -> None:
        async with over_http(MAPPING, path) as client:
            data = message((labels("up", job="it", instance="a"), [(1, T), (0.1, T + 1), (2.0005, T + 2)]),
                           (labels("gone_1", job="it"), [(5, T)]), (labels("big", job="it"), [(2.0**40, T)]),
                           (labels("quantile", job="it"), [(NAN, T), (7, T + 1), (ENDED, T + 2)]))
            body = snappy.compress(data)
            assert await send(client, body) is None
            assert await send(client, body) is None         # all of it stands already
            store = client.service.store()
            assert await store.query("up,instance=a,job=it", "sum") == Decimal("3.1")      # 2.0005 is 2.000
            assert await store.query("big,job=it", "max") == 2**40
            assert await store.query("quantile,job=it", "sum") == 7
            counters = client.service.counters
            assert counters.of("refused")["prometheus", "not_a_number"] == 2
            assert counters.of("readings")["prometheus", "ignored"] == 4
    run(work())


def test_what_is_refused_is_told(path: Path) -> None:
    async def work() -> None:
        async with over_http(MAPPING + "[limits]\nlines = 3\nbody = 2000\n", path) as client:
            up = labels("up", job="it")
            assert await send(client, snappy.compress(message((up, [(1, T)])))) is None
            data = message((up, [(2, T - 1), (3, T + 1)]), (labels("free"), [(1, T)]))
            told = await send(client, snappy.compress(data), 400)
            assert told["error"] == "partial write" and (told["stored"], told["dropped"]) == (1, 2)
            assert [each["code"] for each in told["refused"]] == ["late", "unmatched"]
            assert told["refused"][0]["labels"] == {"job": "it"}
            one = snappy.compress(message((up, []), histogram=True))
            assert await send(client, one) is None
            assert client.service.counters.of("refused")["prometheus", "not_a_number"] == 1
            four = snappy.compress(message((up, [(1, T + at) for at in range(4)])))
            assert (await send(client, four, 413))["error"] == "too_many"
            assert (await send(client, b"", 400))["error"] == "bad_encoding"
            assert (await send(client, bytes(3000), 413))["error"] == "too_large"
            kind = "application/x-protobuf;proto=io.prometheus.write.v2.Request"
            assert (await send(client, one, 415, **{"Content-Type": kind}))["error"] == "bad_encoding"
            assert (await send(client, one, 415, **{"Content-Encoding": "zstd"}))["error"] == "bad_encoding"
    run(work())


PROMETHEUS = """
global: {{scrape_interval: 1s}}
scrape_configs:
- job_name: it
  static_configs: [{{targets: ['127.0.0.1:{port}']}}]
remote_write:
- url: http://127.0.0.1:{port}/api/v1/write
  queue_config: {{batch_send_deadline: 1s}}
"""


async def asked(session: aiohttp.ClientSession, base: str, path: str, **words: str) -> Any:
    """What Prometheus answers. Before it is ready it says so, and not in JSON."""
    async with session.get(f"{base}/api/v1/{path}", params=words) as answer:
        return (await answer.json())["data"]["result"] if answer.status == 200 else []


def test_prometheus_writes(path: Path, folder: Path) -> None:
    """All that Prometheus itself has scraped of a counter is in the store, at the same times."""
    needs("prometheus")
    name = "process_cpu_seconds_total"

    async def work() -> None:
        async with over_http(MAPPING, path) as client:
            file, listens = folder / "prometheus.yml", free_port()
            file.write_text(PROMETHEUS.format(port=client.port))
            words = [f"--config.file={file}", "--log.level=warn", f"--storage.tsdb.path={folder}/data",
                     f"--web.listen-address=127.0.0.1:{listens}"]
            prometheus = Server([str(found("prometheus")), *words], listens, folder)
            await asyncio.to_thread(prometheus.start)
            stream = f"{name},instance=127.0.0.1:{client.port},job=it"
            try:
                async def until_some() -> None:
                    while stream not in {each.name for each in await client.service.store().list()} \
                            or (await client.service.store().query(stream, "count")).lo < 3:
                        await asyncio.sleep(0.1)
                await within(until_some())
                kept = await client.service.store().last(stream)
                assert kept is not None
                async with client.session as session:
                    base = f"http://127.0.0.1:{listens}"
                    (series,) = await asked(session, base, "query", query=f"{name}[1h]")
            finally:
                await asyncio.to_thread(prometheus.end)
            sent = {round(at * 1000): Decimal(value).quantize(Decimal("0.001"), ROUND_HALF_EVEN)
                    for at, value in series["values"]}
            store = client.service.store()
            meaning = client.service.intake.streams.meaning(store, stream)
            newest = meaning.count_of(kept.time)
            times = [at for at in sent if at <= newest]
            assert len(times) >= 3 and newest in times
            first, last = min(times), max(times)
            assert await store.query(stream, "count", first, last) == len(times)
            assert await store.query(stream, "sum", first, last) == sum(sent[at] for at in times)
            assert "non-recoverable" not in prometheus.said, prometheus.said
    run(work())


KILLED = """
global: {{scrape_interval: 1s}}
scrape_configs:
- job_name: itself
  static_configs: [{{targets: ['127.0.0.1:{itself}']}}]
  metric_relabel_configs: [{{source_labels: [__name__], regex: 'process_.*', action: keep}}]
remote_write:
- url: http://127.0.0.1:{port}/api/v1/write
  queue_config: {{batch_send_deadline: 1s, min_backoff: 100ms, max_backoff: 500ms}}
"""


def answered(base: str, name: str) -> dict[int, Decimal]:
    """The samples of a series in the last hour, by their milliseconds."""
    with urllib.request.urlopen(f"{base}/api/v1/query?query={name}%5B1h%5D") as answer:
        (series,) = json.loads(answer.read())["data"]["result"]
    return {round(at * 1000): Decimal(value).quantize(Decimal("0.001"), ROUND_HALF_EVEN)
            for at, value in series["values"]}


def test_kills_under_prometheus(path: Path, folder: Path) -> None:
    """The service and the program are killed, and what Prometheus has scraped meanwhile is sent again."""
    needs("prometheus")
    name = "process_cpu_seconds_total"
    port, listens, file = free_port(), free_port(), folder / "prometheus.yml"
    file.write_text(KILLED.format(port=port, itself=listens))
    prometheus = Server([str(found("prometheus")), f"--config.file={file}", "--log.level=warn",
                         f"--storage.tsdb.path={folder}/data", f"--web.listen-address=127.0.0.1:{listens}"],
                        listens, folder)
    service = Running(folder, f"--store={path}", f"--listen=127.0.0.1:{port}", config=MAPPING)
    words = f"stream={name},instance=127.0.0.1:{listens},job=itself"

    def count() -> int:
        status, told = service.ask(f"/api/query?{words}&kind=count")
        return int(told["lo"]) if status == 200 else 0
    try:
        service.until("ready: address=")
        prometheus.start()
        for kill in ("service", "program") * 2:
            until(count)
            before = count()
            until(lambda: count() > before)
            if kill == "service":
                service.end(signal.SIGKILL)
                service.start_again()
            else:
                os.kill(service.ask("/healthz")[1]["store"]["pid"], signal.SIGKILL)
        before = count()
        until(lambda: count() > before + 1)
        newest = round(Decimal(str(service.ask(f"/api/streams?match={words.partition('=')[2]}")
                                   [1]["streams"][0]["last"])) * 1000)
        scraped = {at: value for at, value in answered(f"http://127.0.0.1:{listens}", name).items()
                   if at <= newest}
        assert len(scraped) > 5
        ends = f"&from={min(scraped) / 1000}&to={newest / 1000}"
        told = service.ask(f"/api/query?{words}&kind=count{ends}")[1]
        assert told["lo"] == told["hi"] == len(scraped)
        told = service.ask(f"/api/query?{words}&kind=sum{ends}")[1]
        assert Decimal(str(told["lo"])) == Decimal(str(told["hi"])) == sum(scraped.values())
        service.end_in_time()
    finally:
        prometheus.end()
        service.process.kill()
        service.process.wait()
