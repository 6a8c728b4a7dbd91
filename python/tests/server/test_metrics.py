"""What Prometheus is told: read by its own parser, and by Prometheus itself."""

from __future__ import annotations

import asyncio
import json
from collections.abc import AsyncIterator
from contextlib import asynccontextmanager
from pathlib import Path
from typing import Any

import aiohttp
import pytest

pytest.importorskip("prometheus_client", reason="/metrics: python3-prometheus-client is missing")

from prometheus_client.parser import text_string_to_metric_families  # noqa: E402

from summarystore.server import metrics  # noqa: E402
from summarystore.server.app import Service  # noqa: E402
from summarystore.server.http import Http  # noqa: E402
from summarystore.server.intake import Incoming  # noqa: E402

from .conftest import ANY, Serving  # noqa: E402
from ..ports import free_port  # noqa: E402
from ..waiting import run, within  # noqa: E402
from .real import Server, found, needs  # noqa: E402

SECOND = 10**9


@asynccontextmanager
async def telling(serving: Serving) -> AsyncIterator[tuple[Service, int]]:
    """A service that has stored three readings and refused two, and its port."""
    async with serving('[http]\nlisten = "127.0.0.1:0"\n' + ANY) as service:
        http = Http(service, metrics.endpoints(service))
        service.attach(http)
        await http.start()
        readings = [Incoming("home/room", value, at * SECOND, source="graphite")
                    for at, value in enumerate(("1", "2", "unavailable", "3"), 1)]
        await service.intake.append_many([*readings, Incoming("other", "1", SECOND, source="mqtt")])
        assert http.address is not None
        yield service, http.address[1]


async def told(port: int) -> dict[tuple[str, tuple[str, ...]], float]:
    """Each sample by its name and the values of its labels, in the order of their names."""
    async with aiohttp.ClientSession() as session:
        async with session.get(f"http://127.0.0.1:{port}/metrics") as answer:
            assert answer.status == 200
            assert answer.headers["Content-Type"].startswith("text/plain; version=0.0.4")
            text = await answer.text()
    families: list[Any] = list(text_string_to_metric_families(text))    # type: ignore[no-untyped-call]
    samples = [sample for family in families for sample in family.samples]
    return {(sample.name, tuple(sample.labels[key] for key in sorted(sample.labels))): sample.value
            for sample in samples}


def test_the_metrics(serving: Serving) -> None:
    async def work() -> None:
        async with telling(serving) as (service, port):
            samples = await told(port)
            assert samples["summarystore_readings_total", ("stored", "graphite")] == 3
            assert samples["summarystore_readings_total", ("refused", "graphite")] == 1
            assert samples["summarystore_refused_readings_total", ("not_a_number", "graphite")] == 1
            assert samples["summarystore_unmatched_readings_total", ("mqtt",)] == 1
            assert samples["summarystore_batches_total", ()] == 1
            assert samples["summarystore_append_seconds_count", ()] == 1
            assert samples["summarystore_append_seconds_bucket", ("+Inf",)] == 1
            assert samples["summarystore_up", ()] == 1 and samples["summarystore_queue_readings", ()] == 0
            assert samples["summarystore_queue_limit", ()] == 100_000
            assert samples["summarystore_listener", ("http",)] == 1
            assert samples["summarystore_store_openings_total", ()] == 1
            assert samples["summarystore_program_write_calls_total", ()] > 0
            assert samples["process_resident_memory_bytes", ()] > 0
            again = await told(port)
            assert again["summarystore_requests_total", ("GET", "/metrics", "200")] == 1
            assert again["summarystore_query_seconds_count", ("/metrics",)] == 1
            await service.stop()
            with pytest.raises(aiohttp.ClientError):
                await told(port)
    run(work())


def test_the_metrics_while_the_store_is_away(serving: Serving, path: Path) -> None:
    """The service is asked how it is, also where the store can't be opened."""
    path.write_bytes(b"no store" * 10_000)

    async def work() -> None:
        async with serving('[http]\nlisten = "127.0.0.1:0"\n') as service:
            http = Http(service, metrics.endpoints(service))
            await http.start()
            assert http.address is not None
            samples = await told(http.address[1])
            assert samples["summarystore_up", ()] == 0
            assert samples["summarystore_program_ends_total", ("damaged",)] >= 1
            assert ("summarystore_program_write_calls_total", ()) not in samples
            await http.stop()
    run(work())


def test_prometheus_scrapes(serving: Serving, folder: Path) -> None:
    """Prometheus itself takes all of it, and answers what the service has counted."""
    needs("prometheus")

    async def work() -> None:
        async with telling(serving) as (_service, port):
            file, listens = folder / "prometheus.yml", free_port()
            file.write_text("global: {scrape_interval: 1s}\nscrape_configs:\n- job_name: it\n"
                            f"  static_configs: [{{targets: ['127.0.0.1:{port}']}}]\n")
            words = [f"--config.file={file}", "--log.level=warn", f"--storage.tsdb.path={folder}/data",
                     f"--web.listen-address=127.0.0.1:{listens}"]
            prometheus = Server([str(found("prometheus")), *words], listens, folder)
            await asyncio.to_thread(prometheus.start)
            try:
                base = f"http://127.0.0.1:{listens}/api/v1"
                asked = 'summarystore_readings_total{source="graphite",result="stored"}'
                answers: list[str] = []
                async with aiohttp.ClientSession() as session:
                    async def scraped() -> bool:
                        async with session.get(f"{base}/query", params={"query": asked}) as answer:
                            answers.append(await answer.text())
                            # Before it is ready Prometheus says so, and not in JSON.
                            return answer.status == 200 and bool(json.loads(answers[-1])["data"]["result"])

                    async def until_scraped() -> None:
                        while not await scraped():
                            await asyncio.sleep(0.2)
                    await within(until_scraped())
                    assert json.loads(answers[-1])["data"]["result"][0]["value"][1] == "3"
                    async with session.get(f"{base}/targets") as answer:
                        target = (await answer.json())["data"]["activeTargets"][0]
                    assert target["health"] == "up" and target["lastError"] == ""
            finally:
                await asyncio.to_thread(prometheus.end)
    run(work())
