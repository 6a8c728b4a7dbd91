"""What the service tells Prometheus of itself, at `/metrics`.

The syncs of the store aren't among it: the program makes them, two for what came to it together, and
no reply says how many there were. `summarystore_batches_total` is what the service hands over
together, and `summarystore_program_write_calls_total`, where the system tells it, how often the
program wrote.
"""

from __future__ import annotations

from collections.abc import Iterator, Sequence

from aiohttp import web
from prometheus_client import CollectorRegistry
from prometheus_client.core import (CounterMetricFamily, GaugeMetricFamily, HistogramMetricFamily, Metric)
from prometheus_client.exposition import CONTENT_TYPE_LATEST, generate_latest
from prometheus_client.process_collector import ProcessCollector
from prometheus_client.registry import Collector

from .. import __version__
from .app import Service
from .counters import BOUNDS, Durations
from .endpoints import Access, Endpoint
from .supervision import State

COUNTS = (
    ("readings", "readings", "Readings whose fate is known, by what became of them.", ("source", "result")),
    ("refused", "refused_readings", "Readings that were refused, by the reason.", ("source", "code")),
    ("lost", "refused_acknowledged_readings",
     "Refused readings that a broker was acknowledged for, by the reason.", ("source", "code")),
    ("unmatched", "unmatched_readings", "Readings that no mapping matches.", ("source",)),
    ("busy", "busy", "Batches for which the queue had no room.", ("what",)),
    ("batches", "batches", "Batches that went to the store, each of one stream.", ()),
    ("requests", "requests", "Answers by HTTP.", ("route", "method", "status")),
    ("connections", "cut_connections", "Connections that were refused or cut off.", ("why",)),
    ("opened", "store_openings", "How often the store was opened.", ()),
    ("ended", "program_ends", "How often the program ended unasked, by the reason.", ("reason",)),
    ("events", "events", "Events for those who listen, sent or lost.", ("what",)),
)
"""Counters of the service: their name there, and what they are here."""
DURATIONS = (
    ("append", "append_seconds",
     "From when a reading was handed over until it was stored, the oldest of each batch.", ()),
    ("query", "query_seconds", "Answers to questions.", ("route",)),
)
PROGRAM = (("write_calls", "syscw", "How often the program wrote."),
           ("written_bytes", "wchar", "What the program wrote, to the store and as replies."),
           ("read_bytes", "rchar", "What the program read, of the store and as lines."))


class ServiceCollector(Collector):
    """Gathers the metrics when they are asked for."""

    def __init__(self, service: Service) -> None:
        self._service = service

    def collect(self) -> Iterator[Metric]:
        """All of them, but those of the process."""
        yield from self._counts()
        yield from self._durations()
        yield from self._gauges()
        yield from self._program()

    def _counts(self) -> Iterator[Metric]:
        for own, name, told, labels in COUNTS:
            family = CounterMetricFamily(f"summarystore_{name}", told, labels=labels)
            found = self._service.counters.of(own)
            for values, count in (found or ({} if labels else {(): 0})).items():
                family.add_metric(values, count)
            yield family

    def _durations(self) -> Iterator[Metric]:
        for own, name, told, labels in DURATIONS:
            family = HistogramMetricFamily(f"summarystore_{name}", told, labels=labels)
            for values, durations in self._service.counters.durations(own).items():
                family.add_metric(values, _buckets(durations), durations.sum)
            yield family

    def _gauges(self) -> Iterator[Metric]:
        service = self._service
        yield _gauge("queue_readings", "Readings that are under way.", service.intake.queued)
        yield _gauge("queue_ahead_readings", "Readings that wait since their stream lies ahead of the clock.",
                     service.intake.ahead[0])
        yield _gauge("queue_limit", "So many readings may be under way.",
                     service.configuration.limits.queue)
        yield _gauge("up", "Whether the store is open.", service.supervisor.state is State.OPEN)
        yield _gauge("subscribers", "Those who listen to events.", len(service.hub))
        yield _gauge("unmatched_names", "Names that no mapping matches and that are listed.",
                     len(service.unmatched.list()))
        yield _gauge("start_time_seconds", "When the service began.", service.started)
        listeners = GaugeMetricFamily("summarystore_listener", "What takes readings, and its state.",
                                      labels=("name",))
        for listener in service.listeners:
            listeners.add_metric((listener.name,), float(_is_good(listener.state)))
        yield listeners
        version = GaugeMetricFamily("summarystore_build_info", "The version.", labels=("version",))
        version.add_metric((__version__,), 1)
        yield version

    def _program(self) -> Iterator[Metric]:
        """Of the program's process: what the system tells of it, since its last start."""
        told = io_of(self._service.supervisor.pid)
        for name, key, text in PROGRAM:
            if key in told:
                family = CounterMetricFamily(f"summarystore_program_{name}", text)
                family.add_metric((), told[key])
                yield family


def io_of(pid: int | None) -> dict[str, int]:
    """What the system counts of a process' input and output. Empty where it doesn't tell."""
    if pid is None:
        return {}
    try:
        with open(f"/proc/{pid}/io", encoding="ascii") as stream:
            pairs = (line.split(":") for line in stream)
            return {key: int(value) for key, value in pairs}
    except (OSError, ValueError):
        return {}


def _is_good(state: str) -> bool:
    return state.startswith(("listening", "connected", "watching"))


def _gauge(name: str, told: str, value: float) -> Metric:
    return GaugeMetricFamily(f"summarystore_{name}", told, value=float(value))


def _buckets(durations: Durations) -> Sequence[tuple[str, int]]:
    """How many took at most so long, as Prometheus has them: each bucket with those before it."""
    total = 0
    found = []
    for bound, count in zip((*map(str, BOUNDS), "+Inf"), durations.buckets):
        total += count
        found.append((bound, total))
    return found


def endpoints(service: Service) -> Sequence[Endpoint]:
    """The address of the metrics."""
    registry = CollectorRegistry()
    registry.register(ServiceCollector(service))
    ProcessCollector(registry=registry)

    async def metrics(_request: web.Request) -> web.StreamResponse:
        return web.Response(body=generate_latest(registry), headers={"Content-Type": CONTENT_TYPE_LATEST})
    return [Endpoint("GET", "/metrics", metrics, Access.READ)]
