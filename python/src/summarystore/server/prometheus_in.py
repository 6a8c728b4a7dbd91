"""Readings that Prometheus sends by remote_write, at `POST /api/v1/write`.

A sample is a reading with the name of its metric, and with its labels as tags. Prometheus sends again what
was answered by 5xx, and lets go of what was answered by 4xx, with the reason in its log.
"""

from __future__ import annotations

from collections.abc import Sequence

from aiohttp import web

from . import http_in
from .answers import error_answer
from .app import Service
from .bodies import body_of
from .column import are_stored, columns_of, in_order
from .endpoints import Access, ApiError, Endpoint
from .intake import Incoming, Outcome, Result
from .prometheus_message import MessageError, Sample, samples, unpacked

SOURCE = "prometheus"
MILLISECOND = 10**6
SECOND_VERSION = "io.prometheus.write.v2"
HISTOGRAM = "a native histogram, which isn't kept"
NO_NUMBER = "not_a_number"


class PrometheusIn:
    """The handler."""

    def __init__(self, service: Service) -> None:
        self._service = service

    async def write(self, request: web.Request) -> web.StreamResponse:
        """`POST /api/v1/write`."""
        limits = self._service.configuration.limits
        if SECOND_VERSION in request.headers.get("Content-Type", ""):
            raise ApiError(415, "bad_encoding", "remote_write is understood in its first version")
        data = await body_of(request, limits, as_it_is="snappy")
        try:
            found = list(samples(unpacked(data, limits.body)))
        except MessageError as error:
            raise ApiError(400, "bad_encoding", str(error)) from None
        kept = [sample for sample in found if not sample.is_end]
        if len(kept) > limits.lines:
            raise ApiError(413, "too_many", f"a body has at most {limits.lines} readings")
        ended = len(found) - len(kept)
        if ended:
            self._service.counters.add("readings", SOURCE, Result.IGNORED.value, count=ended)
        columns = columns_of(map(_reading, kept))
        stored = await self._service.intake.append_columns(columns)
        return web.Response(status=204) if are_stored(stored) else _written(kept, in_order(columns, stored))


def _reading(sample: Sample) -> Incoming:
    value = HISTOGRAM if sample.value is None else repr(sample.value)
    return Incoming(sample.name, value, sample.milliseconds * MILLISECOND, sample.labels, SOURCE)


def _written(kept: Sequence[Sample], outcomes: Sequence[Outcome]) -> web.Response:
    """What became of the samples. What is no number is only counted: a quantile of nothing is NaN."""
    stored = sum(outcome.good for outcome in outcomes)
    open_ones = http_in.open_of(outcomes)
    if open_ones is not None:
        return error_answer(open_ones, {"stored": stored})
    wrong = [(sample, outcome) for sample, outcome in zip(kept, outcomes)
             if outcome.result is Result.REFUSED and outcome.code != NO_NUMBER]
    if not wrong:
        return web.Response(status=204)
    first, outcome = wrong[0]
    told = {"stored": stored, "dropped": len(wrong), "refused": [
        {"name": sample.name, "labels": dict(sample.labels), "code": each.code, "reason": each.reason}
        for sample, each in wrong[:http_in.SHOWN]]}
    return error_answer(ApiError(400, "partial write", f"{stored} samples are stored; {first.name}: "
                                 f"{outcome.reason} dropped={len(wrong)}"), told)


def endpoints(service: Service) -> Sequence[Endpoint]:
    """The address."""
    return [Endpoint("POST", "/api/v1/write", PrometheusIn(service).write, Access.WRITE)]
