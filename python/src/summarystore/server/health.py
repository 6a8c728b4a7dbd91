"""`GET /healthz`: whether the service can do its work, and what it knows of it."""

from __future__ import annotations

import time
from collections.abc import Sequence

from aiohttp import web

from .answers import json_answer
from .app import Service
from .endpoints import Access, Endpoint
from .supervision import State


def status_of(service: Service) -> str:
    """`ok`, `stopping`, or what keeps the store from its work."""
    if service.stopping:
        return "stopping"
    state = service.supervisor.state
    return "ok" if state is State.OPEN else f"store_{state.value}"


def told(service: Service) -> dict[str, object]:
    """What is known."""
    store, counters, intake = service.supervisor, service.counters, service.intake
    readings: dict[str, int] = {}
    for (_, result), count in counters.of("readings").items():
        readings[result] = readings.get(result, 0) + count
    lost: dict[str, int] = {}
    for (_, code), count in counters.of("lost").items():
        lost[code] = lost.get(code, 0) + count
    waiting, streams = intake.ahead
    return {
        "status": status_of(service),
        "seconds": round(time.time() - service.started),
        "store": {"state": store.state.value, "reason": store.why, "pid": store.pid,
                  "opened": counters.total("opened"), "ended": counters.total("ended")},
        "queue": {"readings": intake.queued, "room": intake.room,
                  "ahead_of_the_clock": {"readings": waiting, "streams": streams}},
        "readings": readings,
        "refused_and_acknowledged": {"readings": sum(lost.values()), "codes": lost},
        "unmatched": {"readings": service.unmatched.count, "names": len(service.unmatched.list())},
        "mapping": {"entries": len(intake.mappings.mappings), "error": service.mapping_error},
        "listeners": {each.name: each.state for each in service.listeners},
        "subscribers": len(service.hub),
    }


def endpoints(service: Service) -> Sequence[Endpoint]:
    """The address. Who has no token to read is told the status alone."""
    async def healthz(request: web.Request) -> web.StreamResponse:
        status = status_of(service)
        allowed = service.tokens.allow(Access.READ, request.headers, request.query)
        return json_answer(told(service) if allowed else {"status": status}, 200 if status == "ok" else 503)

    return [Endpoint("GET", "/healthz", healthz, Access.OPEN)]
