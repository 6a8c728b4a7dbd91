"""`GET /api/events`: what happens, as server-sent events."""

from __future__ import annotations

from collections.abc import Sequence

from aiohttp import web

from . import exactjson
from .app import Service
from .endpoints import Access, ApiError, Endpoint
from .events import Event

ALIVE = 15.0
"""After so many seconds without an event a comment says that the connection stands."""
MOST_STREAMS = 200
HEADERS = {"Content-Type": "text/event-stream", "Cache-Control": "no-store", "X-Accel-Buffering": "no"}


def text_of(event: Event) -> str:
    """An event as it is sent."""
    return f"event: {event.kind}\ndata: {exactjson.dumps(event.data)}\n\n"


def endpoints(service: Service) -> Sequence[Endpoint]:
    """The address."""
    async def events(request: web.Request) -> web.StreamResponse:
        streams = frozenset(request.query.getall("stream", []))
        if len(streams) > MOST_STREAMS:
            raise ApiError(400, "too_many", f"at most {MOST_STREAMS} streams are listened to, or all of them")
        if service.stopping or len(service.hub) >= service.configuration.limits.subscribers:
            raise ApiError(503, "busy", "too many listen to events, or the service is stopping", 5)
        subscriber = service.hub.subscribe(streams)
        try:
            answer = web.StreamResponse(headers=HEADERS)
            await answer.prepare(request)
            store = service.supervisor
            begin = Event("health", {"state": store.state.value, "reason": store.why})
            await answer.write(f"retry: 2000\n\n{text_of(begin)}".encode())
            while not subscriber.closed:
                found = await subscriber.take(ALIVE)
                text = "".join(map(text_of, found)) or ": alive\n\n"
                await answer.write(text.encode())
        finally:
            service.hub.leave(subscriber)
        return answer

    return [Endpoint("GET", "/api/events", events, Access.READ)]
