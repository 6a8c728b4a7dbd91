"""Streams that are dropped, renamed, or gone on with by another, while the service serves.

A stream whose newest time lies ahead of the clock takes no right reading. `restart` makes one like it
under another name, which takes its readings from then on; what it holds stays readable under its own.
"""

from __future__ import annotations

import asyncio
import logging
import time as clock
from collections.abc import AsyncIterator, Sequence
from contextlib import AsyncExitStack, asynccontextmanager

from aiohttp import web

from .. import aio
from ..errors import UnknownStreamError
from ..gauges import BESIDE
from ..records import Stream
from . import asked, exactjson
from .answers import json_answer
from .app import Service
from .bodies import body_of
from .endpoints import Access, ApiError, Endpoint
from .restarts import restart

log = logging.getLogger("summarystored")
DONE = {"rename": "renamed", "restart": "restarted"}
"""What a change of a stream is, and how the log says that it was made."""


class Repair:
    """The handlers."""

    def __init__(self, service: Service) -> None:
        self._service = service
        self._streams = service.intake.streams

    async def drop(self, request: web.Request) -> web.StreamResponse:
        """`DELETE /api/streams/NAME`: removes a stream with all that it holds."""
        name = request.match_info["name"]
        async with self._alone(name):
            store = self._service.store()
            stream = await self._stream(store, name)
            beside = store.beside(name)
            await store.drop(name)
            self._streams.forget(name)
            if beside is not None:
                self._streams.forget(beside)
            self._service.intake.moved(name)
            await self._service.landmarks.moved(name, None)
        log.warning("stream dropped: stream=%r values=%d by=%s", name, stream.values, request.remote)
        return json_answer({"stream": name, "dropped": True, "values": stream.values})

    async def change(self, request: web.Request) -> web.StreamResponse:
        """`PATCH /api/streams/NAME`: `{"rename": NEW}` or `{"restart": NEW}`."""
        name = request.match_info["name"]
        key, new = _change(await body_of(request, self._service.configuration.limits))
        mistake = self._service.intake.mistake_of(new)
        if mistake is not None:
            raise asked.bad(mistake.reason, "bad_name")
        async with self._alone(name, new):
            store = self._service.store()
            stream = await self._stream(store, name)
            if self._streams.stands(new):
                raise ApiError(409, "stream_exists", f"a stream {new!r} stands")
            await (self._rename(store, name, new) if key == "rename" else self._restart(store, stream, new))
            self._service.intake.moved(name)
        log.warning("stream %s: stream=%r new=%r by=%s", DONE[key], name, new, request.remote)
        return json_answer({"stream": name, key: new})

    @asynccontextmanager
    async def _alone(self, *names: str) -> AsyncIterator[None]:
        """Nobody else writes to these streams meanwhile."""
        async with AsyncExitStack() as stack:
            for name in sorted(set(names)):
                await stack.enter_async_context(self._streams.alone(name))
            yield

    async def _stream(self, store: aio.Store, name: str) -> Stream:
        found = next((each for each in await store.list() if each.name == name), None)
        if found is None:
            raise UnknownStreamError("UNKNOWN", name)
        return found

    async def _rename(self, store: aio.Store, name: str, new: str) -> None:
        beside = store.beside(name)
        await asyncio.to_thread(store.rename, name, new)
        self._streams.forget(name)
        self._streams.came(new)
        if beside is not None:
            self._streams.forget(beside)
            self._streams.came(new + BESIDE)
        await self._service.landmarks.moved(name, new)

    async def _restart(self, store: aio.Store, stream: Stream, new: str) -> None:
        name = stream.name
        meaning, last = self._streams.meaning(store, name), await store.last(name)
        if last is None or meaning.nanoseconds(meaning.count_of(last.time)) <= clock.time_ns():
            raise ApiError(409, "not_ahead", f"the newest time of {name!r} doesn't lie ahead of the clock")
        await restart(self._streams, store, stream, new)


def _change(body: bytes) -> tuple[str, str]:
    """What is to be done with a stream, and the other name for it."""
    try:
        given = exactjson.loads(body)
    except ValueError as error:
        raise asked.bad(str(error)) from None
    if isinstance(given, dict) and len(given) == 1:
        (key, new), = given.items()
        if key in DONE and isinstance(new, str):
            return key, new
    raise asked.bad('`{"rename": NAME}` or `{"restart": NAME}` is to stand in the body')


def endpoints(service: Service) -> Sequence[Endpoint]:
    """The addresses."""
    repair = Repair(service)
    return [Endpoint("DELETE", "/api/streams/{name:.+}", repair.drop, Access.ADMIN),
            Endpoint("PATCH", "/api/streams/{name:.+}", repair.change, Access.ADMIN)]
