"""Questions to a follower by HTTP, answered from a copy of its store.

The follower has its store alone. So a copy is made at a moment when no frame is under way, when
somebody asks and the last one is older than it may be, and the service's answers are given from it.
"""

from __future__ import annotations

import asyncio
import logging
import shutil
import tempfile
import time
from collections.abc import AsyncIterator, Callable, Sequence
from contextlib import AbstractAsyncContextManager, asynccontextmanager
from dataclasses import replace
from pathlib import Path
from typing import Any, TypeAlias

from aiohttp import web

from ..server import http_out
from ..server.answers import json_answer
from ..server.app import Service
from ..server.configuration import Configuration, HttpSettings, StoreSettings, TokenSettings
from ..server.endpoints import Access, ApiError, Endpoint, Handler
from ..server.http import Http, is_loopback, shown
from ..server.tables import address_of
from .errors import FleetError
from .following import Follower

log = logging.getLogger("summarystore.fleet")
COPIED = "Summarystore-Copied"
"""The header with the time of the copy that an answer is from, in seconds."""
AS_OF = "Summarystore-As-Of"
"""The header with the last moment at which the log was known to be drained, in seconds. 0: none is known."""
Serving: TypeAlias = Callable[[Follower], AbstractAsyncContextManager[Any]]
"""Serves a follower while a context lasts."""
PATHS = ("/api/streams", "/api/names", "/api/query", "/api/series", "/api/windows", "/api/landmarks")


class Copy:
    """A copy of the store, and a service that answers from it."""

    def __init__(self, service: Service, file: Path, version: int, made: float, as_of: float) -> None:
        self.service = service
        self.version = version
        self.made = made
        self.as_of = as_of
        self.users = 0
        self.old = False
        self._file = file
        self.handlers = {each.path: each.handler for each in http_out.endpoints(service)}

    async def end(self) -> None:
        """Closes it, and removes its file."""
        await self.service.stop()
        for file in self._file.parent.glob(self._file.name + "*"):
            file.unlink()


class Copies:
    """The copies of a follower's store: the newest, and those that still answer somebody."""

    def __init__(self, follower: Follower, fresh: float, configuration: Configuration) -> None:
        self._follower = follower
        self._fresh = fresh
        self._configuration = configuration
        self._newest: Copy | None = None
        self._making = asyncio.Lock()
        self._folder = Path(tempfile.mkdtemp(prefix=Path(follower.store.path).name + ".copies-",
                                             dir=Path(follower.store.path).resolve().parent))
        self._count = 0

    @asynccontextmanager
    async def borrowed(self) -> AsyncIterator[Copy]:
        """A copy that is fresh enough."""
        await self._follower.look()
        async with self._making:
            copy = await self._current()
            copy.users += 1
        try:
            yield copy
        finally:
            copy.users -= 1
            if copy.old and copy.users == 0:
                await copy.end()

    async def _current(self) -> Copy:
        known, now = self._newest, time.time()
        if known is not None and (known.version == self._follower.version or now < known.made + self._fresh):
            if known.version == self._follower.version:
                known.made, known.as_of = now, self._follower.as_of     # nothing has come since
            return known
        made = await self._make()
        self._newest = made
        if known is not None:
            known.old = True
            if known.users == 0:
                await known.end()
        return made

    async def _make(self) -> Copy:
        self._count += 1
        file = self._folder / f"{self._count}.store"
        try:
            version, made, as_of = await self._follower.copy(file)
        except FileNotFoundError:
            raise ApiError(503, "store_unavailable", "the follower has no store yet", 1) from None
        service = Service(self._configuration, str(file))
        await service.start()
        return Copy(service, file, version, made, as_of)

    @property
    def made(self) -> float | None:
        """When the newest one was made."""
        return None if self._newest is None else self._newest.made

    async def close(self) -> None:
        """Ends the newest one, and removes the folder."""
        if self._newest is not None:
            await self._newest.end()
        shutil.rmtree(self._folder, ignore_errors=True)


def endpoints(follower: Follower, copies: Copies) -> Sequence[Endpoint]:
    """The addresses: those of the service that a copy can answer, and `/healthz`."""
    def answering(path: str) -> Handler:
        async def answer(request: web.Request) -> web.StreamResponse:
            async with copies.borrowed() as copy:
                request["copied"], request["as_of"] = copy.made, copy.as_of
                return await copy.handlers[path](request)
        return answer

    async def healthz(_: web.Request) -> web.StreamResponse:
        status = "store_failed" if follower.trouble else "ok" if follower.following else "no_broker"
        return json_answer({"status": status, "reason": follower.trouble, "as_of": follower.as_of or None,
                            "broker": follower.state, "gaps": follower.gaps, "needs": dict(follower.needs),
                            "put_aside": follower.put_aside, "names_refused": follower.names.refused,
                            "copied": copies.made}, 200 if status == "ok" else 503)

    return [*(Endpoint("GET", path, answering(path), Access.READ) for path in PATHS),
            Endpoint("GET", "/healthz", healthz, Access.OPEN)]


async def _tell_time(request: web.Request, answer: web.StreamResponse) -> None:
    copied = request.get("copied")
    if copied is not None:
        answer.headers[COPIED] = f"{copied:.3f}"
        answer.headers[AS_OF] = f"{request['as_of']:.3f}"


def serving(listen: str, fresh: float, tokens: str | None) -> Serving:
    """Serves a follower at an address while the context lasts."""
    address = address_of(listen)
    if address is None:
        raise FleetError(f"--serve: HOST:PORT is to stand here, and not {listen!r}")
    if not is_loopback(address[0]) and tokens is None:
        raise FleetError(f"--serve: {shown(address)} can be reached from elsewhere: name a file of --tokens")
    configuration = Configuration(http=HttpSettings(address), tokens=TokenSettings(tokens))

    @asynccontextmanager
    async def served(follower: Follower) -> AsyncIterator[Http]:
        settings = replace(configuration, store=StoreSettings(program=follower.store.program))
        copies = Copies(follower, fresh, replace(settings, tokens=TokenSettings()))
        http = Http(Service(settings, follower.store.path), endpoints(follower, copies), _tell_time)
        try:
            await http.start()
            assert http.address is not None
            log.info("ready: address=http://%s/", shown(http.address))
            yield http
        finally:
            await http.stop()
            await copies.close()
    return served
