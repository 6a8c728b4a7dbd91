"""HTTP: the listener, and what is done for each request whatever its address is."""

from __future__ import annotations

import asyncio
import ipaddress
import logging
import socket
from collections.abc import Awaitable, Callable, Sequence
from contextlib import suppress
from functools import partial
from time import monotonic
from typing import Protocol
from urllib.parse import urlsplit

from aiohttp import web

from .answers import error_answer, error_of
from .bodies import HELD, Held, let_go
from .configuration import HttpSettings, Limits
from .connections import Guarded
from .counters import Counters
from .endpoints import Access, ApiError, Endpoint, Handler
from .tables import Address, address_of
from .tokens import Tokens

log = logging.getLogger("summarystored")
LOOK = 1.0
GONE = 499
"""How it is counted that a client left before its answer."""
ENDS = 1.0
"""Answers that are under way have so many seconds when the service stops."""
METHODS = ("GET", "HEAD", "POST", "PATCH", "DELETE", "OPTIONS")
Before = Callable[[web.Request, web.StreamResponse], Awaitable[None]]
"""Called before the head of an answer is sent."""
HEADERS = {
    "X-Content-Type-Options": "nosniff",
    "Referrer-Policy": "no-referrer",
    "X-Frame-Options": "DENY",
    "Cross-Origin-Resource-Policy": "same-origin",
    "Content-Security-Policy": "default-src 'none'; frame-ancestors 'none'",
}
"""Set where an answer doesn't set them itself, as the page does."""


def shown(address: Address) -> str:
    """An address as it is written."""
    host, port = address
    return f"[{host}]:{port}" if ":" in host else f"{host}:{port}"


def is_loopback(host: str) -> bool:
    """Whether a host is this machine."""
    if host.lower() == "localhost":
        return True
    try:
        return ipaddress.ip_address(host).is_loopback
    except ValueError:
        return False


class Settings(Protocol):
    """What of a configuration is about HTTP."""

    @property
    def http(self) -> HttpSettings:
        """Where it is served."""

    @property
    def limits(self) -> Limits:
        """What is taken at most."""


class Served(Protocol):
    """What is served: a service, or a gateway to several."""

    @property
    def configuration(self) -> Settings:
        """What its file says."""

    @property
    def tokens(self) -> Tokens:
        """Who may ask."""

    @property
    def counters(self) -> Counters:
        """What is counted."""


class Http:
    """Serves addresses at one place."""

    name = "http"

    def __init__(self, service: Served, endpoints: Sequence[Endpoint], before: Before | None = None) -> None:
        self._service = service
        self._endpoints = endpoints
        self._before = before
        self._server: asyncio.Server | None = None
        self._runner: web.AppRunner | None = None
        self._looking: asyncio.Task[None] | None = None
        self.held = Held(service.configuration.limits.bodies)
        """What is held of bodies."""
        self.address: Address | None = None
        """Where it listens, with the port that it got."""

    @property
    def state(self) -> str:
        """For `/healthz`."""
        return "stopped" if self.address is None else f"listening on {shown(self.address)}"

    def reload(self) -> None:
        """Needs nothing: the tokens are those of the service."""

    async def start(self) -> None:
        """Listens."""
        configuration = self._service.configuration
        app = web.Application(middlewares=[self._around])
        app[HELD] = self.held
        if self._before is not None:
            app.on_response_prepare.append(self._before)
        for endpoint in self._endpoints:
            app.router.add_route(endpoint.method, endpoint.path, self._guarded(endpoint))
            if endpoint.method == "GET" and endpoint.access is Access.OPEN:     # a monitor may ask so
                app.router.add_route("HEAD", endpoint.path, self._guarded(endpoint))
        self._runner = web.AppRunner(app, handle_signals=False, access_log=None)
        await self._runner.setup()
        server, loop = self._runner.server, asyncio.get_running_loop()
        assert server is not None
        limits, counters = configuration.limits, self._service.counters
        host, port = configuration.http.listen
        self._server = await loop.create_server(partial(Guarded, server, limits, counters, loop), host, port,
                                                backlog=256)
        found = self._server.sockets[0].getsockname()
        self.address = (found[0], found[1])
        self._looking = loop.create_task(self._look(server))

    async def stop(self) -> None:
        """Takes no connection more, and lets the answers that are under way end."""
        if self._server is None or self._runner is None:
            return
        self._server.close()
        server = self._runner.server
        assert server is not None
        end = monotonic() + ENDS
        while any(each.busy for each in server.connections if isinstance(each, Guarded)):
            if monotonic() > end:
                break
            await asyncio.sleep(0.02)
        if self._looking is not None:
            self._looking.cancel()
            with suppress(asyncio.CancelledError):
                await self._looking
        await server.shutdown(0.2)
        await self._runner.cleanup()
        self.address = None

    async def _look(self, server: web.Server) -> None:
        """Cuts off clients that are too slow."""
        while True:
            await asyncio.sleep(LOOK)
            now = asyncio.get_running_loop().time()
            for connection in server.connections:
                if isinstance(connection, Guarded):
                    connection.look(now)

    @web.middleware
    async def _around(self, request: web.Request, handler: Handler) -> web.StreamResponse:
        """Turns what is raised into an answer, and counts."""
        began = monotonic()
        try:
            self._must_be_here(request)
            answer = await handler(request)
        except web.HTTPException as error:
            answer = error_answer(_of_aiohttp(request, error))
        except ConnectionError:
            answer = web.Response(status=GONE)      # nobody takes it
        except Exception as error:
            told = error_of(error)
            if told is None:
                log.exception("request failed: method=%s path=%r", request.method, request.path[:200])
                told = ApiError(500, "failed", "the service failed at this: its log says how")
            answer = error_answer(told)
            if told.status in (401, 408, 413):
                answer.force_close()
        finally:
            let_go(request)
        if not answer.prepared:
            _set_headers(answer)
        self._count(request, answer, monotonic() - began)
        return answer

    def _count(self, request: web.Request, answer: web.StreamResponse, seconds: float) -> None:
        resource = request.match_info.route.resource
        route = "none" if resource is None else resource.canonical
        counters = self._service.counters
        counters.add("requests", route, _method(request), str(answer.status))
        if answer.status < 400 and resource is not None:
            counters.took("query", seconds, route)

    def _must_be_here(self, request: web.Request) -> None:
        """Refuses what a page from elsewhere makes a browser ask, and hosts that this service isn't."""
        host = request.headers.get("Host", "")
        origin = request.headers.get("Origin")
        if origin is not None and urlsplit(origin).netloc != host:
            raise ApiError(403, "other_origin", "a page from elsewhere may not ask here")
        if not self._service.tokens.needed and not self._is_ours(host):
            raise ApiError(403, "other_host", f"this service isn't {host[:100]!r}: `hosts` lists its names")

    def _is_ours(self, host: str) -> bool:
        """Whether a host is an address, this machine, or a name that the configuration has.

        By a name of its own a page from elsewhere could reach a service that needs no tokens.
        """
        names = self._service.configuration.http.hosts
        parted = address_of(host) or (host.strip("[]"), 0)
        if not host or host in names or parted[0] in names or is_loopback(parted[0]):
            return True
        try:
            ipaddress.ip_address(parted[0])
        except ValueError:
            return parted[0].lower() == socket.gethostname().lower()
        return True

    def _guarded(self, endpoint: Endpoint) -> Handler:
        """A handler behind its tokens."""
        async def guarded(request: web.Request) -> web.StreamResponse:
            if not self._service.tokens.allow(endpoint.access, request.headers, request.query):
                kind = {Access.READ: "to read", Access.WRITE: "to write"}.get(endpoint.access, "of `admin`")
                raise ApiError(401, "token", f"a token {kind} is needed: `Authorization: Bearer TOKEN`")
            return await endpoint.handler(request)
        return guarded


def _method(request: web.Request) -> str:
    return request.method if request.method in METHODS else "other"


def _set_headers(answer: web.StreamResponse) -> None:
    for key, value in HEADERS.items():
        answer.headers.setdefault(key, value)
    answer.headers.setdefault("Cache-Control", "no-store")
    answer.headers["Server"] = "summarystored"
    if answer.status == 401:
        answer.headers["WWW-Authenticate"] = "Bearer"


def _of_aiohttp(request: web.Request, error: web.HTTPException) -> ApiError:
    """What aiohttp's router says."""
    if error.status == 404:
        return ApiError(404, "no_such_address", f"there is nothing at {request.path[:200]!r}")
    if error.status == 405:
        return ApiError(405, "method", f"{_method(request)} isn't answered at {request.path[:200]!r}")
    return ApiError(error.status, "refused", error.reason)
