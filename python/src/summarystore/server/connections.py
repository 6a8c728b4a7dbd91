"""Connections by HTTP that are bounded: in their number, and in how long they may say or take nothing.

aiohttp times out a connection between two requests. Heads that come slowly, answers that nobody
takes and requests that are sent without reading the answers are looked after here.
"""

from __future__ import annotations

import asyncio
from typing import Any, cast

from aiohttp import web

from .configuration import Limits
from .counters import Counters

MOST_PIPELINED = 32
REFUSAL = (b"HTTP/1.1 503 Service Unavailable\r\nContent-Type: application/json\r\nRetry-After: 5\r\n"
           b"Connection: close\r\nContent-Length: %d\r\n\r\n%b")
REASON = b'{"error":"busy","reason":"there are too many connections"}'
LINGER = 2.0


class Guarded(web.RequestHandler):
    """One connection."""

    def __init__(self, manager: web.Server, limits: Limits, counters: Counters,
                 loop: asyncio.AbstractEventLoop) -> None:
        super().__init__(manager, loop=loop, access_log=cast(Any, None), auto_decompress=False,
                         keepalive_timeout=limits.idle_seconds, lingering_time=LINGER)
        self._server = manager
        self._limits = limits
        self._counters = counters
        self._clock = loop.time
        self._waits_since: float | None = None
        self._unsent = 0
        self._unsent_since = 0.0
        self._refused = False

    def connection_made(self, transport: asyncio.BaseTransport) -> None:
        """Takes a connection, or refuses it where there are too many."""
        if len(self._server.connections) >= self._limits.connections:
            self._refused = True
            self._counters.add("connections", "refused")
            cast(asyncio.Transport, transport).write(REFUSAL % (len(REASON), REASON))
            transport.close()
            return
        self._waits_since = self._clock()
        super().connection_made(transport)

    def data_received(self, data: bytes) -> None:
        """Takes what came. Who sends request after request without reading on is cut off."""
        if self._refused:
            return
        super().data_received(data)
        if self._messages or self._current_request is not None:
            self._waits_since = None
        elif self._waits_since is None:
            self._waits_since = self._clock()
        if len(self._messages) > MOST_PIPELINED:
            self._cut_off()

    def connection_lost(self, error: BaseException | None) -> None:
        """The connection has ended."""
        if not self._refused:
            super().connection_lost(error)

    def look(self, now: float) -> None:
        """Cuts the connection off where its client is too slow."""
        transport = self.transport
        if transport is None:
            return
        unsent = transport.get_write_buffer_size()
        if unsent != self._unsent or not unsent:
            self._unsent, self._unsent_since = unsent, now
        waits = self._waits_since is not None and now - self._waits_since > self._limits.header_seconds
        if waits or unsent and now - self._unsent_since > self._limits.write_seconds:
            self._cut_off()

    @property
    def busy(self) -> bool:
        """Whether a request is being answered."""
        return self._current_request is not None

    def _cut_off(self) -> None:
        self._counters.add("connections", "slow")
        transport = self.transport
        if transport is not None:
            transport.abort()
