"""Graphite's plaintext protocol: `PATH VALUE TIME` lines on TCP.

The protocol has no reply, so a client learns nothing of its lines: what is refused is counted and
listed. Where the store is busy the server stops reading, and the client's writes wait.

A connection that says nothing stays open for an hour, since who writes each five minutes wouldn't notice
that it was closed, and would lose the next lines. Dead ones are found by TCP's keepalive. But a line that
was begun has to end in time. One without its end is refused: its time may be cut off.
"""

from __future__ import annotations

import asyncio
import logging
import socket
from collections.abc import Iterator, Mapping, Sequence
from contextlib import suppress
from decimal import Decimal
from functools import partial

from ..decimals import EXACT, decimal_of
from ..errors import NotANumberError
from .app import Service
from .errors import UnavailableError
from .intake import Incoming, Outcome
from .outcomes import Result
from .refusals import Refusals
from .tables import Address
from .underway import UnderWay

SOURCE = "graphite"
NANOSECONDS = 10**9
NOW = ("-1", "-1.0")
"""Times that mean the time at which a line comes."""
CHUNK = 1 << 16
MOST = 4000
"""So many lines go to the store together, at most."""
ENDS = 300.0
"""A connection that the client has ended is closed when all is stored, or after so many seconds."""
KEEPALIVE = ((socket.TCP_KEEPIDLE, 60), (socket.TCP_KEEPINTVL, 15), (socket.TCP_KEEPCNT, 4))

log = logging.getLogger("summarystored")


class LineError(ValueError):
    """A line isn't `PATH VALUE TIME`."""


def reading_of(raw: bytes) -> Incoming | None:
    """The reading of a line without its end. None where the line is blank."""
    try:
        words = raw.decode("utf-8").split()
    except UnicodeDecodeError:
        raise LineError("a line isn't UTF-8") from None
    if not words:
        return None
    if len(words) != 3:
        raise LineError(f"a line has a path, a value and a time, and not {len(words)} words")
    path, value, time = words
    name, *tags = path.split(";")
    return Incoming(name, value, None if time in NOW else _time(time), _tags(tags), SOURCE)


def _tags(parts: Sequence[str]) -> Mapping[str, str]:
    """The tags of `;room=attic;floor=2` behind a name."""
    found: dict[str, str] = {}
    for part in parts:
        key, equals, value = part.partition("=")
        if not key or not equals or not value or key in found:
            raise LineError(f"a tag is KEY=VALUE, once: {part[:40]!r}")
        found[key] = value
    return found


def _time(text: str) -> int:
    """Nanoseconds of decimal seconds."""
    try:
        time = EXACT.multiply(decimal_of(text), Decimal(NANOSECONDS))
    except NotANumberError:
        raise LineError(f"the time is no number of seconds: {text[:40]!r}") from None
    if time < 0 or time != time.to_integral_value(context=EXACT):
        raise LineError(f"the time is before 1970, or finer than a nanosecond: {text[:40]!r}")
    return int(time)


class Lines:
    """Cuts what comes from a client into lines, in memory for one line and one piece."""

    def __init__(self, longest: int) -> None:
        self._longest = longest
        self._skipping = False
        self.rest = b""
        """The beginning of a line whose end hasn't come."""
        self.too_long = 0
        """How many lines were left out since they are too long."""

    def take(self, data: bytes) -> Sequence[bytes]:
        """The lines that end in a piece."""
        *lines, rest = (self.rest + data).split(b"\n")
        if self._skipping and lines:
            del lines[0]
            self._skipping = False
        found = [line for line in lines if len(line) <= self._longest]
        self.too_long += len(lines) - len(found)
        if self._skipping or len(rest) > self._longest:
            self.too_long += not self._skipping
            self._skipping = True
            rest = b""
        self.rest = rest
        return found


class Patience:
    """Waits for a client: for long between two lines, and within a line for so many seconds in all."""

    def __init__(self, seconds: float, silent: float) -> None:
        self._seconds = self._left = seconds
        self._silent = silent
        self._rest = b""

    async def read(self, reader: asyncio.StreamReader, rest: bytes) -> bytes:
        """What comes next, where this is the beginning of a line that came already."""
        if not rest:
            return await asyncio.wait_for(reader.read(CHUNK), self._silent)
        if not self._rest or not rest.startswith(self._rest):
            self._left = self._seconds
        self._rest = rest
        loop = asyncio.get_running_loop()
        start = loop.time()
        data = await asyncio.wait_for(reader.read(CHUNK), self._left)
        self._left = max(0.001, self._left - (loop.time() - start))
        return data


class GraphiteListener:
    """Takes lines from many clients, as a listener of the service."""

    name = SOURCE

    def __init__(self, service: Service, address: Address) -> None:
        self._intake = service.intake
        self._limits = service.configuration.limits
        self._most = min(MOST, max(1, self._limits.queue // 4))
        self._address = address
        self._server: asyncio.Server | None = None
        self._clients: dict[asyncio.Task[None], asyncio.StreamReader] = {}
        self.refusals = Refusals(service.counters, self._limits.unmatched)

    @property
    def state(self) -> str:
        """Where it listens."""
        if self._server is None or not self._server.sockets:
            return "not listening"
        host, port = self._server.sockets[0].getsockname()[:2]
        return f"listening on {f'[{host}]' if ':' in host else host}:{port}, {len(self._clients)} connections"

    @property
    def port(self) -> int:
        """The port on which it listens, also where the system chose it."""
        assert self._server is not None
        return int(self._server.sockets[0].getsockname()[1])

    async def start(self) -> None:
        """Listens."""
        host, port = self._address
        self._server = await asyncio.start_server(self._client, host, port, limit=CHUNK)

    async def stop(self) -> None:
        """Takes no more lines. Those that came are stored."""
        if self._server is not None:
            self._server.close()
        for reader in self._clients.values():
            reader.feed_eof()
        if self._clients:
            await asyncio.wait(list(self._clients))

    def reload(self) -> None:
        """Needs nothing: the intake has the new mapping."""

    async def _client(self, reader: asyncio.StreamReader, writer: asyncio.StreamWriter) -> None:
        task = asyncio.current_task()
        assert task is not None
        if len(self._clients) >= self._limits.connections:
            self._intake.counters.add("connections", "refused")
            log.warning("connection refused: source=graphite reason=%d are open", len(self._clients))
            writer.close()
            return
        self._clients[task] = reader
        try:
            _watch(writer.get_extra_info("socket"))
            await self._take_all(reader)
        except (ConnectionError, TimeoutError, UnavailableError):
            pass    # the client is gone, or the service stops
        finally:
            del self._clients[task]
            writer.close()

    async def _take_all(self, reader: asyncio.StreamReader) -> None:
        lines = Lines(self._limits.line)
        patience = Patience(self._limits.idle_seconds, self._limits.silent_seconds)
        under_way = UnderWay()
        while True:
            try:
                data = await patience.read(reader, lines.rest)
            except asyncio.TimeoutError:
                self._intake.counters.add("connections", "slow")
                break
            if not data:
                break
            found = lines.take(data)
            for _ in range(lines.too_long):
                self._refuse("too_long", f"a line has more than {self._limits.line} bytes")
            lines.too_long = 0
            for at in range(0, len(found), self._most):
                await self._store(found[at:at + self._most], under_way)
        if lines.rest:
            self._refuse("unterminated", f"a line without its end: {_shown(lines.rest)}")
        with suppress(asyncio.TimeoutError):
            await asyncio.wait_for(under_way.at_most(0), ENDS)

    async def _store(self, lines: Sequence[bytes], under_way: UnderWay) -> None:
        """Hands the lines over, when not too many of this client are under way."""
        readings = list(self._readings(lines))
        if not readings:
            return
        await under_way.at_most(self._most)
        await self._intake.hand_over(readings, partial(self._done, readings, under_way))
        under_way.add(len(readings))

    def _done(self, readings: Sequence[Incoming], under_way: UnderWay, outcomes: Sequence[Outcome]) -> None:
        under_way.done(len(readings))
        for reading, outcome in zip(readings, outcomes):
            if outcome.result is Result.REFUSED and outcome.code != "unmatched":
                self.refusals.list(SOURCE, reading.name, outcome.code, outcome.reason)

    def _readings(self, lines: Sequence[bytes]) -> Iterator[Incoming]:
        for line in lines:
            try:
                reading = reading_of(line)
            except LineError as error:
                self._refuse("malformed", f"{error}: {_shown(line)}")
            else:
                if reading is not None:
                    yield reading

    def _refuse(self, code: str, reason: str) -> None:
        """A line that has no name by which it could be listed."""
        self.refusals.add(SOURCE, "", code, reason)


def _shown(line: bytes) -> str:
    return repr(line[:60].decode("utf-8", "replace"))


def _watch(sock: socket.socket) -> None:
    """Has the system look whether a silent client is there still."""
    sock.setsockopt(socket.SOL_SOCKET, socket.SO_KEEPALIVE, 1)
    for option, value in KEEPALIVE:
        sock.setsockopt(socket.IPPROTO_TCP, option, value)
