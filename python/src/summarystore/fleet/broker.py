"""The broker: connections to its nodes, and the exchanges and queues of a log there."""

from __future__ import annotations

import asyncio
import logging
from collections.abc import Awaitable, Callable, Mapping, Sequence
from contextlib import suppress
from typing import Any, TypeVar

import pika
from pika.adapters.asyncio_connection import AsyncioConnection
from pika.exceptions import AMQPError

from .errors import BrokerError
from .deliveries import NAMED
from .logs import DEAD_KEPT, QUORUM, Log

log = logging.getLogger("summarystore.fleet")
ANSWERS = 20.0
"""The broker answers a question within so many seconds, or the connection is given up."""
HEARTBEAT = 10
DELAYS = (0.2, 0.5, 1.0, 2.0, 5.0)
"""After so many seconds the next node is tried, and later after the last of them."""
T = TypeVar("T")


class Link:
    """One connection with one channel. When either ends, `ended` is set and calls raise BrokerError."""

    def __init__(self) -> None:
        self.ended = asyncio.Event()
        self.why = "not connected"
        self._open: set[asyncio.Future[Any]] = set()
        self._connection: AsyncioConnection | None = None
        self.channel: Any = None

    @classmethod
    async def to(cls, url: str) -> Link:
        """A connection to a node."""
        link = cls()
        try:
            parameters = pika.URLParameters(url)
            parameters.heartbeat = HEARTBEAT
            parameters.connection_attempts = 1
            parameters.socket_timeout = parameters.stack_timeout = ANSWERS
            await link._call(link._connect, parameters)
            link.channel = await link._call(link._new_channel)
            link.channel.add_on_close_callback(link._lost)
            link.channel.add_on_cancel_callback(link._cancelled)
        except (BrokerError, AMQPError, OSError, ValueError) as error:
            link.close()
            raise BrokerError(f"{_shown(url)}: {error}") from None
        return link

    def _connect(self, parameters: Any, callback: Callable[[object], None]) -> None:
        self._connection = AsyncioConnection(
            parameters, on_open_callback=callback, on_open_error_callback=self._lost,
            on_close_callback=self._lost, custom_ioloop=asyncio.get_running_loop())

    def _new_channel(self, callback: Callable[[object], None]) -> None:
        assert self._connection is not None
        self._connection.channel(on_open_callback=callback)

    def _lost(self, _: object, error: object) -> None:
        """The connection or the channel has ended."""
        if not self.ended.is_set():
            self.why = str(error) or type(error).__name__
            self.ended.set()
            for future in self._open:
                if not future.done():
                    future.set_exception(BrokerError(self.why))

    def _cancelled(self, _: object) -> None:
        """The broker delivers no more from a queue: its node may be gone."""
        self._lost(None, "the broker ended a delivery")

    async def _call(self, function: Callable[..., object], *words: object, **more: object) -> Any:
        """Calls what tells its answer by a callback, and waits for that."""
        future: asyncio.Future[Any] = asyncio.get_running_loop().create_future()
        self._open.add(future)
        try:
            def told(found: object) -> None:
                if not future.done():
                    future.set_result(found)
            function(*words, callback=told, **more)
            return await asyncio.wait_for(future, ANSWERS)
        except asyncio.TimeoutError:
            raise BrokerError(f"no answer for {ANSWERS:.0f} s") from None
        finally:
            self._open.discard(future)

    async def ask(self, method: str, *words: object, **more: object) -> Any:
        """Calls a method of the channel, and waits for the broker's answer."""
        if self.ended.is_set():
            raise BrokerError(self.why)
        try:
            return await self._call(getattr(self.channel, method), *words, **more)
        except AMQPError as error:
            raise BrokerError(str(error) or type(error).__name__) from None

    def close(self) -> None:
        """Ends the connection, without a wait."""
        self._lost(None, "closed")
        if self._connection is not None and not (self._connection.is_closed or self._connection.is_closing):
            with suppress(AMQPError, OSError):
                self._connection.close()

    # ---- exchanges and queues -----------------------------------------------------------

    async def declare(self, found: Log) -> None:
        """The exchanges of a log. All its shards stand before anything is sent to it."""
        await self.ask("exchange_declare", found.told, exchange_type="topic", durable=True)
        if found.shards > 1:
            await self.ask("exchange_declare", found.entrance, exchange_type="x-consistent-hash",
                           durable=True)
        for number in range(found.shards):
            await self.ask("exchange_declare", found.shard(number), exchange_type="fanout", durable=True)
            if found.shards > 1:
                await self.ask("exchange_bind", found.shard(number), found.entrance, routing_key="1")

    async def queue(self, name: str, kind: str, exchange: str, bounds: Mapping[str, object] | None = None,
                    stands: bool = False) -> int:
        """A queue behind a shard, with as many replicas as the cluster gives one. Gives how many messages
        it has that were given to nobody. One that stands is taken as it is."""
        arguments: dict[str, object] = {"x-queue-type": kind, **(bounds or {})}
        found = await self.ask("queue_declare", name, passive=True) if stands else \
            await self.ask("queue_declare", name, durable=True, arguments=arguments)
        await self.ask("queue_bind", name, exchange)
        return int(found.method.message_count)

    async def declare_dead(self, found: Log) -> None:
        """Where what a queue can't be rid of otherwise is kept, in a queue that is bounded."""
        await self.ask("exchange_declare", found.dead, exchange_type="fanout", durable=True)
        await self.queue(found.dead, QUORUM, found.dead, {"x-max-length-bytes": DEAD_KEPT})


def _shown(url: str) -> str:
    """An address without its password."""
    front, mark, host = url.rpartition("@")
    return f"{front.partition('://')[0]}://{host}" if mark else url


async def keep_linked(urls: Sequence[str], work: Callable[[Link], Awaitable[None]],
                      told: Callable[[str], None]) -> None:
    """Works over a connection, and over another one whenever it has ended, until it is cancelled.

    `told` is called with what is known of the connection.
    """
    failures = 0
    while True:
        url = urls[failures % len(urls)]
        link = None
        try:
            link = await Link.to(url)
            told(f"connected to {_shown(url)}")
            failures = 0 if len(urls) == 1 else failures % len(urls)
            await work(link)
        except BrokerError as error:
            told(f"not connected: {error}")
        finally:
            if link is not None:
                link.close()
        await asyncio.sleep(DELAYS[min(failures // len(urls), len(DELAYS) - 1)])
        failures += 1


def properties(sender: str, tag: int, named: str = "") -> Any:
    """What goes with a message of frames, of a stream with a long name also that."""
    return pika.BasicProperties(delivery_mode=2, app_id=sender, message_id=str(tag),
                                headers={NAMED: named} if named else None)
