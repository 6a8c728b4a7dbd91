"""The process of a store, for asyncio: what all tasks send in one turn of the loop is written together."""

from __future__ import annotations

import asyncio
import warnings
from collections import defaultdict
from collections.abc import Sequence
from typing import TypeVar

from . import older
from .backends import ByProgram, File
from .base import Base
from .calls import Call
from .codec import Translator
from .connection import RENEW_AT, Connection, ProcessConnection
from .errors import ReopenedWarning, StoreClosedError
from .keeping import Keeping
from .pipeline import Commands, Request
from .program import StorePath
from .wire import NOTHING, Reply

T = TypeVar("T")


class Channel(Base[ProcessConnection]):
    """A store's process, for one event loop."""

    def __init__(self, path: StorePath, *, program: File | None = None,
                 translator: Translator | None = None, existing: bool = False,
                 checked: bool | None = None, renew_at: int = RENEW_AT) -> None:
        super().__init__(path, ByProgram(program), program, translator, existing, checked, renew_at)
        self._opening = asyncio.Lock()
        self._changed = asyncio.Condition()
        self._opened = self._flushing = False
        self._names = Keeping(self._translator)
        self._alone: defaultdict[str, asyncio.Lock] = defaultdict(asyncio.Lock)

    # ---- the process --------------------------------------------------------------------

    async def _up(self) -> ProcessConnection:
        """The process that is up. One that has ended is started again, once, and that is said."""
        async with self._opening:
            return await self._running()

    async def _running(self) -> ProcessConnection:
        """`_up` for whoever holds the lock."""
        if self._closed:
            raise StoreClosedError(f"{self.path} is closed")
        await self._renew()
        if self._connection is None:
            self._connection = await self._begin()
            if self._opened:
                warnings.warn(ReopenedWarning(f"{self.path}: {self._backend.ended}; opened again"),
                              stacklevel=5)
            self._opened = True
        return self._connection

    async def _renew(self) -> None:
        """Lets another process take the place of one that has taken much. What is under way is answered
        before, and whoever wants to send more meanwhile waits for the lock."""
        old = self._outlived()
        if old is not None:
            await self._answered(old)
            if self._outlived() is old:     # no cursor was opened meanwhile
                await self._put_down()
                self._connection = old.successor = await self._begin()

    async def _begin(self) -> ProcessConnection:
        connection = await asyncio.to_thread(self._start)
        asyncio.get_running_loop().add_reader(connection.process.output, self._readable, connection)
        return connection

    async def _answered(self, connection: ProcessConnection) -> None:
        """Waits for all that is under way: replies come in order, so for that to one more line."""
        last = Commands(0, [NOTHING])
        self._hand_over(connection, last)
        await self._wait(last)

    async def _put_down(self) -> None:
        """Lets the process end in order. Nothing may be under way."""
        connection, self._connection = self._connection, None
        if connection is not None:
            self._unwatch(connection)
            await asyncio.to_thread(connection.close)

    def _unwatch(self, connection: ProcessConnection) -> None:
        loop = asyncio.get_running_loop()
        loop.remove_reader(connection.process.output)
        loop.remove_writer(connection.process.input)

    def _readable(self, connection: ProcessConnection) -> None:
        try:
            more = connection.fill()
        except BaseException:
            self._give_up(connection)
            raise
        if not more:
            self._unwatch(connection)
            self._connection = None
            connection.end()

    def _give_up(self, connection: ProcessConnection) -> None:
        """Gives a process up: what it has been told, or what it says, isn't known any more."""
        self._unwatch(connection)
        self._connection = None
        connection.abandon()

    def _flush(self) -> None:
        """Writes what the pipe takes. Where it is full the loop tells when it takes more."""
        self._flushing = False
        connection = self._connection
        if connection is None:
            return
        try:
            connection.flush()
        except BaseException:
            self._give_up(connection)
            raise
        loop = asyncio.get_running_loop()
        if connection.pipeline.unwritten:
            loop.add_writer(connection.process.input, self._flush)
        else:
            loop.remove_writer(connection.process.input)

    async def _submit(self, request: Request, only: Connection | None = None) -> Connection:
        """Sends a request: where a process is named, to that one or its successor, or to none."""
        async with self._opening:
            await self._renew()
            if only is not None and only.newest() is not self._connection:
                request.finish(request.interrupted(only.failure()))
                return only
            connection = await self._running()
            if not connection.refuses(request):
                self._hand_over(connection, request)
            return connection

    def _hand_over(self, connection: ProcessConnection, request: Request) -> None:
        """Queues a request. What is queued in one turn of the loop is written together."""
        connection.pipeline.add(request)
        if not self._flushing:
            self._flushing = True
            asyncio.get_running_loop().call_soon(self._flush)

    async def _wait(self, request: Request) -> None:
        """Waits for the replies."""
        if request.done:
            return
        future: asyncio.Future[None] = asyncio.get_running_loop().create_future()
        request.when_done = lambda: None if future.done() else future.set_result(None)
        await future

    async def _do(self, call: Call[T], session: int = 0, only: Connection | None = None) -> T:
        return await older.answer_later(call, lambda lines: self._replies(lines, session, only))

    async def _replies(self, lines: Sequence[str], session: int, only: Connection | None) -> Sequence[Reply]:
        request = Commands(session, lines)
        await self._submit(request, only)
        await self._wait(request)
        if request.error is not None:
            raise request.error
        return request.replies

    async def close(self) -> None:
        """Lets the program end in order, after all that is under way. Twice does no harm."""
        async with self._opening:
            if self._connection is not None:
                await self._answered(self._connection)
            self._closed = True
            await self._put_down()
