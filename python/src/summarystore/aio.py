"""A store for asyncio: the calls of `summarystore.Store` as coroutines, many under way together.

Lines of all tasks that are ready in one turn of the loop are written together, and so share their
way to the disk.
"""

from __future__ import annotations

import asyncio
import datetime
import os
from collections.abc import AsyncIterator, Mapping, Sequence
from contextlib import asynccontextmanager
from functools import partial
from types import TracebackType
from typing import TYPE_CHECKING, Self, TypeVar, cast

from . import calls
from .aio_questions import Questions
from .codec import Change, Codec
from .connection import ProcessConnection
from .description import Description, brought_to, changed, description_of
from .errors import (CursorBusyError, LateError, RefusedError, StoreClosedError, StreamExistsError,
                     SummaryStoreError)
from .aio_channel import Channel
from .aio_handle import Handle
from .frames import columns_of, frame_of, names_left, rows_of
from .gauges import (BESIDE, GaugeCodec, gauge_of, increments_name, increments_of, must_stand_alone,
                     standing_of, taking, with_increments)
from .meters import counting, meter_of
from .names import Names
from .program import StorePath
from .outcome import tell
from .present import UNSAID, next_free, reading_of
from .records import Soundness, Stored, Time, Window
from .remote import SECONDS
from .sending import OnRefused, Sending
from .wire import MOST_ROWS

if TYPE_CHECKING:
    from .aio_connecting import RemoteStore

T = TypeVar("T")


class Store(Channel, Questions):
    """A store for one event loop. `aio.open` makes it."""

    async def __aenter__(self) -> Self:
        return self

    async def __aexit__(self, kind: type[BaseException] | None, error: BaseException | None,
                        trace: TracebackType | None) -> None:
        await self.close()

    def __getitem__(self, name: str) -> Handle:
        """One stream. Whether it stands is seen at the first call."""
        return Handle(self, name)

    async def __aiter__(self) -> AsyncIterator[str]:
        """The names of the streams, in the order in which they were made."""
        for stream in await self.list():
            yield stream.name

    # ---- events -------------------------------------------------------------------------

    async def create(self, name: str, target: str | Sequence[object], within: int | None = None, *,
                     scale: object | None = None, time: str | None = None,
                     since: datetime.date | str | None = None, unit: str | None = None,
                     labels: Mapping[str, str] | None = None, rounding: str | None = None,
                     exist_ok: bool = False,
                     kind: str | None = None, overflow: object | None = None,
                     integrate: str | None = None, rule: str | None = None) -> Stored:
        """Makes a stream, as `Store.create` does."""
        description = description_of(scale=scale, time=time, since=since, unit=unit, labels=labels,
                                     rounding=rounding, kind=kind, overflow=overflow, integrate=integrate,
                                     rule=rule)
        await self._up()
        codec = await self._declared(name, description, target, within)
        try:
            made = await self._do(calls.create(codec, target, within))
        except (RefusedError, TypeError, ValueError) as error:
            self._translator.unmade(name, codec)
            if not exist_ok or not isinstance(error, StreamExistsError):
                raise
            changes = brought_to(self.description(name), description, name)
            stands = await self._do(calls.standing(self._translator, name, target, within))
            if changes is not None:
                self._translator.describe(name, changes)
            return stands
        self._translator.made(name, codec)
        return made

    async def _declared(self, name: str, description: Description | None, target: str | Sequence[object],
                        within: int | None) -> Codec:
        """How a stream that is to be made is read. That of a gauge's increments is made before it."""
        if description is None or gauge_of(description) is None:
            return await self._names.keep(Change(name, description))
        must_stand_alone(target)
        other = name + BESIDE
        beside = await self._names.keep(Change(other, increments_of(description)))
        wanted = with_increments(description, beside.short)
        codec = await self._names.keep(Change(name, wanted))
        if codec.description == wanted:
            try:
                await self._do(calls.create(beside, target, within))
            except StreamExistsError:
                pass
            except (RefusedError, TypeError, ValueError):
                self._translator.unmade(other, beside)
                self._translator.unmade(name, codec)
                raise
            self._translator.made(other, beside)
        return codec

    def describe(self, name: str, *, unit: str | None = None, labels: Mapping[str, str] | None = None,
                 rounding: str | None = None) -> None:
        """Changes what is given of a described stream. Its scale and its times can't be changed."""
        self._translator.describe(name, self._described(name, unit, labels, rounding))

    async def describe_soon(self, name: str, *, unit: str | None = None,
                            labels: Mapping[str, str] | None = None, rounding: str | None = None) -> None:
        """The same, by a thread: what several tasks change together is written once."""
        await self._names.keep(Change(name, self._described(name, unit, labels, rounding), stands=True))

    def _described(self, name: str, unit: str | None, labels: Mapping[str, str] | None, rounding: str | None
                   ) -> Description:
        if self._connection is None:
            raise StoreClosedError(f"{self.path} is closed, or its program has ended")
        return changed(self.description(name) or Description(), unit, labels, rounding)

    def beside(self, name: str) -> str | None:
        """The stream of a gauge's increments. None of any other stream."""
        return increments_name(self._translator, self._translator.codec(name))

    def rename(self, name: str, new: str) -> None:
        """Gives a described stream another long name, as `Store.rename` does."""
        if self._connection is None:
            raise StoreClosedError(f"{self.path} is closed, or its program has ended")
        beside = self.beside(name)
        self._translator.rename(name, new)
        if beside is not None:
            self._translator.rename(beside, new + BESIDE)

    async def append(self, name: str, time: object = UNSAID, value: object = UNSAID) -> Stored:
        """Takes a value at a time later than all before, or without a time now. It is on the disk when
        this returns.

        Where a reading stands at the present step, one without a time goes to the next free step, at most
        a second ahead of the clock. Raises LateError, with the newest time, where the time isn't later.
        """
        time, value = reading_of(time, value)
        codec = self._translator.codec(name)
        if time is not UNSAID:
            return await self._append(name, codec, time, value)
        count = codec.now()
        while True:
            try:
                return await self._append(name, codec, count, value)
            except LateError as error:      # a reading stands there, or another one came first
                count, wait = next_free(codec, error)
            await asyncio.sleep(wait)

    async def _append(self, name: str, codec: Codec, time: object, value: object) -> Stored:
        try:
            async with self._taking(codec, name) as taking:
                if isinstance(taking, GaugeCodec):
                    return await self._do(taking.append(time, value))
                return await self._do(calls.append(taking, time, value))
        except LateError as error:
            await self._tell_newest(codec, [error])
            raise

    async def _tell_newest(self, codec: Codec, late: Sequence[LateError]) -> None:
        if late:
            try:
                found = await self._do(calls.last_numbers(codec))
            except SummaryStoreError:
                return      # what became of the rows is told, and the newest time isn't
            for error in late:
                error.newest = codec.time_back(found[0]) if found else None

    async def append_many(self, name: object, rows: object = None, *, refused: OnRefused | None = None,
                          lateness: object | None = None) -> int:
        """Takes rows of a time and a value, as `Store.append_many` does."""
        frame = frame_of(name)
        if frame is None:
            codec = self._translator.codec(cast(str, name))
            async with self._taking(codec, cast(str, name)) as taking:
                return await self.append_rows(taking, rows_of(rows), refused, lateness)
        stored, columns = 0, columns_of(frame)
        codecs = [self._translator.codec(column) for column, _ in columns]
        for at, (codec, (column, readings)) in enumerate(zip(codecs, columns)):
            try:
                async with self._taking(codec, column) as taking:
                    stored += await self.append_rows(taking, readings, refused, lateness)
            except BaseException as error:
                names_left(error, [column for column, _ in columns], at)
                raise
        return stored

    @asynccontextmanager
    async def _taking(self, codec: Codec, name: str) -> AsyncIterator[Codec]:
        """The codec of a stream that takes readings: that of a meter knows what stands, and is alone."""
        if codec.description is None or codec.description.meter is None:
            yield codec
            return
        async with self._alone[name]:
            keep = partial(self._translator.keep_joins, name)
            if gauge_of(codec.description) is not None:
                stands = await self._do(standing_of(codec))
                yield taking(self._translator.codec(name), name, stands, keep)
                return
            standing = await self._do(calls.standing_of_counter(codec))
            yield counting(self._translator.codec(name), name, standing, keep)

    async def kept(self, name: str, rows: Sequence[tuple[object, object]]) -> Sequence[tuple[object, object]]:
        """What is kept of readings that were stored: of a counter they are joined."""
        codec = self._translator.codec(name)
        if meter_of(codec, "counter") is None:
            return rows
        async with self._taking(codec, name) as taking:
            return [(time, codec.value_back(value)) for time, value in taking.rows(rows)]

    async def append_rows(self, codec: Codec, rows: object, refused: OnRefused | None = None,
                          lateness: object | None = None) -> int:
        """`append_many` for whoever has made the codec of the stream."""
        sending = Sending(codec, rows, refused, lateness)
        try:
            await self._send_all(sending)
        except BaseException as error:
            await self._cut_off(sending, error)
            raise
        await self._tell_newest(codec, sending.late())
        return sending.end()

    async def _send_all(self, sending: Sending) -> None:
        for request in sending.requests(0):
            sending.connection = await self._submit(request, sending.connection)
            for oldest in sending.due():
                await self._wait(oldest)
        for oldest in sending.due(0):
            await self._wait(oldest)

    async def _cut_off(self, sending: Sending, error: BaseException) -> None:
        """An exception came, or the task was cancelled: what isn't written yet is taken back, and what
        became of the rows is told with it."""
        try:
            self._call_off(sending.under_way)
            for request in sending.under_way:
                await self._wait(request)
        finally:
            tell(error, sending.outcome())

    @asynccontextmanager
    async def landmark(self, name: str, start: object | None = None, end: object | None = None
                       ) -> AsyncIterator[None]:
        """Keeps the values that are appended meanwhile one by one, as `Store.landmark` does."""
        codec = self._translator.codec(name)
        begun, ended = calls.landmark_span(codec, start, end)
        await self._do(calls.landmark_open(codec, begun))
        try:
            yield
        finally:
            if ended is None:
                newest = (await self._do(calls.last_numbers(codec)))[0]
                ended = max(newest, codec.now()) if start is None else newest
            await self._do(calls.landmark_close(codec, ended))

    async def open_landmark(self, name: str, time: object | None = None) -> Stored:
        """Opens a landmark at a time, or now, for one that ends in another place of the program."""
        codec = self._translator.codec(name)
        return await self._do(calls.landmark_open(codec, codec.now() if time is None else codec.time(time)))

    async def close_landmark(self, name: str, time: object | None = None) -> Stored:
        """Closes the landmark that is open."""
        codec = self._translator.codec(name)
        return await self._do(calls.landmark_close(codec, codec.now() if time is None else codec.time(time)))

    async def drop(self, name: str) -> None:
        """Removes a stream with all that it holds. It can't be undone."""
        codec = self._translator.codec(name)
        await self._do(calls.drop(codec))
        self._translator.removed(name)
        beside = increments_name(self._translator, codec)
        if beside is not None:
            await self.drop(beside)

    # ---- what it keeps --------------------------------------------------------------------

    async def windows(self, name: str) -> AsyncIterator[Window]:
        """The windows of a stream as they are at the first of them, the oldest first, in pieces.

        Eight iterators may be open. The task that has all eight gets CursorBusyError, and others wait.
        """
        codec = self._translator.codec(name)
        session, connection = await self._take_cursor()
        try:
            await self._do(calls.cursor_open(codec), session, connection)
            rows: Sequence[Window] = ()
            more = True
            while more:
                rows = await self._do(calls.cursor_next(codec, MOST_ROWS), session, connection)
                more = len(rows) == MOST_ROWS
                for window in rows:
                    yield window
        finally:
            await self._give_cursor(session, connection)

    async def first(self, name: str) -> Time | None:
        """When the oldest window begins. None where none stands."""
        codec = self._translator.codec(name)
        session, connection = await self._take_cursor()
        try:
            return await self._do(calls.cursor_first(codec), session, connection)
        finally:
            await self._give_cursor(session, connection)

    async def _take_cursor(self) -> tuple[int, ProcessConnection]:
        """A session for a cursor, and the process that is up: one that has ended has no cursors."""
        owner = asyncio.current_task()
        while True:
            connection = await self._up()
            async with self._changed:
                if connection is not self._connection:
                    continue
                session = self._sessions.take_cursor(owner)
                if session is not None:
                    return session, connection
                if self._sessions.holds_all(owner):
                    raise CursorBusyError("BUSY", "windows", "this task has eight iterators open")
                await self._changed.wait()

    async def _give_cursor(self, session: int, connection: ProcessConnection) -> None:
        async with self._changed:
            try:
                if connection is self._connection:
                    await self._do(calls.cursor_close(), session, connection)
            except RefusedError:
                pass    # it was never opened
            finally:    # also where the task is cancelled: the line is on its way
                if connection is self._connection:
                    self._sessions.give_cursor(session)
                self._changed.notify_all()

    async def check(self) -> Soundness:
        """Looks the store over. The process is ended for that, and started again."""
        async with self._opening:
            old = await self._running()
            await self._answered(old)
            if self._sessions.cursors:
                raise CursorBusyError("BUSY", "check", "an iterator over windows is open")
            await self._put_down()
            found = await asyncio.to_thread(self._look_over)
            self._connection = old.successor = await self._begin()
            return found


async def open(path: StorePath, *, zone: str | datetime.tzinfo | None = None, existing: bool = False,
               checked: bool | None = None, program: str | os.PathLike[str] | None = None) -> Store:
    """Opens a store, and makes it where there is none, as `summarystore.open` does."""
    store = Store(path, program=program, translator=Names(path, zone), existing=existing,
                  checked=checked)
    await store._up()
    return store


async def connect(address: str, *, token: str | None = None, zone: str | datetime.tzinfo | None = None,
                  seconds: float = SECONDS) -> RemoteStore:
    """The store that a service at this address holds, as `summarystore.connect`. It needs aiohttp."""
    from . import aio_connecting
    return await aio_connecting.connect(address, token=token, zone=zone, seconds=seconds)
