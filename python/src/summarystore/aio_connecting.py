"""A store behind a service, over HTTP: the calls of `aio.Store`. It needs aiohttp."""

from __future__ import annotations

from collections.abc import AsyncIterator, Mapping, Sequence
from contextlib import asynccontextmanager
from datetime import date, tzinfo
from types import TracebackType
from typing import Self, TypeVar, cast

import aiohttp
from yarl import URL

from . import calls, older, remote
from .calls import Call
from .errors import LateError, ServiceError, StoreClosedError
from .frames import columns_of, frame_of, names_left
from .aio_handle import Handle
from .outcome import tell
from .present import UNSAID, reading_of
from .aio_questions import Questions
from .records import Stored, Time, Window
from .remote import Ask, Body, Described, Posts, RemoteNames
from .sending import OnRefused
from .wire import Reply

T = TypeVar("T")


class RemoteStore(Described, Questions):
    """A store that a service holds. `aio.connect` makes it, for one event loop.

    Its calls are those of `aio.Store`, but for `check`. `append` answers nothing.
    """

    def __init__(self, address: str, token: str | None, zone: str | tzinfo | None, seconds: float) -> None:
        self.path = remote.address_of(address)
        self._http = aiohttp.ClientSession(headers=remote.headers_of(token),
                                           timeout=aiohttp.ClientTimeout(total=None, sock_read=seconds))
        self._closed = False
        self._translator = self._names = RemoteNames(zone)

    async def __aenter__(self) -> Self:
        return self

    async def __aexit__(self, kind: type[BaseException] | None, error: BaseException | None,
                        trace: TracebackType | None) -> None:
        await self.close()

    async def close(self) -> None:
        """Asks nothing more. The service goes on."""
        self._closed = True
        await self._http.close()

    async def refresh(self) -> None:
        """Asks how the streams are read: where somebody else has made one."""
        await self._ask(remote.descriptions(self._names))

    # ---- requests -----------------------------------------------------------------------

    @asynccontextmanager
    async def _answer(self, method: str, path: str, body: bytes | None, accept: str = "application/json"
                      ) -> AsyncIterator[aiohttp.ClientResponse]:
        """The answer to a request, of any status."""
        if self._closed:
            raise StoreClosedError(f"{self.path} is closed")
        try:
            address = URL(self.path + path, encoded=True)
            async with self._http.request(method, address, data=body, headers={"Accept": accept}) as answer:
                yield answer
        except (aiohttp.ClientError, OSError) as error:
            raise ServiceError(None, "unreachable", f"{self.path}: {error}") from None

    async def _said(self, method: str, path: str, body: bytes | None) -> tuple[int, Body]:
        async with self._answer(method, path, body) as answer:
            return answer.status, remote.object_of(await answer.read())

    async def _ask(self, ask: Ask[T]) -> T:
        status, told = await self._said(ask.method, ask.path, ask.body)
        if status != 200:
            raise remote.error_of(status, told)
        return ask.result(told)

    async def _do(self, call: Call[T]) -> T:
        return await older.answer_later(call, self._replies)

    async def _replies(self, lines: Sequence[str]) -> Sequence[Reply]:
        return [reply for ask in remote.questions(lines) for reply in await self._ask(ask)]

    # ---- streams ------------------------------------------------------------------------

    def __getitem__(self, name: str) -> Handle:
        """One stream. Whether it stands is seen at the first call."""
        return Handle(self, name)

    async def __aiter__(self) -> AsyncIterator[str]:
        """The names of the streams, in the order in which they were made."""
        for stream in await self.list():
            yield stream.name

    async def create(self, name: str, target: str | Sequence[object], within: int | None = None, *,
                     scale: object | None = None, time: str | None = None, since: date | str | None = None,
                     unit: str | None = None, labels: Mapping[str, str] | None = None,
                     rounding: str | None = None, exist_ok: bool = False,
                     kind: str | None = None, overflow: object | None = None,
                     integrate: str | None = None, rule: str | None = None) -> Stored:
        """Makes a stream, as `Store.create` does."""
        made = await self._ask(remote.create(
            name, target, within=within, scale=scale, time=time, since=since, unit=unit, labels=labels,
            rounding=rounding, exist_ok=exist_ok, kind=kind, overflow=overflow, integrate=integrate,
            rule=rule))
        await self.refresh()
        return made

    async def describe(self, name: str, *, unit: str | None = None, labels: Mapping[str, str] | None = None,
                       rounding: str | None = None) -> None:
        """Changes what is given of a described stream. Its scale and its times can't be changed."""
        await self._ask(remote.describe({"name": name, "unit": unit, "labels": labels, "rounding": rounding}))
        await self.refresh()

    async def drop(self, name: str) -> None:
        """Removes a stream with all that it holds: by a token of `admin`. It can't be undone."""
        await self._ask(remote.drop(name))
        await self.refresh()

    async def rename(self, name: str, new: str) -> None:
        """Gives a described stream another name: by a token of `admin`."""
        await self._ask(remote.rename(name, new))
        await self.refresh()

    # ---- readings -----------------------------------------------------------------------

    async def append(self, name: str, time: object = UNSAID, value: object = UNSAID) -> None:
        """Takes a value, as `Store.append` does: it is on the disk when this returns. Where the time isn't
        given it is when the service has it."""
        time, value = reading_of(time, value)
        body = remote.body_of(remote.reading(name, self.codec(name), time, value))
        try:
            remote.first_refusal(*await self._said("POST", "/api/append", body))
        except LateError as error:
            last = await self.last(name)
            error.newest = None if last is None else last.time
            raise

    async def append_many(self, name: object, rows: object = None, *, refused: OnRefused | None = None,
                          lateness: object | None = None) -> int:
        """Takes rows of a time and a value, as `Store.append_many` does. What stands at its time with
        this value counts as stored, so rows may be sent again."""
        frame = frame_of(name)
        if frame is None:
            return await self._append_rows(cast(str, name), rows, refused, lateness)
        stored, columns = 0, columns_of(frame)
        for at, (column, readings) in enumerate(columns):
            try:
                stored += await self._append_rows(column, readings, refused, lateness)
            except BaseException as error:
                names_left(error, [each for each, _ in columns], at)
                raise
        return stored

    async def _append_rows(self, name: str, rows: object, refused: OnRefused | None, lateness: object | None
                           ) -> int:
        sending = Posts(name, self.codec(name), rows, refused, lateness)
        try:
            for request in sending.requests(0):
                ask = remote.posted(request)
                remote.took(request, *await self._said(ask.method, ask.path, ask.body))
                sending.settle()
        except BaseException as error:
            tell(error, sending.outcome())
            raise
        return sending.end()

    @asynccontextmanager
    async def landmark(self, name: str, start: object | None = None, end: object | None = None
                       ) -> AsyncIterator[None]:
        """Keeps the values that are appended meanwhile one by one, as `Store.landmark` does."""
        codec = self.codec(name)
        begun, ended = calls.landmark_span(codec, start, end)
        await self._ask(remote.mark(name, codec, "open", begun))
        try:
            yield
        finally:
            if ended is None and start is not None:
                ended = (await self._do(calls.last_numbers(codec)))[0]
            await self._ask(remote.mark(name, codec, "close", ended))

    async def open_landmark(self, name: str, time: object | None = None) -> None:
        """Opens a landmark at a time, or now."""
        codec = self.codec(name)
        await self._ask(remote.mark(name, codec, "open", None if time is None else codec.time(time)))

    async def close_landmark(self, name: str, time: object | None = None) -> None:
        """Closes the landmark that is open."""
        codec = self.codec(name)
        await self._ask(remote.mark(name, codec, "close", None if time is None else codec.time(time)))

    # ---- what it keeps ------------------------------------------------------------------

    async def windows(self, name: str) -> AsyncIterator[Window]:
        """The windows of a stream, the oldest first, as they come."""
        codec = self.codec(name)
        async with self._answer("GET", remote.windows_path(name), None, "text/csv") as answer:
            if answer.status != 200:
                raise remote.error_of(answer.status, remote.object_of(await answer.read()))
            await answer.content.readline()
            async for line in answer.content:
                yield remote.window_of(line.decode("utf-8").strip(), codec)

    async def first(self, name: str) -> Time | None:
        """When the oldest window begins. None where none stands."""
        found = self.windows(name)
        try:
            async for window in found:
                return window.start
            return None
        finally:
            await found.aclose()    # type: ignore[attr-defined]


async def connect(address: str, *, token: str | None = None, zone: str | tzinfo | None = None,
                  seconds: float = remote.SECONDS) -> RemoteStore:
    """The store that a service at this address holds, as `summarystore.connect`."""
    store = RemoteStore(address, token, zone, seconds)
    try:
        await store.refresh()
    except BaseException:
        await store.close()
        raise
    return store
