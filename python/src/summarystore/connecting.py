"""A store behind a service, over HTTP: the calls of `Store`, for threads."""

from __future__ import annotations

import urllib.error
import urllib.request
from collections.abc import Iterator, Mapping, Sequence
from contextlib import contextmanager
from datetime import date, tzinfo
from itertools import islice
from types import TracebackType
from typing import Self, TypeVar, cast
from urllib.response import addinfourl

from . import calls, older, remote
from .calls import Call
from .errors import LateError, ServiceError, StoreClosedError, UnknownStreamError
from .frames import columns_of, frame_of, names_left
from .handle import Handle
from .outcome import tell
from .present import UNSAID, reading_of
from .questions import Questions
from .records import Stored, Window
from .remote import Ask, Body, Described, Posts, RemoteNames
from .sending import OnRefused
from .wire import Reply

T = TypeVar("T")


class RemoteStore(Described, Questions):
    """A store that a service holds. `summarystore.connect` makes it, and threads may share it.

    Its calls are those of `Store`, but for `check` and `reordered`. `append` answers nothing.
    """

    def __init__(self, address: str, token: str | None, zone: str | tzinfo | None, seconds: float) -> None:
        self.path = remote.address_of(address)
        self._headers = remote.headers_of(token)
        self._seconds = seconds
        self._closed = False
        self._translator = self._names = RemoteNames(zone, self.refresh)
        self.refresh()

    def __enter__(self) -> Self:
        return self

    def __exit__(self, kind: type[BaseException] | None, error: BaseException | None,
                 trace: TracebackType | None) -> None:
        self.close()

    def close(self) -> None:
        """Asks nothing more. The service goes on."""
        self._closed = True

    def refresh(self) -> None:
        """Asks how the streams are read. An unknown name does it by itself."""
        self._ask(remote.descriptions(self._names))

    # ---- requests -----------------------------------------------------------------------

    @contextmanager
    def _answer(self, method: str, path: str, body: bytes | None, accept: str | None = None
                ) -> Iterator[addinfourl]:
        """The answer to a request, of any status."""
        if self._closed:
            raise StoreClosedError(f"{self.path} is closed")
        headers = dict(self._headers) if accept is None else {**self._headers, "Accept": accept}
        request = urllib.request.Request(self.path + path, body, headers, method=method)
        try:
            with urllib.request.urlopen(request, timeout=self._seconds) as answer:
                yield answer
        except urllib.error.HTTPError as error:
            with error:
                yield error
        except (OSError, EOFError) as error:
            raise ServiceError(None, "unreachable", f"{self.path}: {error}") from None

    def _said(self, method: str, path: str, body: bytes | None) -> tuple[int, Body]:
        with self._answer(method, path, body) as answer:
            return answer.status or 0, remote.object_of(answer.read())

    def _ask(self, ask: Ask[T]) -> T:
        status, told = self._said(ask.method, ask.path, ask.body)
        if status != 200:
            raise remote.error_of(status, told)
        return ask.result(told)

    def _do(self, call: Call[T]) -> T:
        return older.answer(call, self._replies)

    def _replies(self, lines: Sequence[str]) -> Sequence[Reply]:
        return [reply for ask in remote.questions(lines) for reply in self._ask(ask)]

    # ---- streams ------------------------------------------------------------------------

    def __getitem__(self, name: str) -> Handle:
        """One stream. Raises UnknownStreamError, a LookupError, where none stands."""
        if name not in self:
            raise UnknownStreamError("UNKNOWN", repr(name))
        return Handle(self, name)

    def __contains__(self, name: object) -> bool:
        return any(stream.name == name for stream in self.list())

    def __iter__(self) -> Iterator[str]:
        """The names of the streams, in the order in which they were made."""
        return iter([stream.name for stream in self.list()])

    def create(self, name: str, target: str | Sequence[object], within: int | None = None, *,
               scale: object | None = None, time: str | None = None, since: date | str | None = None,
               unit: str | None = None, labels: Mapping[str, str] | None = None,
               rounding: str | None = None, exist_ok: bool = False,
               kind: str | None = None, overflow: object | None = None,
               integrate: str | None = None, rule: str | None = None) -> Stored:
        """Makes a stream, as `Store.create` does."""
        made = self._ask(remote.create(
            name, target, within=within, scale=scale, time=time, since=since, unit=unit, labels=labels,
            rounding=rounding, exist_ok=exist_ok, kind=kind, overflow=overflow, integrate=integrate,
            rule=rule))
        self.refresh()
        return made

    def describe(self, name: str, *, unit: str | None = None, labels: Mapping[str, str] | None = None,
                 rounding: str | None = None) -> None:
        """Changes what is given of a described stream. Its scale and its times can't be changed."""
        self._ask(remote.describe({"name": name, "unit": unit, "labels": labels, "rounding": rounding}))
        self.refresh()

    def drop(self, name: str) -> None:
        """Removes a stream with all that it holds: by a token of `admin`. It can't be undone."""
        self._ask(remote.drop(name))
        self.refresh()

    def rename(self, name: str, new: str) -> None:
        """Gives a described stream another name: by a token of `admin`."""
        self._ask(remote.rename(name, new))
        self.refresh()

    # ---- readings -----------------------------------------------------------------------

    def append(self, name: str, time: object = UNSAID, value: object = UNSAID) -> None:
        """Takes a value, as `Store.append` does: it is on the disk when this returns. Where the time isn't
        given it is when the service has it."""
        time, value = reading_of(time, value)
        body = remote.body_of(remote.reading(name, self.codec(name), time, value))
        try:
            remote.first_refusal(*self._said("POST", "/api/append", body))
        except LateError as error:
            last = self.last(name)
            error.newest = None if last is None else last.time
            raise

    def append_many(self, name: object, rows: object = None, *, refused: OnRefused | None = None,
                    lateness: object | None = None) -> int:
        """Takes rows of a time and a value, as `Store.append_many` does. What stands at its time with
        this value counts as stored, so rows may be sent again."""
        frame = frame_of(name)
        if frame is None:
            return self._append_rows(cast(str, name), rows, refused, lateness)
        stored, columns = 0, columns_of(frame)
        for at, (column, readings) in enumerate(columns):
            try:
                stored += self._append_rows(column, readings, refused, lateness)
            except BaseException as error:
                names_left(error, [each for each, _ in columns], at)
                raise
        return stored

    def _append_rows(self, name: str, rows: object, refused: OnRefused | None, lateness: object | None
                     ) -> int:
        sending = Posts(name, self.codec(name), rows, refused, lateness)
        try:
            for request in sending.requests(0):
                ask = remote.posted(request)
                remote.took(request, *self._said(ask.method, ask.path, ask.body))
                sending.settle()
        except BaseException as error:
            tell(error, sending.outcome())
            raise
        return sending.end()

    @contextmanager
    def landmark(self, name: str, start: object | None = None, end: object | None = None
                 ) -> Iterator[None]:
        """Keeps the values that are appended meanwhile one by one, as `Store.landmark` does."""
        codec = self.codec(name)
        begun, ended = calls.landmark_span(codec, start, end)
        self._ask(remote.mark(name, codec, "open", begun))
        try:
            yield
        finally:
            if ended is None and start is not None:
                ended = self._do(calls.last_numbers(codec))[0]
            self._ask(remote.mark(name, codec, "close", ended))

    def open_landmark(self, name: str, time: object | None = None) -> None:
        """Opens a landmark at a time, or now."""
        codec = self.codec(name)
        self._ask(remote.mark(name, codec, "open", None if time is None else codec.time(time)))

    def close_landmark(self, name: str, time: object | None = None) -> None:
        """Closes the landmark that is open."""
        codec = self.codec(name)
        self._ask(remote.mark(name, codec, "close", None if time is None else codec.time(time)))

    # ---- what it keeps ------------------------------------------------------------------

    def windows(self, name: str) -> Iterator[Window]:
        """The windows of a stream, the oldest first, as they come."""
        codec = self.codec(name)
        with self._answer("GET", remote.windows_path(name), None, "text/csv") as answer:
            if answer.status != 200:
                raise remote.error_of(answer.status or 0, remote.object_of(answer.read()))
            next(answer, b"")
            for line in answer:
                yield remote.window_of(line.decode("utf-8").strip(), codec)

    def span(self, name: str) -> tuple[int, int] | None:
        """The first time that a stream shows and its last one, as whole numbers."""
        codec = self.codec(name)
        found = self._do(calls.last_numbers(codec))
        if not found:
            return None
        starts = [codec.time(window.start) for window in islice(self.windows(name), 1)]
        starts += [codec.time(reading.time) for reading in self.values(name)[:1]]
        return min(starts, default=found[0]), found[0]


def connect(address: str, *, token: str | None = None, zone: str | tzinfo | None = None,
            seconds: float = remote.SECONDS) -> RemoteStore:
    """The store that a service at this address holds, as `http://127.0.0.1:8087`: `summarystore.connect`.

    Each request may take so many seconds. Times without a zone are those of `zone`.
    """
    return RemoteStore(address, token, zone, seconds)
