"""Landmarks that were marked through the service: when each began and ended.

The store keeps the values of landmarks, and tells how many there are but not when they were. So the
service keeps that in STORE.landmarks.json beside it, replaced atomically after the store's `ok`.
Those that were made elsewhere are counted as unknown.
"""

from __future__ import annotations

import asyncio
import json
import logging
import os
import time as clock
from collections.abc import Awaitable, Callable
from dataclasses import dataclass
from typing import Protocol

from .. import aio
from ..decimals import Number
from ..records import Stream
from .events import Hub
from .streams import Streams

log = logging.getLogger("summarystored")


@dataclass
class Span:
    """One landmark, in nanoseconds since 1970. None: its begin isn't known, or it is open."""

    begin: int | None
    end: int | None


class Asking(Protocol):
    """The service, as far as it is needed here."""

    hub: Hub

    def store(self) -> aio.Store:
        """The store."""


class Landmarks:
    """The landmarks of a store, as far as they are known."""

    def __init__(self, path: str, asking: Asking, streams: Callable[[], Streams]) -> None:
        self._file = f"{os.path.abspath(path)}.landmarks.json"
        self._asking = asking
        self._streams = streams
        self._spans: dict[str, list[Span]] = {}
        self._lock = asyncio.Lock()
        self._read()

    def of(self, name: str) -> list[Span]:
        """Those of a stream, the oldest first."""
        return self._spans.get(name, [])

    def unknown(self, stream: Stream) -> int:
        """How many landmarks of a stream aren't known."""
        return max(0, stream.landmarks - len(self.of(stream.name)))

    def is_open(self, stream: Stream) -> bool | None:
        """Whether a landmark of a stream is open. None where that isn't known."""
        spans = self.of(stream.name)
        if spans and spans[-1].end is None:
            return True
        return None if self.unknown(stream) else False

    async def mark(self, name: str, opens: bool, at: int | None) -> Number:
        """Opens a landmark, or closes the one that is open, and gives the time of that in seconds."""
        streams = self._streams()
        async with self._lock, streams.alone(name):
            store = self._asking.store()
            meaning = streams.meaning(store, name)
            if at is None:
                last = await store.last(name)
                newest = 0 if last is None else meaning.count_of(last.time)
                # A landmark begins after what stands, and may end with it.
                count = max(meaning.count(clock.time_ns()), newest + 1 if opens and last else newest)
            else:
                count = meaning.count(at)
            call: Callable[..., Awaitable[object]] = store.open_landmark if opens else store.close_landmark
            streams.forget_newest(name)
            await call(name, count)
            await self._marked(name, opens, meaning.nanoseconds(count))
        told = meaning.seconds(count)
        self._asking.hub.tell("landmark", {"stream": name, "action": "open" if opens else "close",
                                           "time": told})
        return told

    async def moved(self, name: str, new: str | None) -> None:
        """A stream has another name, or was dropped."""
        async with self._lock:
            spans = self._spans.pop(name, None)
            if spans is not None:
                if new is not None:
                    self._spans[new] = spans
                await self._kept()

    async def _marked(self, name: str, opens: bool, at: int) -> None:
        spans = self._spans.setdefault(name, [])
        if opens:
            spans.append(Span(at, None))
        elif spans and spans[-1].end is None:
            spans[-1].end = at
        else:
            spans.append(Span(None, at))
        await self._kept()

    async def _kept(self) -> None:
        try:
            await asyncio.to_thread(self._write)
        except OSError as error:
            log.error("landmarks not written: file=%r reason=%s", self._file, error)

    def _read(self) -> None:
        try:
            with open(self._file, encoding="utf-8") as stream:
                given = json.load(stream)
            self._spans = {name: [Span(*span) for span in spans] for name, spans in given.items()}
        except FileNotFoundError:
            pass
        except (OSError, ValueError, TypeError, AttributeError) as error:
            log.error("landmarks not read: file=%r reason=%s", self._file, error)

    def _write(self) -> None:
        told = {name: [(span.begin, span.end) for span in spans] for name, spans in self._spans.items()}
        made = f"{self._file}.new"
        with open(made, "w", encoding="utf-8") as stream:
            json.dump(told, stream)
            stream.flush()
            os.fsync(stream.fileno())
        os.replace(made, self._file)
