"""The streams that stand, and what their numbers mean; and those that a mapping makes."""

from __future__ import annotations

import asyncio
import logging
import time
from collections.abc import Sequence
from weakref import WeakValueDictionary

from .. import aio
from ..description import meter_words
from ..errors import (RefusedError, StreamExistsError, SummaryStoreError, TooManyStreamsError,
                      UnknownStreamError)
from ..gauges import BESIDE, gauge_of
from ..records import Stream
from .mapping import Route
from .meaning import Meaning
from .settings import Mapping

log = logging.getLogger("summarystored")
RESTARTS = "restarts"
"""The label of a stream that takes the readings of another, whose name it says."""
MOST_STREAMS = 4096
"""So many streams stand in a store at most."""
AGAIN = 60.0
"""After so many seconds a stream that couldn't be made is tried again."""


class Streams:
    """What is known of the streams of a store that is open."""

    def __init__(self) -> None:
        self._meanings: dict[str, Meaning] = {}
        self._standing: set[str] = set()
        self._failed: dict[str, tuple[float, SummaryStoreError]] = {}
        self._newest: dict[str, int] = {}
        self._restarts: dict[str, str] | None = None
        self._values: dict[str, int | None] = {}
        self._first: dict[str, int] = {}
        self._locks: WeakValueDictionary[str, asyncio.Lock] = WeakValueDictionary()

    def alone(self, name: str) -> asyncio.Lock:
        """The lock of a stream: who writes to it has it, so that nobody else does meanwhile."""
        found = self._locks.get(name)
        if found is None:
            found = self._locks[name] = asyncio.Lock()
        return found

    async def newest(self, store: aio.Store, name: str) -> int:
        """The last time of a stream as a count, and -1 where it took nothing."""
        found = self._newest.get(name)
        if found is None:
            last = await store.last(name)
            found = -1 if last is None else self.meaning(store, name).count_of(last.time)
            self._newest[name] = found
        return found

    async def first(self, store: aio.Store, name: str) -> int | None:
        """The first time of a stream as a count, which stays while it stands. None where it has no value."""
        found = self._first.get(name)
        if found is None:
            oldest = await store.first(name)
            kept = [] if oldest is not None else await store.values(name)
            if oldest is None and not kept:
                return None
            found = self.meaning(store, name).count_of(kept[0].time if oldest is None else oldest)
            if oldest is not None:
                self._first[name] = found
        return found

    def values(self, name: str) -> int | None:
        """How many values a stream has had, also in landmarks. None where it isn't known."""
        return self._values.get(name)

    def came_to(self, name: str, count: int, values: int | None = None) -> None:
        """The last time of a stream is this one now, and it has had so many values."""
        self._newest[name] = count
        self._values[name] = values

    def forget_newest(self, name: str) -> None:
        """The last time of a stream is to be asked for again."""
        self._newest.pop(name, None)

    def learn(self, streams: Sequence[Stream]) -> None:
        """The store was opened, and these stand."""
        self._meanings.clear()
        self._failed.clear()
        self._newest.clear()
        self._first.clear()
        self._values = {stream.name: stream.values + stream.landmark_values for stream in streams}
        self._standing = set(self._values)
        self._restarts = None

    def came(self, name: str) -> None:
        """A stream was made, or has this name now."""
        self._standing.add(name)
        self._restarts = None

    def current(self, store: aio.Store, name: str) -> str:
        """The stream that takes the readings of one: the one that was made in its place, or itself."""
        if self._restarts is None:
            self._restarts = self._find_restarts(store)
        for _ in self._restarts:
            name = self._restarts.get(name, name)
        return name

    def _find_restarts(self, store: aio.Store) -> dict[str, str]:
        found = {}
        for name in self._standing:
            description = store.description(name)
            if description is not None and description.labels.get(RESTARTS, name) != name:
                found[description.labels[RESTARTS]] = name
        return found

    def stands(self, name: str) -> bool:
        """Whether a stream of that name stands, as far as is known."""
        return name in self._standing

    def try_again(self) -> None:
        """The mapping was read anew: what couldn't be made may be made now."""
        self._failed.clear()

    def forget(self, name: str) -> None:
        """A stream was dropped, or its description changed."""
        self._meanings.pop(name, None)
        self._newest.pop(name, None)
        self._first.pop(name, None)
        self._values.pop(name, None)
        self._standing.discard(name)
        self._restarts = None

    def meaning(self, store: aio.Store, name: str) -> Meaning:
        """What the numbers of a stream mean. Raises UnknownStreamError where none stands."""
        found = self._meanings.get(name)
        if found is None:
            if name not in self._standing:
                raise UnknownStreamError("UNKNOWN", name)
            found = self._meanings[name] = Meaning.of(store.description(name))
        return found

    async def made(self, store: aio.Store, route: Route) -> Meaning:
        """The same, of a stream that is made first where none stands and a mapping says how."""
        if route.stream not in self._standing and route.mapping is not None:
            await self._make(store, route.stream, route.mapping)
        elif route.mapping is not None and route.stream not in self._meanings:
            await self._describe(store, route.stream, route.mapping)
        return self.meaning(store, route.stream)

    async def _make(self, store: aio.Store, name: str, mapping: Mapping) -> None:
        failed = self._failed.get(name)
        if failed is not None and time.monotonic() < failed[0]:
            raise failed[1]
        if len(self._standing) >= MOST_STREAMS:
            raise TooManyStreamsError("STREAMS", name)
        told = mapping.description
        try:
            await store.create(name, mapping.target, mapping.within, scale=told.scale, time=told.time,
                               since=told.since, unit=told.unit, labels=told.labels,
                               rounding=told.rounding, **meter_words(told))
        except StreamExistsError:
            pass    # it was made by another call
        except (RefusedError, ValueError) as error:
            found = error if isinstance(error, SummaryStoreError) else SummaryStoreError(str(error))
            log.warning("stream not made: stream=%r reason=%s", name, found)
            if len(self._failed) < 10_000:
                self._failed[name] = time.monotonic() + AGAIN, found
            raise found from None
        else:
            log.info("stream made: stream=%r target=%r", name, mapping.target)
            self._values[name] = 0
        self._standing.add(name)
        if gauge_of(told) is not None:
            self._standing.add(name + BESIDE)

    async def _describe(self, store: aio.Store, name: str, mapping: Mapping) -> None:
        """Brings what a mapping says of a stream that stands to it, as far as it can be changed."""
        known, told = store.description(name), mapping.description
        if known is None:
            return
        is_same = known[:3] == (told.scale, told.time if mapping.time_told else known.time, told.since)
        if not is_same or meter_words(known) != meter_words(told):
            log.warning("stream stands with another scale, time or kind than its mapping has: stream=%r "
                        "scale=%s time=%s", name, known.scale, known.time)
        labels = dict(told.labels)
        if RESTARTS in known.labels:
            labels[RESTARTS] = known.labels[RESTARTS]
        if (told.unit, labels, told.rounding) != (known.unit, dict(known.labels), known.rounding):
            await store.describe_soon(name, unit=told.unit, labels=labels or None, rounding=told.rounding)
