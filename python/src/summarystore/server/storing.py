"""What was taken of one stream on its way into the store: by whoever has the lock of the stream."""

from __future__ import annotations

import logging
import time as clock
from collections.abc import Sequence
from typing import Protocol, cast

from .. import aio, errors
from ..errors import ProcessEndedError, SummaryStoreError
from .column import Column
from .column_delivery import delivery_of
from .counters import Counters
from .delivery import Delivery, Given, Row
from .events import Hub
from .lanes import SECOND, Lane, Pending
from .mapping import Route
from .meaning import Meaning
from .outcomes import STORED, Outcome, Result, refused
from .recent import Recent
from .restarts import restart_ahead
from .streams import Streams

log = logging.getLogger("summarystored")
TOLD_AGAIN = 3600.0
"""After so many seconds it is told again that a stream lies ahead of the clock."""


class Opened(Protocol):
    """The store behind the service, as far as it is open."""

    @property
    def taking(self) -> aio.Store | None:
        """The store, while it takes events."""

    @property
    def why(self) -> str:
        """Why it doesn't take any."""

    def ended(self, error: Exception) -> None:
        """Is told that the program of the store ended under a call."""

    def answered(self) -> None:
        """Is told that the store has answered."""

    async def wait_open(self) -> aio.Store:
        """Waits until it takes events. Raises UnavailableError where it won't any more."""


class Storing:
    """Brings readings of one stream to the store, and says what became of them."""

    def __init__(self, opened: Opened, recent: Recent | None, hub: Hub | None, counters: Counters | None,
                 future: int) -> None:
        self._opened = opened
        self.streams = Streams()
        self._recent = Recent() if recent is None else recent
        self._hub = Hub() if hub is None else hub
        self.counters = Counters() if counters is None else counters
        self._future = future
        self._told: dict[str, float] = {}

    def _current(self, route: Route) -> Route:
        """The stream that takes the readings, where another was made in the place of one."""
        store = self._opened.taking
        stream = route.stream if store is None else self.streams.current(store, route.stream)
        return route if stream == route.stream else Route(stream, route.mapping)

    async def _moves(self, route: Route) -> bool:
        """Whether another stream takes the readings from now on, since this one lies ahead of the clock."""
        store = self._opened.taking
        if store is None or route.mapping is None or route.mapping.restart is None:
            return False
        try:
            await restart_ahead(self.streams, store, route, clock.time_ns() + self._future)
        except (SummaryStoreError, OSError) as error:
            log.warning("stream not restarted: stream=%r reason=%s", route.stream, error)
        return self._current(route) is not route

    async def _outcomes(self, lane: Lane, taken: Sequence[Pending] | Column) -> Sequence[Outcome]:
        """What becomes of readings of one stream. What fails here fails none of the service."""
        try:
            return await self._stored(lane, taken)
        except Exception as error:      # of ours: what was sent isn't known
            log.exception("append failed: stream=%r", lane.route.stream)
            return [Outcome(Result.UNKNOWN, "failed", f"{type(error).__name__}: {error}")] * len(taken)

    async def _stored(self, lane: Lane, taken: Sequence[Pending] | Column) -> Sequence[Outcome]:
        store, route = self._opened.taking, lane.route
        if store is None:
            return [Outcome(Result.NOT_STORED, "store_unavailable", self._opened.why)] * len(taken)
        try:
            meaning = await self.streams.made(store, route)
            newest = await self.streams.newest(store, route.stream)
        except (ProcessEndedError, errors.StoreClosedError, errors.ProtocolError, OSError) as error:
            self._opened.ended(error)
            return [Outcome(Result.NOT_STORED, "interrupted", str(error))] * len(taken)
        except SummaryStoreError as error:
            return [refused(error)] * len(taken)
        now = clock.time_ns()
        values = self.streams.values(route.stream)
        self._recent.settle(route.stream, values, newest)
        delivery = self._delivery(route, meaning, taken, newest, now, values)
        found = await delivery.send(store)
        self.streams.came_to(route.stream, delivery.newest, delivery.values)
        if delivery.ended is not None:
            self._opened.ended(delivery.ended)
        else:
            self._opened.answered()
        if delivery.unknown_stream:
            self.streams.forget(route.stream)
            self._recent.forget(route.stream)
        if delivery.too_far:
            self._wait_for_the_clock(lane, delivery.free_at - now)
        if delivery.again:
            self.streams.forget_newest(route.stream)
        if delivery.ended is None:
            lane.went()
        if not isinstance(taken, Column) and (delivery.ended is not None or delivery.again):
            _keep_steps(taken, delivery.rows, found)
        self.counters.add("batches")
        if self._hub.listens(route.stream):
            await self._tell(store, route.stream, meaning, delivery.rows, found)
        return found

    def _delivery(self, route: Route, meaning: Meaning, taken: Sequence[Pending] | Column, newest: int,
                  now: int, values: int | None) -> Delivery:
        if isinstance(taken, Column):
            return delivery_of(taken, route.stream, meaning, newest, self._recent, now, values)
        words = {} if route.mapping is None else route.mapping.words
        given = [Given(each.time, each.reading.value, each.is_ours, each.step) for each in taken]
        return Delivery(route.stream, meaning, words, given, newest, self._recent, now, values)

    def _wait_for_the_clock(self, lane: Lane, nanoseconds: int) -> None:
        """The stream lies ahead of the clock: what has no time of its own waits."""
        lane.lies_ahead(nanoseconds / SECOND)
        now, stream = clock.monotonic(), lane.route.stream
        if now >= self._told.get(stream, now):
            self._told[stream] = now + TOLD_AGAIN
            log.warning("stream ahead of the clock: stream=%r seconds=%d: what has no time of its own waits; "
                        "a finer `time` or a restart mends it", stream, nanoseconds // SECOND)

    async def _tell(self, store: aio.Store, stream: str, meaning: Meaning, rows: Sequence[Row],
                    found: Sequence[Outcome]) -> None:
        """Tells those who listen what was stored."""
        stored = [row for row, outcome in zip(rows, found) if outcome is STORED]
        try:
            kept = await store.kept(stream, stored)
        except (SummaryStoreError, OSError):
            return      # the program has ended meanwhile: they see it in the store
        for time, value in kept:
            self._hub.tell("reading", {"stream": stream, "time": meaning.seconds(cast(int, time)),
                                       "value": meaning.shown(value)})


def _keep_steps(taken: Sequence[Pending], rows: Sequence[Row], found: Sequence[Outcome]) -> None:
    """Where it isn't known whether a reading of ours is stored, it is tried again at the same step."""
    for pending, row, outcome in zip(taken, rows, found):
        if pending.is_ours and (outcome.result is Result.UNKNOWN or outcome.waits):
            pending.step = row[0] if outcome.result is Result.UNKNOWN else None
