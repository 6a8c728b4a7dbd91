"""The readings of one stream that wait for the store, in the order in which they go to it.

Those with a time of their own go by their times. Behind them go those whose time is the service's, as
they came: each gets the next free step of the stream, and waits while that lies too far ahead of the
clock. With a lateness a reading waits for earlier ones: until one comes that is so much later, or for
so long.
"""

from __future__ import annotations

import asyncio
import time as clock
from bisect import bisect_right
from collections import deque
from collections.abc import Callable, Iterable, Mapping, Sequence
from contextlib import suppress
from dataclasses import dataclass, field

from .mapping import Route
from .outcomes import STORED, Outcome

SECOND = 10**9
GATHERS = 0.02
"""Where readings wait for earlier ones, those of so many seconds are looked at together."""


@dataclass(frozen=True, slots=True)
class Incoming:
    """A reading as it came from a network.

    `source` is one of `settings.SOURCES`. Where the sender has found out the stream already, as for
    messages that are JSON, it gives the `route`.
    """

    name: str
    value: object
    time: int | None = None
    tags: Mapping[str, str] = field(default_factory=dict)
    source: str = "http"
    route: Route | None = None


class Batch:
    """Readings that were handed over together. `done` is told when all of them have their fate."""

    def __init__(self, count: int, done: Callable[[Sequence[Outcome]], None]) -> None:
        self.outcomes = [STORED] * count
        self._missing = count
        self._done = done

    def settle(self, at: int, outcome: Outcome) -> None:
        """One of them has its fate."""
        self.outcomes[at] = outcome
        self._missing -= 1
        if not self._missing:
            self._done(self.outcomes)


@dataclass(slots=True)
class Pending:
    """A reading on its way, and where what became of it is to be told.

    `time` is its own in nanoseconds, or when it came. `came` is that by the clock of the loop, and
    `until` how long it may wait there, None for as long as the service runs. `step` is the one that
    it got where its fate isn't known: it is tried again at that one.
    """

    reading: Incoming
    time: int
    batch: Batch
    at: int
    came: float
    until: float | None = None
    step: int | None = None

    @property
    def is_ours(self) -> bool:
        """Whether its time is the service's."""
        return self.reading.time is None


class Lane:
    """The readings of one stream that wait."""

    def __init__(self, route: Route) -> None:
        self.route = route
        self._given: list[Pending] = []
        self._ours: deque[Pending] = deque()
        self._newest = -1
        self._sorted = True
        self._arrived = asyncio.Event()
        self._paused = self._ours_from = 0.0
        self._pause = 0.0

    def __len__(self) -> int:
        return len(self._given) + len(self._ours)

    @property
    def ahead(self) -> int:
        """How many wait since the stream lies ahead of the clock."""
        return len(self._ours) if self._ours_from > clock.monotonic() else 0

    def is_too_long(self, until: float | None) -> bool:
        """Whether one that may wait until then would wait longer, since the stream lies ahead."""
        return until is not None and until < self._ours_from

    @property
    def _lateness(self) -> int:
        return 0 if self.route.mapping is None else self.route.mapping.lateness

    def put(self, pending: Pending) -> None:
        """One more."""
        if pending.is_ours:
            self._ours.append(pending)
        else:
            self._sorted = self._sorted and pending.time >= self._newest
            self._newest = max(self._newest, pending.time)
            self._given.append(pending)
        self._arrived.set()

    def put_back(self, taken: Iterable[Pending]) -> None:
        """These are to be tried again, before all that wait."""
        again = list(taken)
        self._given[:0] = [each for each in again if not each.is_ours]
        self._ours.extendleft(each for each in reversed(again) if each.is_ours)
        self._sorted = False

    def failed(self, first: float, most: float) -> None:
        """Nothing goes for a while, which is twice as long after each failure."""
        self._pause = min(2 * self._pause or first, most)
        self._paused = clock.monotonic() + self._pause

    def went(self) -> None:
        """The store has answered."""
        self._pause = 0.0

    def lies_ahead(self, seconds: float) -> None:
        """The next free step comes near enough to the clock in so many seconds."""
        self._ours_from = clock.monotonic() + seconds

    def take_all(self) -> list[Pending]:
        """All that waits, for which the stream may be another one now."""
        taken = [*self._given, *self._ours]
        self._given.clear()
        self._ours.clear()
        self._ours_from = 0.0
        self._arrived.set()
        return taken

    def due(self, most: int, at_once: bool) -> list[Pending]:
        """Those that go to the store now, so many at most."""
        now = clock.monotonic()
        if self._paused > now and not at_once:
            return []
        if not self._sorted:
            self._given.sort(key=_time)
            self._sorted = True
        cut = min(most, len(self._given) if at_once else self._old_enough(now))
        taken, self._given = self._given[:cut], self._given[cut:]
        if self._ours_from <= now or at_once:
            taken += [self._ours.popleft() for _ in range(min(most - cut, len(self._ours)))]
        return taken

    def _old_enough(self, now: float) -> int:
        """How many of those with a time needn't wait for earlier ones."""
        lateness = self._lateness
        if not lateness:
            return len(self._given)
        cut = bisect_right(self._given, self._newest - lateness, key=_time)
        limit = now - lateness / SECOND
        return next((at for at in range(len(self._given), cut, -1) if self._given[at - 1].came <= limit), cut)

    async def change(self) -> None:
        """Waits until another reading comes, or one of those that wait may be due."""
        now = clock.monotonic()
        moments = [self._ours_from] * bool(self._ours)
        if self._given:
            moments.append(min(each.came for each in self._given) + self._lateness / SECOND)
        self._arrived.clear()
        with suppress(asyncio.TimeoutError):
            await asyncio.wait_for(self._arrived.wait(), max(0.001, self._paused - now, min(moments) - now))
        if self._lateness:
            await asyncio.sleep(GATHERS)

    def wake(self) -> None:
        """All that waits is due, since the service stops."""
        self._arrived.set()


def _time(pending: Pending) -> int:
    return pending.time
