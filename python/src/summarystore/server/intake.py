"""The one door by which readings get into the store.

Whoever takes readings from a network hands them over here and waits for what became of them:

    from .intake import Incoming, Result

    outcome = await service.intake.append(Incoming("home/room/temperature", "21.5", source="mqtt"))
    if outcome.final:           # STORED, THERE or REFUSED: to send it again would change nothing
        acknowledge()

- `append` gives one `Outcome`, and `append_many` one for each reading, in order. They return when
  the fate of all of them is known, and not before: what is STORED is on the disk.
- Without room for all of them `BusyError` is raised, and while the store isn't open
  `UnavailableError`: nothing of it was taken then, and both say by `retry_after` after how many
  seconds it may be sent again. With `wait=True` they wait for room and for the store instead, so
  that who doesn't read on meanwhile slows its sender down. Then `UnavailableError` comes only when
  the service stops, and so does an outcome that isn't final.
- `hand_over` waits for room alone, and tells what became of the readings when that is known.
- Readings of one stream that wait are stored in the order of their times.
- The time is in nanoseconds since 1970, and is rounded down to the resolution of the stream. One
  that lies too far ahead of the clock is refused. None is for the time at which it came: then it is
  the service's, and the reading gets the next free step of the stream.
- The value is text, a whole number or a Decimal, and never a float.
- A caller that is cancelled takes nothing back: what it handed over is stored.
"""

from __future__ import annotations

import asyncio
import logging
import re
import time as clock
from collections import Counter
from collections.abc import Callable, Mapping, Sequence

from ..decimals import decimal_of
from ..errors import NotANumberError
from .counters import Counters
from .errors import BusyError, UnavailableError
from .events import Hub
from .lanes import SECOND, Batch, Incoming, Lane, Pending
from .mapping import Mappings, Route, UnmatchedNames, full_name
from .meaning import seconds_of
from .outcomes import AGAIN, IGNORED, STORED, TOO_FAR, TOO_MANY, Outcome, Result, Word, refused
from .recent import Recent
from .storing import Opened, Storing

__all__ = ["Incoming", "Intake", "Opened", "Outcome", "Result"]

log = logging.getLogger("summarystored")
BATCH = 4000
"""So many readings of a stream go to the store together, at most."""
FUTURE = 3600 * SECOND
"""So many nanoseconds a time may lie ahead of the clock, unless the configuration says otherwise."""
ANSWERS = 30.0
"""So many seconds a reading may wait whose sender waits for the answer, unless that says otherwise."""
AGAIN_AFTER = (0.1, 1.0)
"""Seconds until readings whose fate isn't known are tried again, first and at most."""
UNPRINTED = re.compile("[\\x00-\\x1f\\x7f-\\x9f\\u2028\\u2029"
                       "\\u061c\\u200e\\u200f\\u202a-\\u202e\\u2066-\\u2069\\ud800-\\udfff]")
"""What no name has: characters that end a line or control it, those that turn the direction of a text, and
halves of surrogates."""


class Intake(Storing):
    """Takes readings, and brings them into the store by streams."""

    def __init__(self, opened: Opened, mappings: Mappings, *, queue: int, longest_name: int = 512,
                 unmatched: UnmatchedNames | None = None, hub: Hub | None = None,
                 counters: Counters | None = None, future: int = FUTURE, answers: float = ANSWERS,
                 recent: Recent | None = None) -> None:
        super().__init__(opened, recent, hub, counters, future)
        self.mappings = mappings
        self.unmatched = UnmatchedNames(1000) if unmatched is None else unmatched
        self._most = queue
        self._longest_name = longest_name
        self._answers = answers
        self._lanes: dict[str, Lane] = {}
        self._tasks: set[asyncio.Task[None] | asyncio.Task[Sequence[Outcome]]] = set()
        self._released = asyncio.Event()
        self._closed = False
        self._ours = 0
        self.queued = 0
        """How many readings are under way."""

    @property
    def room(self) -> int:
        """How many more readings there is room for."""
        return self._most - self.queued

    @property
    def ahead(self) -> tuple[int, int]:
        """How many readings wait since their streams lie ahead of the clock, and how many streams do."""
        found = [lane.ahead for lane in self._lanes.values() if lane.ahead]
        return sum(found), len(found)

    async def append(self, reading: Incoming, *, wait: bool = False) -> Outcome:
        """Takes one reading, and says what became of it."""
        return (await self.append_many([reading], wait=wait))[0]

    async def append_many(self, readings: Sequence[Incoming], *, wait: bool = False
                          ) -> Sequence[Outcome]:
        """Takes readings, and says for each what became of it."""
        piece = max(1, self._most // 4)
        if wait and len(readings) > piece:
            found: list[Outcome] = []
            for at in range(0, len(readings), piece):
                found += await self.append_many(readings[at:at + piece], wait=True)
            return found
        if wait:
            await self._wait_for(len(readings))
        self._must_have_room(len(readings))
        if not readings:
            return ()
        done: asyncio.Future[Sequence[Outcome]] = asyncio.get_running_loop().create_future()
        self._enter(readings, lambda found: None if done.done() else done.set_result(found),
                    None if wait else clock.monotonic() + self._answers)
        return await done

    async def hand_over(self, readings: Sequence[Incoming], done: Callable[[Sequence[Outcome]], None]
                        ) -> None:
        """Takes readings as soon as there is room for them. `done` is told what became of them."""
        await self._wait_for(len(readings))
        self._must_have_room(len(readings))
        self._enter(readings, done, None)

    def _enter(self, readings: Sequence[Incoming], done: Callable[[Sequence[Outcome]], None],
               until: float | None) -> None:
        batch = Batch(len(readings), done)
        self.queued += len(readings)
        self._ours += sum(reading.time is None for reading in readings)
        now, came = clock.time_ns(), clock.monotonic()
        for at, reading in enumerate(readings):
            time = now if reading.time is None else reading.time
            self._take(Pending(reading, time, batch, at, came, until), now)

    async def close(self) -> None:
        """Takes no more, and waits until all that was taken has its fate."""
        self._closed = True
        self._released.set()
        for lane in self._lanes.values():
            lane.wake()
        while self._tasks:
            await asyncio.wait(self._tasks)
        self._recent.close()

    def moved(self, name: str) -> None:
        """A stream was dropped, has another name, or another takes its readings: what waits goes anew."""
        if not self.streams.stands(name):
            self._recent.forget(name)
        lane = self._lanes.get(name)
        for pending in () if lane is None else lane.take_all():
            self._take(pending, clock.time_ns())

    def remap(self, mappings: Mappings) -> None:
        """The mapping was read anew. What is under way goes by the old one."""
        self.mappings = mappings
        self.streams.try_again()
        self.unmatched.clear()

    def _must_have_room(self, count: int) -> None:
        if self._closed:
            raise UnavailableError("the service is stopping")
        if self._opened.taking is None:
            raise UnavailableError(self._opened.why)
        if count > self.room:
            self.counters.add("busy", "queue")
            raise BusyError(f"{self.queued} readings are under way, and there is room for {self.room} more")

    async def _wait_for(self, count: int) -> None:
        await self._opened.wait_open()
        while count > self.room and not self._closed:
            self._released.clear()
            await self._released.wait()
            await self._opened.wait_open()

    def _take(self, pending: Pending, now: int) -> None:
        """Puts a reading into the lane of its stream, or refuses it at once."""
        route = pending.reading.route or self._route(pending.reading, now)
        if not isinstance(route, Outcome) and pending.time > now + self._future:
            route = self._too_new(pending.time)
        if isinstance(route, Outcome):
            self._settle([(pending, route)])
            return
        if isinstance(pending.reading.value, Word) and (wrong := _no_number(pending.reading.value, route)):
            self._settle([(pending, wrong)])
            return
        route = self._current(route)
        lane = self._lanes.get(route.stream)
        if lane is None:
            lane = self._lanes[route.stream] = Lane(route)
            task = asyncio.get_running_loop().create_task(self._drain(lane))
            self._tasks.add(task)
            task.add_done_callback(self._tasks.discard)
        if pending.is_ours and lane.is_too_long(pending.until):
            self._settle([(pending, TOO_FAR)])
        elif pending.is_ours and lane.ahead and self._ours > self._most // 2:
            self._settle([(pending, TOO_MANY)])
        else:
            lane.put(pending)

    def _too_new(self, time: int) -> Outcome:
        reason = (f"the time {seconds_of(time)} s lies more than {seconds_of(self._future)} s ahead of the "
                  "clock: is it in another unit?")
        return Outcome(Result.REFUSED, "future", reason)

    def mistake_of(self, name: str) -> Outcome | None:
        """Why a stream can't have a name. None where it can."""
        if not name or len(name) > self._longest_name:
            return Outcome(Result.REFUSED, "name", f"a name has 1 to {self._longest_name} characters")
        if UNPRINTED.search(name):
            return Outcome(Result.REFUSED, "name", "a name has no control characters")
        return None

    def _route(self, reading: Incoming, now: int) -> Route | Outcome:
        """The stream of a reading by the mapping, or else the one that stands with its name."""
        name = full_name(reading.name, reading.tags)
        mistake = self.mistake_of(name)
        if mistake is not None:
            return mistake
        route = self.mappings.route(reading.name, reading.tags, reading.source)
        if route is not None:
            return IGNORED if route.mapping is not None and route.mapping.ignore else route
        if self.streams.stands(name):
            return Route(name)
        self.counters.add("unmatched", reading.source)
        if self.unmatched.add(name, reading.source, now):
            log.warning("no mapping matches: name=%r source=%s", name, reading.source)
        reason = f"no mapping matches {name!r}, and no stream has that name"
        return Outcome(Result.REFUSED, "unmatched", reason)

    async def _drain(self, lane: Lane) -> None:
        """Brings what waits in a lane to the store, until nothing does."""
        try:
            while lane:
                taken = lane.due(BATCH, self._closed)
                if not taken:
                    await lane.change()
                    continue
                async with self.streams.alone(lane.route.stream):
                    moved = await self._moves(lane.route)
                    found = [AGAIN] * len(taken) if moved else await self._outcomes(lane, taken)
                self.counters.took("append", clock.monotonic() - taken[0].came)
                self._end(lane, taken, found)
        finally:
            del self._lanes[lane.route.stream]

    def _end(self, lane: Lane, taken: Sequence[Pending], found: Sequence[Outcome]) -> None:
        """Tells those that have their fate, and puts the others back."""
        settled: list[tuple[Pending, Outcome]] = []
        again: list[Pending] = []
        room = max(1, self._most // 2 - self._ours + len(taken))
        for pending, outcome in zip(taken, found):
            if outcome is STORED or self._closed or not self._is_tried_again(lane, pending, outcome):
                settled.append((pending, outcome))
            elif outcome is TOO_FAR and len(again) >= room:
                settled.append((pending, TOO_MANY))
            else:
                again.append(pending)
        if again and self._current(lane.route) is not lane.route:
            for pending in again:       # another stream takes the readings since they were taken out
                self._take(pending, clock.time_ns())
        else:
            lane.put_back(again)
        if again and not all(outcome.final or outcome is TOO_FAR for outcome in found):
            lane.failed(*AGAIN_AFTER)
        self._settle(settled)

    def _is_tried_again(self, lane: Lane, pending: Pending, outcome: Outcome) -> bool:
        if outcome.waits:
            return not lane.is_too_long(pending.until)
        return pending.until is None and not outcome.final

    def _settle(self, settled: Sequence[tuple[Pending, Outcome]]) -> None:
        """Readings have their fate: those who wait for it are told, and for room."""
        counted: Counter[tuple[str, Result, str]] = Counter()
        for pending, outcome in settled:
            self._ours -= pending.is_ours
            pending.batch.settle(pending.at, outcome)
            counted[pending.reading.source, outcome.result, outcome.code] += 1
        self._count(counted)

    def _count(self, counted: Mapping[tuple[str, Result, str], int]) -> None:
        for (source, result, code), count in counted.items():
            self.counters.add("readings", source, result.value, count=count)
            if result is Result.REFUSED:
                self.counters.add("refused", source, code, count=count)
            self.queued -= count
        self._released.set()


def _no_number(value: Word, route: Route) -> Outcome | None:
    """Why a text or a truth value is no reading. No stream is made for one that isn't."""
    if route.mapping is not None and value in route.mapping.words:
        return None
    try:
        decimal_of(value)
    except NotANumberError as error:
        return refused(error)
    return None
