"""Some readings of one stream on their way to the store, and what becomes of each.

The store takes a reading whose time is later than all before, and answers in order. So where its
program ends, the last time that stands afterwards says which of those without an answer are stored:
nobody else writes to the stream meanwhile.

A reading whose time is the service's gets the step in which it came, or the next that is free. It is
never late: where its step was taken it gets another.
"""

from __future__ import annotations

import asyncio
from collections.abc import Mapping, Sequence
from typing import NamedTuple

from .. import aio
from ..errors import LateError, ProcessEndedError, SummaryStoreError, UnknownStreamError
from ..interval import Presence
from .meaning import Meaning
from .outcomes import AGAIN, IGNORED, STORED, THERE, TOO_FAR, Outcome, Result, refused
from .recent import Recent
from .settings import IGNORE

Row = tuple[int, object]
AHEAD = 60 * 10**9
"""So many nanoseconds a time that is the service's may lie ahead of the clock."""


class Given(NamedTuple):
    """A reading of the stream: its time in nanoseconds, or when it came where its time is the service's,
    and its value as it came. `step` is the one that it got in a try whose end isn't known."""

    time: int
    value: object
    is_ours: bool = False
    step: int | None = None


class Delivery:
    """Readings of one stream, in the order in which they go. `words` are numbers for words, or `IGNORE`.

    `newest` is the last time of the stream before, as a count, and later the one after. `values` says how
    many values it has had before, and later after, where that is known. `now` is in nanoseconds.
    """

    def __init__(self, stream: str, meaning: Meaning, words: Mapping[str, str], given: Sequence[Given],
                 newest: int, recent: Recent, now: int, values: int | None = None) -> None:
        self._stream = stream
        self._meaning = meaning
        self._words = words
        self._recent = recent
        self._given = given
        self.newest = newest
        self._free = newest + 1
        self._limit = meaning.last(now + AHEAD)
        self.values = values
        self._stored: list[Row] = []
        self._found: list[Outcome | None] = [None] * len(given)
        self._places: dict[int, int] = {}
        self.unknown_stream = self.too_far = self.again = False
        self.rows = [self._row(at, each) for at, each in enumerate(given)]
        self._late: list[int] = []
        self._open: list[int] = []
        self._acknowledged = 0
        self.ended: Exception | None = None

    def _row(self, at: int, given: Given) -> Row:
        """The row of a reading, which is refused here where it is none of the stream."""
        value = given.value
        if isinstance(value, str) and value in self._words:
            value = self._words[value]
            if value == IGNORE:
                self._found[at] = IGNORED
                return 0, value
        row = (0, value)
        try:
            value = self._meaning.value(value)
            row = self._count(at, given), value
        except SummaryStoreError as error:
            self._found[at] = refused(error)
        self._places[id(row)] = at
        return row

    def _count(self, at: int, given: Given) -> int:
        """The step of a reading. One of ours waits where its own lies too far ahead of the clock."""
        count = self._meaning.count(given.time)
        if given.is_ours:
            count = max(count, self._free) if given.step is None else given.step
            if count > self._limit:
                self._found[at] = TOO_FAR
                self.too_far = True
                return count
        self._free = max(self._free, count + 1)
        return count

    @property
    def free_at(self) -> int:
        """When the next free step is near enough to the clock, in nanoseconds."""
        return self._meaning.nanoseconds(self._free) - AHEAD

    async def send(self, store: aio.Store) -> Sequence[Outcome]:
        """Sends them, and says what became of each."""
        rows = [row for row, found in zip(self.rows, self._found) if found is None]
        self._recent.begin(self._stream, self.values, self.newest, rows)
        try:
            self._acknowledged = await store.append_many(self._stream, rows, refused=self._refused)
        except ProcessEndedError as error:
            self.ended = error
            self._acknowledged = error.acknowledged
            self._open = [self._places[id(row)] for row in error.unknown]
        except UnknownStreamError as error:
            self.unknown_stream = True
            self._found = [refused(error) if found is None else found for found in self._found]
        except (SummaryStoreError, OSError) as error:       # before anything was sent
            self.ended = error
        self._give_fates()
        if self._open:
            await self._find_out(store)
        self._tell_stored()
        if self._late:
            await self._look_at_late(store)
        return [STORED if found is None else found for found in self._found]

    def _refused(self, row: object, error: Exception) -> None:
        """The store refused a row, or it is none of the stream."""
        at = self._places[id(row)]
        self.unknown_stream = self.unknown_stream or isinstance(error, UnknownStreamError)
        if isinstance(error, LateError):
            self._is_late(at)
        else:
            self._found[at] = refused(error)

    def _is_late(self, at: int) -> None:
        self._late.append(at)
        is_ours = self._given[at].is_ours
        self.again = self.again or is_ours
        self._found[at] = AGAIN if is_ours else refused(LateError("TIME", self._stream))

    def _give_fates(self) -> None:
        """Those that were acknowledged come first. Of the others those that are open were sent."""
        for at in self._open:
            self._found[at] = Outcome(Result.UNKNOWN, "interrupted", str(self.ended))
        left = self._acknowledged
        for at, found in enumerate(self._found):
            if found is None and left > 0:
                left -= 1
                self._is_stored(at)
            elif found is None:
                self._found[at] = self._not_stored()

    def _not_stored(self) -> Outcome:
        return Outcome(Result.NOT_STORED, "interrupted", str(self.ended))

    def _is_stored(self, at: int) -> None:
        count, value = self.rows[at]
        self._found[at] = STORED
        self.newest = max(self.newest, count)
        self._stored.append((count, value))

    def _tell_stored(self) -> None:
        """What was stored is known from now on, where the fate of all is."""
        if any(found is not None and found.result is Result.UNKNOWN for found in self._found):
            self.values = None
            return
        if self.values is not None:
            self.values += len(self._stored)
        self._recent.stored(self._stream, self._stored, self.values, self.newest)

    async def _find_out(self, store: aio.Store) -> None:
        """Looks in the store, which is opened again, for those of which it isn't known."""
        try:
            last = await store.last(self._stream)
        except (SummaryStoreError, OSError):
            return
        stands = -1 if last is None else self._meaning.count_of(last.time)
        for at in self._open:
            count, _ = self.rows[at]
            if count <= self.newest:
                self._is_late(at)
            elif count <= stands:
                self._is_stored(at)
            else:
                self._found[at] = self._not_stored()

    async def _look_at_late(self, store: aio.Store) -> None:
        """A reading that is late may be one that was sent again: then its value stands at its time. One
        of ours was sent again where it has the step of an earlier try."""
        try:
            last = await store.last(self._stream)
            stands = await asyncio.gather(*(self._stands(store, at) for at in self._late))
        except (SummaryStoreError, OSError):
            return      # that it is late stays true
        newest = None if last is None else last.time
        for at, presence in zip(self._late, stands):
            given = self._given[at]
            if presence is Presence.PRESENT and (not given.is_ours or given.step is not None):
                self._found[at] = THERE
            elif not given.is_ours:
                told = "" if presence is Presence.ABSENT else "; it may be one that was sent again"
                reason = f"the time isn't later than the newest of the stream, {newest}{told}"
                self._found[at] = Outcome(Result.REFUSED, "late", reason)

    async def _stands(self, store: aio.Store, at: int) -> Presence:
        """Whether a reading stands, by those that were stored last, or else by the store."""
        count, value = self.rows[at]
        known = self._recent.value(self._stream, count)
        if known is not None:
            return Presence(("absent", "present")[self._meaning.shown(known) == self._meaning.shown(value)])
        ((_, kept),) = await store.kept(self._stream, [(count, value)])
        return await store.has(self._stream, kept, count, count)
