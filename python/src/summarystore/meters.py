"""What is read off a meter: a counter, joined over its resets and overflows so that it rises.

A counter that fell was reset or ran over. From there on an offset is added, so that what is kept rises. What
the store holds says the last reading: the greatest value, less the offset that is in force. So the offsets
alone are kept beside the store, each with the time of the newest reading before it, and are on the disk
before the reading is. Where that reading isn't stored, since something died between the two, the newest time
of the store isn't later than that of the offset, and it isn't in force. So no moment loses consumption or
takes it twice.
"""

from __future__ import annotations

import logging
from collections.abc import Callable, Sequence
from typing import NamedTuple

from .codec import Codec, Through
from .description import Meter
from .errors import DescriptionError, MeterError
from .interval import Interval

log = logging.getLogger("summarystore")
KEPT = 16
"""So many offsets are kept beside those that are new: readings that are sent again are known by them."""
Numbers = Sequence[tuple[int, int]]


class Join(NamedTuple):
    """An offset, and the newest time before it: it holds for later ones."""

    after: int
    offset: int


Joins = tuple[Join, ...]


class Standing(NamedTuple):
    """What the store says of a counter: the newest time, and the greatest value. None of an empty one."""

    newest: int = -1
    greatest: int | None = None


class Counter:
    """Readings of a counter, and what is kept of them. `keep` brings new joins to the disk."""

    def __init__(self, name: str, standing: Standing, joins: Joins, overflow: int | None,
                 keep: Callable[[Joins], None]) -> None:
        self._name = name
        self._standing = standing
        self._overflow = overflow
        self._keep = keep
        # One that is later belongs to a reading that was never stored.
        self._joins = tuple(join for join in joins if join.after < standing.newest)[-KEPT:]
        self._newest, self._kept, self._offset = standing.newest, standing.greatest, self._offset_at(2**62)

    def rows(self, given: Numbers) -> Numbers:
        """What is kept of readings. All of them are taken, or none."""
        before = self._newest, self._kept, self._offset, self._joins
        try:
            found = [(time, self._taken(time, value)) for time, value in given]
            if self._joins != before[3]:
                self._keep(self._joins)
        except BaseException:
            self._newest, self._kept, self._offset, self._joins = before
            raise
        return found

    def _taken(self, time: int, value: int) -> int:
        if value < 0 or self._overflow is not None and value >= self._overflow:
            most = "" if self._overflow is None else f", and is less than {self._overflow} steps"
            raise MeterError(f"{value} steps aren't a reading of {self._name}: a counter isn't below 0{most}")
        if time <= self._newest:    # late, or sent again
            return value + self._offset_at(time)
        if self._kept is not None and value < self._kept - self._offset:
            self._join(value, self._kept)
        self._newest, self._kept = time, value + self._offset
        return self._kept

    def _offset_at(self, time: int) -> int:
        return next((join.offset for join in reversed(self._joins) if join.after < time), 0)

    def _join(self, value: int, kept: int) -> None:
        """A counter that fell ran over where that makes less than half of its range, and else it was reset:
        then it counts from 0."""
        last = kept - self._offset
        over = self._overflow is not None and 2 * (self._overflow - last + value) < self._overflow
        self._offset = self._offset + self._overflow if over and self._overflow else kept
        self._joins = (*self._joins, Join(self._newest, self._offset))
        log.info("counter joined: stream=%r from=%d to=%d how=%s", self._name, last, value,
                 "overflow" if over else "reset")


class CounterCodec(Through):
    """The codec of a counter while readings are taken: what it gives is what is kept."""

    def __init__(self, codec: Codec, counter: Counter) -> None:
        super().__init__(codec)
        self._counter = counter

    def rows(self, given: Sequence[tuple[object, object]]) -> Numbers:
        """Times and readings as what is kept of them."""
        return self._counter.rows(self._codec.rows(given))


def meter_of(codec: Codec, kind: str) -> Meter | None:
    """What is told of a meter of this kind. None of any other stream."""
    meter = None if codec.description is None else codec.description.meter
    return meter if meter is not None and meter.kind == kind else None


def must_be_counter(codec: Codec) -> None:
    """Refuses to ask a stream that isn't one by how much it rose."""
    if meter_of(codec, "counter") is None:
        raise DescriptionError(f"{codec.short} isn't a counter: create it with kind='counter'")


def must_not_count(codec: Codec, instead: str) -> None:
    """Refuses what brings readings to the store in a way that joins none."""
    if codec.description is not None and codec.description.meter is not None:
        raise DescriptionError(f"{codec.short} is a {codec.description.meter.kind}, whose readings aren't "
                               f"joined or added up here: {instead}")


def counting(codec: Codec, name: str, standing: Standing, keep: Callable[[Joins], None]) -> CounterCodec:
    """The codec of a counter, by what stands."""
    meter = meter_of(codec, "counter")
    assert meter is not None
    overflow = None if meter.overflow is None else codec.value(meter.overflow)
    joins = tuple(Join(*join) for join in meter.joins)
    return CounterCodec(codec, Counter(name, standing, joins, overflow, keep))


def increase_of(before: Interval, end: Interval, least: Interval) -> Interval:
    """By how much a counter rose: from the greatest value until one time to that until another.

    Where there is none until the first of them it is the first value, the least of all.
    """
    if end.none:
        return Interval.nothing()
    if before.none:
        before = least
    elif before.maybe_none:
        before = Interval(least.lo, before.hi)
    found = end - before
    return Interval(max(0, found.lo), max(0, found.hi), maybe_none=end.maybe_none)
