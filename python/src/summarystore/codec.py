"""How what a person gives becomes the whole numbers of a stream, and back: the interface, and the
plain form of it, which gives and takes whole numbers as they are."""

from __future__ import annotations

import datetime
from collections.abc import Callable, Container, Iterable, Sequence
from fractions import Fraction
from typing import NamedTuple, Protocol, cast

from .calendars import Calendar, Counting
from .decimals import Number, shortened
from .description import Description
from .errors import DescriptionError, NumberError, SummaryStoreError, UnknownStreamError
from .interval import Interval
from .records import Stream, Time
from .wire import LAST_TIME, stream_of, whole


class Codec(Protocol):
    """How one stream's times and values are read and shown."""

    short: str
    description: Description | None
    told: set[str]
    """What was told of the stream, and isn't told again."""

    def time(self, given: object) -> int:
        """A time of the stream."""

    def begin(self, given: object) -> int:
        """The first time of a range. None is the first of all."""

    def end(self, given: object) -> int:
        """The last time of a range. None is the last of all."""

    def range_of(self, first: object, last: object) -> tuple[int, int]:
        """The first and the last time of a range, of which `now` is one moment."""

    def step(self, given: object) -> int:
        """A span of time."""

    def value(self, given: object) -> int:
        """A value."""

    def rows(self, given: Sequence[tuple[object, object]]) -> Sequence[tuple[int, int]]:
        """Times and values together."""

    def now(self) -> int:
        """The present time."""

    def time_back(self, number: int) -> Time:
        """A time as it is shown."""

    def value_back(self, number: int) -> Number:
        """A value, or a sum of values, as it is shown."""

    def interval_back(self, kind: str, interval: Interval) -> Interval:
        """An answer as it is shown."""

    def ratio_back(self, ratio: Fraction, rounding: str) -> Number:
        """A mean of values as it is shown, rounded where it has many digits more than the scale."""

    def in_zone(self, zone: str | datetime.tzinfo) -> Codec:
        """The same, with times of this zone."""

    def calendar(self, step: object) -> Calendar | None:
        """The calendar that a step asks for. None where it is a span of time."""

    def counting(self) -> Counting:
        """How it counts."""


class Change(NamedTuple):
    """How a stream is to be read: one that is to be made, or one that stands."""

    name: str
    description: Description | None
    stands: bool = False


class Translator(Protocol):
    """The streams of a store by the names that people use."""

    lists: bool
    """Whether it has to be told which streams stand when a store is opened."""

    def learn(self, rows: Sequence[str]) -> None:
        """Takes the rows of `list`."""

    def codec(self, name: str) -> Codec:
        """That of the stream with this name, as far as it is known."""

    def declare(self, name: str, description: Description | None) -> Codec:
        """Keeps how a stream is to be read, before it is made."""

    def keep(self, changes: Sequence[Change]) -> Sequence[Codec | Exception]:
        """Keeps how some are to be read, by one write. What is refused is told in its place."""

    def made(self, name: str, codec: Codec) -> None:
        """The stream was made."""

    def unmade(self, name: str, codec: Codec) -> None:
        """The stream wasn't made."""

    def removed(self, name: str) -> None:
        """The stream was dropped."""

    def describe(self, name: str, description: Description) -> None:
        """Changes what isn't the meaning of a stream's numbers."""

    def rename(self, name: str, new: str) -> None:
        """Gives a described stream another name."""

    def keep_joins(self, name: str, joins: Sequence[tuple[int, int]]) -> None:
        """Brings the joins of a counter to the disk."""

    def name_of(self, short: str) -> str:
        """The name that people use for one of the program's."""


class PlainCodec:
    """Whole numbers, as the program has them."""

    description: Description | None = None

    def __init__(self, short: str, standing: Container[str] | None = None) -> None:
        self.short = short
        self.told: set[str] = set()
        self._standing = standing

    def whole(self, given: object) -> int:
        """A whole number. Where it is none, and no such stream stands, that is said instead."""
        try:
            return whole(given)
        except NumberError:
            if self._standing is not None and self.short not in self._standing:
                raise UnknownStreamError("UNKNOWN", self.short) from None
            raise

    def time(self, given: object) -> int:
        """A whole number."""
        return self.whole(given)

    def begin(self, given: object) -> int:
        """A whole number, or 0."""
        return 0 if given is None else self.whole(given)

    def end(self, given: object) -> int:
        """A whole number, or 2^62."""
        return LAST_TIME if given is None else self.whole(given)

    def range_of(self, first: object, last: object) -> tuple[int, int]:
        """Whole numbers, or 0 and 2^62."""
        return self.begin(first), self.end(last)

    def step(self, given: object) -> int:
        """A whole number."""
        return self.whole(given)

    def value(self, given: object) -> int:
        """A whole number."""
        return self.whole(given)

    def rows(self, given: Sequence[tuple[object, object]]) -> Sequence[tuple[int, int]]:
        """As they are: whoever writes the lines sees whether many are whole numbers. One is read here."""
        if len(given) == 1:
            return [(self.time(time), self.value(value)) for time, value in given]
        return cast("Sequence[tuple[int, int]]", given)

    def now(self) -> int:
        """Not known: what the times count isn't told."""
        raise DescriptionError(f"{self.short} has no description, so `now` isn't a time of it")

    def time_back(self, number: int) -> Time:
        """The number."""
        return number

    def value_back(self, number: int) -> Number:
        """The number."""
        return number

    def interval_back(self, kind: str, interval: Interval) -> Interval:
        """The interval."""
        return interval

    def ratio_back(self, ratio: Fraction, rounding: str) -> Number:
        """A decimal of at most 12 digits behind the point."""
        return shortened(ratio, 0, rounding)

    def in_zone(self, zone: str | datetime.tzinfo) -> Codec:
        """Not known: what the times count isn't told."""
        raise DescriptionError(f"{self.short} has no description, so it has no days of a zone")

    def calendar(self, step: object) -> Calendar | None:
        """None: a step is a whole number."""
        return None

    def counting(self) -> Counting:
        """Counts alone."""
        return Counting(0, 1)


class Through:
    """A codec that is another one, but for what a class has by itself."""

    def __init__(self, codec: Codec) -> None:
        self.short, self.description, self.told = codec.short, codec.description, codec.told
        self.time, self.begin, self.end, self.range_of = codec.time, codec.begin, codec.end, codec.range_of
        self.step, self.now, self.value = codec.step, codec.now, codec.value
        self.time_back, self.value_back = codec.time_back, codec.value_back
        self.interval_back, self.ratio_back = codec.interval_back, codec.ratio_back
        self.in_zone, self.calendar, self.counting = codec.in_zone, codec.calendar, codec.counting
        self._codec = codec


class Plain:
    """Names as the program has them."""

    lists = False

    def learn(self, rows: Sequence[str]) -> None:
        """Needs nothing."""

    def codec(self, name: str) -> Codec:
        """Whole numbers."""
        return PlainCodec(name)

    def declare(self, name: str, description: Description | None) -> Codec:
        """Takes no description."""
        if description is not None:
            raise DescriptionError("a store of whole numbers keeps no descriptions: summarystore.open does")
        return PlainCodec(name)

    def keep(self, changes: Sequence[Change]) -> Sequence[Codec | Exception]:
        """Takes no description."""
        return each_of(lambda change: self.declare(change.name, change.description), changes)

    def made(self, name: str, codec: Codec) -> None:
        """Needs nothing."""

    def unmade(self, name: str, codec: Codec) -> None:
        """Needs nothing."""

    def removed(self, name: str) -> None:
        """Needs nothing."""

    def describe(self, name: str, description: Description) -> None:
        """Takes no description."""
        self.declare(name, description)

    def rename(self, name: str, new: str) -> None:
        """Names are those of the program."""
        raise DescriptionError("a store of whole numbers keeps its names: summarystore.open has others")

    def keep_joins(self, name: str, joins: Sequence[tuple[int, int]]) -> None:
        """Has no counters."""

    def name_of(self, short: str) -> str:
        """The name."""
        return short


def each_of(judge: Callable[[Change], Codec], changes: Sequence[Change]) -> Sequence[Codec | Exception]:
    """What comes of each change, or why it is refused."""
    def of(change: Change) -> Codec | Exception:
        try:
            return judge(change)
        except (SummaryStoreError, ValueError) as error:
            return error
    return [of(change) for change in changes]


def pairs(rows: object) -> Iterable[tuple[object, object]]:
    """Rows of times and values: pairs, or what has `items`, as a dict or a pandas Series."""
    items = getattr(rows, "items", None)
    found = items() if callable(items) else rows
    if not isinstance(found, Iterable):
        raise TypeError(f"{rows!r} isn't rows of a time and a value")
    return found


def codec_of(translator: Translator, name: str, zone: str | datetime.tzinfo | None) -> Codec:
    """That of a stream, with times of a zone where one is given."""
    codec = translator.codec(name)
    return codec if zone is None else codec.in_zone(zone)


def streams_of(rows: Sequence[str]) -> list[Stream]:
    """The rows of `list`."""
    return [stream_of(row) for row in rows]
