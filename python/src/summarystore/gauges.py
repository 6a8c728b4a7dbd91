"""What a gauge adds up to: beside its readings a stream of increments, each a value times the time it stood.

The increment of a reading goes to the program just before the reading, and a crash leaves some first of what
was sent. So one increment more may stand than readings, and what it added up is taken off the next one. It is
kept beside the store before that goes: a second crash may leave another one. A reading that isn't later than
such an increment, and would have another one, is late. So the increments are those of the readings that are
kept, whatever dies.

Increments are whole numbers: steps of the value times steps of time, or halves of that by the trapezoid.
"""

from __future__ import annotations

from collections.abc import Callable, Sequence
from decimal import Decimal
from typing import NamedTuple

from . import calls, wire
from .calls import Call
from .codec import Codec, PlainCodec, Through, Translator
from .decimals import EXACT, Number
from .description import NANOSECONDS, RULES, Description, Meter
from .errors import DescriptionError, LateError, MeterError
from .meters import Join, Joins, meter_of
from .records import Stored
from .wire import GREATEST_VALUE, LEAST_VALUE, Reply

BESIDE = "~integral"
"""What stands behind the name of a gauge in that of the stream of its increments."""
Triple = tuple[int, int, int]
"""A time, a value and an increment."""


class GaugeStanding(NamedTuple):
    """What the store says: the last time and the newest value, and the newest increment with its time."""

    newest: int = -1
    value: int | None = None
    until: int = -1
    added: int = 0

    def ahead(self, joins: Joins) -> int:
        """What was added up behind the last time. `joins` says what was at an earlier look."""
        if self.until <= self.newest:
            return 0
        before = [join for join in joins if self.newest < join.after <= self.until]
        if before and before[-1].after == self.until:
            return before[-1].offset
        return self.added + (before[-1].offset if before else 0)


class Gauge:
    """The readings of a gauge, and their increments. `keep` brings to the disk what was added up ahead."""

    def __init__(self, name: str, standing: GaugeStanding, rule: str, joins: Joins = (),
                 keep: Callable[[Joins], None] | None = None) -> None:
        self._name = name
        self._rule = rule
        self._standing = standing._replace(added=standing.ahead(joins))
        found = (Join(standing.until, self._standing.added),)
        if keep is not None and standing.until > standing.newest and joins[-1:] != found:
            keep(found)

    def rows(self, given: Sequence[tuple[int, int]]) -> Sequence[Triple]:
        """Readings with their increments. All of them are taken, or none."""
        before = self._standing
        try:
            return [self._taken(time, value) for time, value in given]
        except BaseException:
            self._standing = before
            raise

    def _taken(self, time: int, value: int) -> Triple:
        newest, stood, until, ahead = self._standing
        if time <= newest:
            raise LateError("TIME", self._name)
        added = self._area(stood, value, time - newest) - ahead
        if time < until or time == until and added:
            raise LateError("TIME", self._name)
        if not LEAST_VALUE <= added <= GREATEST_VALUE:
            raise MeterError(f"{self._name}: {stood} steps for {time - newest} steps of time are more than "
                             "an increment takes: a coarser scale or time takes more")
        self._standing = GaugeStanding(time, value, time)   # nothing is ahead
        return time, value, added

    def _area(self, stood: int | None, value: int, length: int) -> int:
        """What was added up since the reading before. The first one has nothing behind it."""
        if stood is None:
            return 0
        return (stood if self._rule == "step" else stood + value) * length


class GaugeCodec(Through):
    """The codec of a gauge while readings are taken: what it gives are readings and their increments."""

    def __init__(self, codec: Codec, gauge: Gauge, beside: str) -> None:
        super().__init__(codec)
        self._gauge, self._beside = gauge, beside

    def rows(self, given: Sequence[tuple[object, object]]) -> Sequence[tuple[int, int]]:
        """The readings alone."""
        return [(time, value) for time, value, _ in self._gauge.rows(self._codec.rows(given))]

    def readings(self, given: Sequence[tuple[object, object]]) -> wire.Paired:
        """Readings, each behind its increment."""
        return wire.paired((self._beside, self.short), self._gauge.rows(self._codec.rows(given)))

    def append(self, time: object, value: object) -> Call[Stored]:
        """Takes one reading."""
        (at, number, added), = self._gauge.rows(self._codec.rows([(time, value)]))
        lines = [wire.append(self._beside, at, added), wire.append(self.short, at, number)]
        return Last(lines, lambda replies: wire.stored_of(replies[0]))


class Last(Call[Stored]):
    """Lines of which the last one says what became of them."""

    def answer(self, replies: Sequence[Reply]) -> Stored:
        """What its reply means."""
        return Call(self.lines[-1:], self.result).answer(replies[-1:])


def gauge_of(description: Description | None) -> Meter | None:
    """What is told of a gauge. None of any other stream."""
    meter = None if description is None else description.meter
    return meter if meter is not None and meter.kind == "gauge" else None


def must_be_gauge(codec: Codec) -> tuple[Description, Meter, str]:
    """How a gauge is read, what is told of it, and the short name of the stream of its increments."""
    meter = meter_of(codec, "gauge")
    if meter is None or codec.description is None or meter.beside is None:
        raise DescriptionError(f"{codec.short} isn't a gauge: create it with kind='gauge', integrate='h'")
    return codec.description, meter, meter.beside


def must_stand_alone(target: str | Sequence[object]) -> None:
    """Refuses a target whose newest windows hold several values: what the newest one was has to be known."""
    words = target.split() if isinstance(target, str) else [str(word) for word in target]
    if len(words) > 1 and words[-1] != "1":
        raise DescriptionError("a gauge has a target whose newest windows hold one value each: its last "
                               f"number is 1, and not {words[-1]}")


def increments_of(description: Description) -> Description:
    """How the increments of a gauge are read: in its unit times seconds."""
    meter = gauge_of(description)
    assert meter is not None
    scale = EXACT.multiply(Decimal(description.scale), Decimal(seconds(description, 1)))
    if meter.rule == "trapezoid":
        scale = EXACT.multiply(scale, Decimal("0.5"))
    unit = None if description.unit is None else f"{description.unit}·s"
    return Description(scale, description.time, description.since, unit)


def with_increments(description: Description, beside: str) -> Description:
    """The description of a gauge whose increments are in this stream."""
    assert description.meter is not None
    return description._replace(meter=description.meter._replace(beside=beside))


def seconds(description: Description, counts: int) -> Number:
    """So many steps of the times of a stream in seconds."""
    whole, rest = divmod(counts * NANOSECONDS[description.time], 10**9)
    return whole if not rest else Decimal(counts * NANOSECONDS[description.time]).scaleb(-9, EXACT)


def standing_of(codec: Codec) -> Call[GaugeStanding]:
    """What stands of a gauge and of its increments, of one moment."""
    _, _, beside = must_be_gauge(codec)
    readings, added = calls.last_numbers(codec), calls.last_numbers(PlainCodec(beside))

    def result(replies: Sequence[Reply]) -> GaugeStanding:
        newest, last = readings.result(replies[:1]), added.result(replies[1:])
        time, until = (found[0] if found else -1 for found in (newest, last))
        return GaugeStanding(time, newest[2] if len(newest) == 4 else None, until,
                             last[2] if len(last) == 4 else 0)
    return Call([*readings.lines, *added.lines], result)


def taking(codec: Codec, name: str, standing: GaugeStanding, keep: Callable[[Joins], None]) -> GaugeCodec:
    """The codec of a gauge, by what stands."""
    _, meter, beside = must_be_gauge(codec)
    joins = tuple(Join(*join) for join in meter.joins)
    return GaugeCodec(codec, Gauge(name, standing, meter.rule or RULES[0], joins, keep), beside)


def increments_name(translator: Translator, codec: Codec) -> str | None:
    """The name of the stream of a gauge's increments. None of any other stream, and where none stands."""
    meter = meter_of(codec, "gauge")
    beside = None if meter is None or meter.beside is None else translator.name_of(meter.beside)
    return None if meter is None or beside == meter.beside else beside
