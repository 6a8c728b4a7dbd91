"""How the whole numbers of a stream are read: its scale, its times, and what belongs to it."""

from __future__ import annotations

import datetime
from collections.abc import Mapping
from decimal import ROUND_CEILING, ROUND_FLOOR, ROUND_HALF_EVEN, ROUND_HALF_UP
from typing import NamedTuple, TypedDict

from .decimals import Number, exact
from .errors import DescriptionError

NANOSECONDS = {"ns": 1, "us": 10**3, "ms": 10**6, "s": 10**9, "minute": 60 * 10**9,
               "hour": 3600 * 10**9, "day": 86400 * 10**9}
"""How long one step of each resolution is."""

ROUNDINGS = {"half-even": ROUND_HALF_EVEN, "half-up": ROUND_HALF_UP, "floor": ROUND_FLOOR,
             "ceiling": ROUND_CEILING}
METERS = ("counter", "gauge")
"""What the readings of a stream may be of."""
SPANS = {"s": 1, "min": 60, "h": 3600, "d": 86400}
"""Over what a gauge is integrated, in seconds."""
RULES = ("step", "trapezoid")
"""How a value of a gauge stands: until the next one, or in a straight line to it."""
EPOCH = datetime.date(1970, 1, 1)


class Meter(NamedTuple):
    """What the readings of a stream are of: a counter with what is told of it, and the joins so far; or a
    gauge, over what and by which rule it is integrated, and the short name of the stream of its increments.
    """

    kind: str
    overflow: Number | None = None
    joins: tuple[tuple[int, int], ...] = ()
    integrate: str | None = None
    rule: str | None = None
    beside: str | None = None


class Description(NamedTuple):
    """How a stream is read. A value is a whole number times `scale`; a time counts from `since`."""

    scale: Number = 1
    time: str = "s"
    since: datetime.date = EPOCH
    unit: str | None = None
    labels: Mapping[str, str] = {}
    rounding: str | None = None
    meter: Meter | None = None


def description_of(*, scale: object | None = None, time: str | None = None,
                   since: datetime.date | str | None = None, unit: str | None = None,
                   labels: Mapping[str, str] | None = None, rounding: str | None = None,
                   kind: str | None = None, overflow: object | None = None, integrate: str | None = None,
                   rule: str | None = None) -> Description | None:
    """A description of what was given, or None where nothing was."""
    given = (scale, time, since, unit, labels, rounding, kind, overflow, integrate, rule)
    if all(word is None for word in given):
        return None
    found = 1 if scale is None else exact(scale)
    if found <= 0:
        raise DescriptionError(f"a scale is more than 0: {scale}")
    if time is not None and time not in NANOSECONDS:
        raise DescriptionError(f"no resolution of times: {time}; there are {', '.join(NANOSECONDS)}")
    if rounding is not None and rounding not in ROUNDINGS:
        raise DescriptionError(f"no rounding: {rounding}; there are {', '.join(ROUNDINGS)}")
    texts = [unit or "", *(text for label in (labels or {}).items() for text in label)]
    if not all(isinstance(text, str) and is_text(text) for text in texts):
        raise DescriptionError(f"a unit and labels are text: {unit!r}, {labels!r}")
    return Description(found, time or "s", _day(since), unit, dict(labels or {}), rounding,
                       _meter(kind, overflow, integrate, rule))


def _meter(kind: str | None, overflow: object | None, integrate: str | None, rule: str | None
           ) -> Meter | None:
    if kind is not None and kind not in METERS:
        raise DescriptionError(f"no kind of readings: {kind!r}; there are {', '.join(METERS)}")
    if kind == "gauge" or integrate is not None or rule is not None:
        return _gauge(kind, overflow, integrate, rule or RULES[0])
    if overflow is None:
        return None if kind is None else Meter(kind)
    if kind != "counter":
        raise DescriptionError("what overflows is a counter: kind='counter'")
    if exact(overflow) <= 0:
        raise DescriptionError(f"a counter overflows at more than 0: {overflow}")
    return Meter(kind, exact(overflow))


def _gauge(kind: str | None, overflow: object | None, integrate: str | None, rule: str) -> Meter:
    if kind != "gauge" or overflow is not None:
        raise DescriptionError("what is integrated is a gauge: kind='gauge', and it has no overflow")
    if integrate not in SPANS:
        raise DescriptionError(f"a gauge is integrated over one of {', '.join(SPANS)}, as integrate='h', and "
                               f"not {integrate!r}")
    if rule not in RULES:
        raise DescriptionError(f"the rule is one of {', '.join(RULES)}, and not {rule!r}")
    return Meter(kind, integrate=integrate, rule=rule)


def is_text(text: str) -> bool:
    """Whether it can be written to a file: half of a pair of UTF-16 can't."""
    try:
        text.encode("utf-8")
    except UnicodeEncodeError:
        return False
    return True


def changed(known: Description, unit: str | None, labels: Mapping[str, str] | None,
            rounding: str | None) -> Description:
    """A description with what is given changed."""
    found = description_of(unit=unit, labels=labels, rounding=rounding) or known
    return known._replace(unit=known.unit if unit is None else unit,
                          labels=known.labels if labels is None else found.labels,
                          rounding=known.rounding if rounding is None else rounding)


def brought_to(known: Description | None, wanted: Description | None, name: str) -> Description | None:
    """The description of a stream that stands, with what is wanted of it that may change.

    None where there is nothing to change. Raises DescriptionError where its numbers mean something else.
    """
    if wanted is None:
        wanted = Description()
        if known is None:
            return None
    if known is None or known[:3] != wanted[:3]:
        raise DescriptionError(f"{name} stands with another scale or other times: {_meaning(known)}")
    if _told(known.meter) != _told(wanted.meter):
        raise DescriptionError(f"{name} stands with another kind of readings: {known.meter}")
    found = changed(known, wanted.unit, wanted.labels or None, wanted.rounding)
    return None if found == known else found


def unit_of(description: Description | None, kind: str) -> str | None:
    """The unit of an answer. A number of values has none, and an integral that of its span too."""
    unit = None if description is None or kind == "count" else description.unit
    if unit is None or kind != "integral" or description is None or description.meter is None:
        return unit
    return f"{unit}·{description.meter.integrate}"


class MeterWords(TypedDict, total=False):
    """What `create` is told of a meter."""

    kind: str
    overflow: Number | None
    integrate: str | None
    rule: str | None


def meter_words(description: Description) -> MeterWords:
    """What a description says of a meter, as `create` takes it."""
    meter = description.meter
    if meter is None:
        return {}
    return {"kind": meter.kind, "overflow": meter.overflow, "integrate": meter.integrate, "rule": meter.rule}


def with_joins(description: Description, known: Description) -> Description:
    """A description with the joins that came last: those of a counter may come while it is described."""
    if description.meter is None or known.meter is None:
        return description
    newest = max(description.meter.joins, known.meter.joins, key=lambda joins: joins[-1:])
    return description._replace(meter=description.meter._replace(joins=newest, beside=known.meter.beside))


def _told(meter: Meter | None) -> Meter | None:
    """What was told of a meter, without what was found out since."""
    return None if meter is None else meter._replace(joins=(), beside=None)


def _meaning(known: Description | None) -> str:
    if known is None:
        return "it takes whole numbers"
    return f"scale {known.scale}, time {known.time}, since {known.since}"


def _day(since: datetime.date | str | None) -> datetime.date:
    if since is None:
        return EPOCH
    if isinstance(since, str):
        try:
            since = datetime.date.fromisoformat(since)
        except ValueError:
            raise DescriptionError(f"a day is written as 1958-01-01: {since}") from None
    if isinstance(since, datetime.datetime):
        raise DescriptionError(f"times count from a day, and not from {since}")
    return since
