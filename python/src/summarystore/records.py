"""What calls answer: small records of plain fields."""

from __future__ import annotations

import datetime
from collections.abc import Sequence
from dataclasses import dataclass
from typing import NamedTuple, Union

from .decimals import Number
from .interval import Interval

Time = Union[int, datetime.datetime]
"""A time: of a described stream a datetime where one can say it, and otherwise a whole number."""


Record = tuple[int, Sequence[str]]
"""A line of a table: where it stands, and its cells."""


class Stored(NamedTuple):
    """What stands in a stream after an event was stored."""

    values: int
    windows: int


@dataclass(frozen=True, slots=True)
class Window:
    """One window: values that the store keeps together, by what it knows of them."""

    first: int
    last: int
    count: int
    sum: Number
    least: Number
    greatest: Number
    start: Time
    end: Time


class Stream(NamedTuple):
    """One stream of a store."""

    name: str
    target: str
    within: int | None
    """No window crosses a multiple of it. None where windows may."""
    values: int
    windows: int
    landmarks: int
    landmark_values: int
    short_name: str


class Last(NamedTuple):
    """The last time that a stream took, and the time and value of its newest value.

    `newest` and `value` are None where it took no value: then a landmark made the last time.
    """

    time: Time
    newest: Time | None
    value: Interval | None


class Reading(NamedTuple):
    """A value that is kept exactly, in a landmark."""

    time: Time
    value: Number


class Row(NamedTuple):
    """One row of a series: where it begins, and the answer of its times."""

    start: Time
    interval: Interval


class Estimate(NamedTuple):
    """The interval that a query is answered, and the likeliest number in it: None where there is no mean."""

    interval: Interval
    guess: Number | None


class EstimateRow(NamedTuple):
    """One row of estimates: where it begins, the interval of its times, and the likeliest number in it: None
    where there is no mean."""

    start: Time
    interval: Interval
    guess: Number | None


class Soundness(NamedTuple):
    """What a check found in a sound store."""

    streams: int
    windows: int
    landmarks: int
    values: int
