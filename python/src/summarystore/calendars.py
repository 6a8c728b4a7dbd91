"""Rows as the calendar of a zone has them: days, weeks, months and years, from midnight to midnight."""

from __future__ import annotations

import datetime
import re
from collections.abc import Sequence
from itertools import pairwise
from math import gcd
from typing import NamedTuple

from .clock import OPEN, START, UTC, midnight
from .description import NANOSECONDS
from .errors import TimeError
from .wire import LAST_TIME

SPELLED = re.compile(r"1 ?(?:(d|day)|(w|week)|(mon|month)|(y|year))")
STEPS = {"day": "1d", "week": "1w", "month": "1mon", "year": "1y"}
UNITS = tuple(STEPS)
LONGEST_STEP = 2**32 - 1
"""The longest step that a stream can have."""


def unit_of(step: object) -> str | None:
    """`day`, `week`, `month` or `year` of `1d`, `1w`, `1mon` or `1y`. None of any other step, as `24h` is."""
    found = SPELLED.fullmatch(step.strip()) if isinstance(step, str) else None
    return UNITS[(found.lastindex or 1) - 1] if found else None


def day_at(moment: int, zone: datetime.tzinfo) -> datetime.date:
    """The day that a zone has at a time in nanoseconds since 1970."""
    return (START + datetime.timedelta(microseconds=moment // 1000)).astimezone(zone).date()


def first_day(day: datetime.date, unit: str) -> datetime.date:
    """The first day of the week, the month or the year that a day is in. Weeks begin on Mondays."""
    if unit == "week":
        return day - datetime.timedelta(days=day.weekday())
    if unit == "month":
        return day.replace(day=1)
    return day.replace(month=1, day=1) if unit == "year" else day


def next_day(day: datetime.date, unit: str) -> datetime.date:
    """The first day after the day, the week, the month or the year that begins here."""
    longest = {"day": 1, "week": 7, "month": 31, "year": 366}[unit]
    return first_day(day + datetime.timedelta(days=longest), unit)


class Calendar(NamedTuple):
    """The days, weeks, months or years of a zone."""

    unit: str
    zone: datetime.tzinfo

    @property
    def step(self) -> str:
        """How it is asked for."""
        return STEPS[self.unit]

    def for_counts(self, step: int) -> Calendar:
        """The same for a stream whose counts are so many nanoseconds apart: days are counted as UTC's."""
        return self._replace(zone=UTC) if step == NANOSECONDS["day"] else self

    def edges(self, first: int, last: int, most: int) -> Sequence[int] | None:
        """Where rows begin, in nanoseconds since 1970: from the one that the first time is in until the end
        of that of the last time. A day that a zone left out has no row. None where they are more than `most`.
        """
        try:
            day = first_day(day_at(first, self.zone), self.unit)
            found = [midnight(day, self.zone)]
            while found[-1] <= last and len(found) <= most:
                day = next_day(day, self.unit)
                found += [edge for edge in [midnight(day, self.zone)] if edge > found[-1]]
        except (OverflowError, ValueError):
            raise TimeError(f"the calendar has no {self.unit} there: it ends with the year 9999") from None
        return found if found[-1] > last else None

    def common(self, moments: Sequence[int], origin: int = 0) -> int:
        """The longest span of which these times, and the midnights of the year of the first of them, are
        multiples: in nanoseconds, counted from an origin."""
        year = day_at(moments[0], self.zone).year
        days = [datetime.date(year, month, day) for month in range(1, 13) for day in (1, 2)]
        return gcd(*(moment - origin for moment in [*moments, *(midnight(day, self.zone) for day in days)]))


class Counting(NamedTuple):
    """How a stream counts: nanoseconds from 1970 to its first time, and those of each count."""

    origin: int
    step: int

    def moment(self, count: int) -> int:
        """A count in nanoseconds since 1970."""
        return self.origin + count * self.step

    def edges(self, moments: Sequence[int]) -> Sequence[int]:
        """The first counts at these times or after them. Those that aren't apart are one."""
        found = [min(max(0, -((self.origin - moment) // self.step)), LAST_TIME) for moment in moments]
        return [*(one for one, other in pairwise(found) if one < other), found[-1]]

    def misfit(self, within: int | None, calendar: Calendar, moments: Sequence[int]) -> str | None:
        """What is to be said where rows don't begin at multiples of the step of a stream, and which step
        would have them begin there. None where they do, and of a stream without a step."""
        if within is None or not any((moment - self.origin) % (within * self.step) for moment in moments):
            return None
        fits, rest = divmod(calendar.common(moments, self.origin), self.step)
        is_step = not rest and fits <= LONGEST_STEP
        would = f"`within {fits}` would" if is_step else "no step of times like these would"
        return (f"within {within} doesn't fit: a {calendar.unit} of {calendar.zone} doesn't begin at a "
                f"multiple of it, so its row cuts windows; {would}")


def calendar_of(step: object, zone: datetime.tzinfo | None) -> Calendar | None:
    """The calendar that a step asks for. None of a span of time: without a zone a day has 24 hours."""
    unit = unit_of(step)
    if unit in ("month", "year") and zone is None:
        raise TimeError(f"{step} needs a zone: give zone=, or {OPEN}")
    return None if unit is None or zone is None else Calendar(unit, zone)
