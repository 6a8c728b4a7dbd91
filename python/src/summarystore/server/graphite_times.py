"""Times as Graphite's clients write them: `-1h`, `now-2d`, `noon_yesterday`, `10:30_20261129`, seconds."""

from __future__ import annotations

import datetime
import re

from ..errors import TimeError

LONGEST = 64
MOST_SPAN = 10**10
"""Seconds that a span is shorter than: some 300 years."""
MONTHS = ("january", "february", "march", "april", "may", "june", "july", "august", "september",
          "october", "november", "december")
WEEKDAYS = ("monday", "tuesday", "wednesday", "thursday", "friday", "saturday", "sunday")
_NAMED_CLOCKS = {"noon": 12, "midnight": 0, "teatime": 16}
_NAMED_DAYS = {"yesterday": -1, "today": 0, "tomorrow": 1, "": 0}
_CLOCK = re.compile(r"([0-9]{1,2}):([0-9]{2})(am|pm)?|([0-9]{1,2})(am|pm)")
_SLASHES = re.compile(r"([0-9]{1,2})/([0-9]{1,2})/([0-9]{2}|[0-9]{4})")
_NAMED = re.compile(r"([a-z]{3,})([0-9]{1,2})?")
_PART = re.compile(r"([0-9]{1,9})([a-z]+)")
_OFFSET = re.compile(rf"[+-](?:{_PART.pattern})+")
# What a unit begins with, as Graphite has it. Months and years are spans of so many days.
_SPANS = (("s", 1), ("min", 60), ("h", 3600), ("d", 86400), ("w", 7 * 86400), ("mon", 30 * 86400),
          ("y", 365 * 86400))


def time_of(text: str, now: datetime.datetime) -> int:
    """Seconds since 1970 of a time. `now` is the present, in the zone in which clocks are read."""
    plain = re.sub(r"[_, ]", "", text.strip().lower())
    try:
        if len(text) > LONGEST or not text.isascii():
            raise ValueError(text)
        if plain.isdigit() and _day_of_digits(plain) is None:
            return int(plain)
        at = re.search(r"[+-]|$", plain)
        assert at
        reference, offset = plain[:at.start()], plain[at.start():]
        return int(_reference(reference, now).timestamp()) + _offset(offset)
    except (ValueError, OverflowError):
        raise TimeError(f"not a time as Graphite writes it: {text[:LONGEST]!r}") from None


def span_of(text: str) -> int:
    """Seconds of a span as `1h`, `5min` or `1d12h`. Its sign says nothing."""
    plain = text.strip().lower()
    try:
        found = abs(_offset(plain if plain[:1] in ("+", "-") else f"+{plain}"))
    except ValueError:
        found = 0
    if not 0 < found < MOST_SPAN or not plain.isascii():
        raise TimeError(f"not a span of time as Graphite writes it: {text[:LONGEST]!r}")
    return found


def _day_of_digits(text: str) -> datetime.date | None:
    """A day as 20261129. Other digits are seconds."""
    if len(text) != 8 or text < "19010101":
        return None
    try:
        return datetime.date(int(text[:4]), int(text[4:6]), int(text[6:]))
    except ValueError:
        return None


def _reference(text: str, now: datetime.datetime) -> datetime.datetime:
    """A clock and a day, one after the other, or one of them."""
    if text in ("", "now"):
        return now
    hour, minute, rest = _clock(text)
    day = _day(rest, now.date())
    return datetime.datetime(day.year, day.month, day.day, hour, minute, tzinfo=now.tzinfo)


def _clock(text: str) -> tuple[int, int, str]:
    """The hour and the minute at the start of a text, and the rest. Midnight where there is none."""
    for name, hour in _NAMED_CLOCKS.items():
        if text.startswith(name):
            return hour, 0, text[len(name):]
    found = _CLOCK.match(text)
    if not found:
        return 0, 0, text
    hour, half = int(found[1] or found[4]), found[3] or found[5]
    if half:
        hour = hour % 12 + (12 if half == "pm" else 0) if 1 <= hour <= 12 else 24
    return hour, int(found[2] or 0), text[found.end():]


def _day(text: str, today: datetime.date) -> datetime.date:
    if text in _NAMED_DAYS:
        return today + datetime.timedelta(days=_NAMED_DAYS[text])
    digits = _day_of_digits(text) if text.isdigit() else None
    if digits is not None:
        return digits
    slashes = _SLASHES.fullmatch(text)
    if slashes:
        month, day, year = map(int, slashes.groups())
        return datetime.date(year + (0 if year > 99 else 1900 if year >= 70 else 2000), month, day)
    named = _NAMED.fullmatch(text)
    if not named:
        raise ValueError(text)
    return _named_day(named[1], named[2], today)


def _named_day(name: str, number: str | None, today: datetime.date) -> datetime.date:
    """`november29` of this year, or the last `monday` up to today."""
    for at, month in enumerate(MONTHS):
        if month.startswith(name):
            return datetime.date(today.year, at + 1, int(number or 1))
    for at, weekday in enumerate(WEEKDAYS):
        if weekday.startswith(name) and number is None:
            return today - datetime.timedelta(days=(today.weekday() - at) % 7)
    raise ValueError(name)


def _offset(text: str) -> int:
    """Seconds of `-1h`, `+2d` or `-1d12h`."""
    if not text:
        return 0
    if not _OFFSET.fullmatch(text):
        raise ValueError(text)
    total = sum(int(number) * _span(unit) for number, unit in _PART.findall(text))
    return -total if text[0] == "-" else total


def _span(unit: str) -> int:
    for beginning, seconds in _SPANS:
        if unit.startswith(beginning):
            return seconds
    raise ValueError(unit)
