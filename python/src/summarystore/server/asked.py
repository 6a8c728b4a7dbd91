"""What a client asks for: times, numbers and names, out of the words of a request."""

from __future__ import annotations

import datetime
import difflib
import re
import time
from collections.abc import Mapping, Sequence
from decimal import Decimal, InvalidOperation

from ..calendars import Calendar, unit_of
from ..clock import OPEN, from_now, moment_of, span_of, zone_of
from ..errors import TimeError
from .endpoints import ApiError

SECONDS = re.compile(r"[+-]?[0-9]{1,19}(?:\.([0-9]{1,9}))?")
# A plus sign in an address that wasn't escaped has become a blank.
LOST_PLUS = re.compile(r"([0-9]{4}-?[0-9]{2}-?[0-9]{2}[T ][0-9:.]+) ([0-9]{2}:?[0-9]{2})")
LONGEST = 64
MOST_SECONDS = 10**19
MEANT = {"avg": "mean", "average": "mean", "total": "sum", "minimum": "min", "maximum": "max",
         "number": "count"}
"""Words for kinds of answers that others have."""


def bad(reason: str, code: str = "bad_request") -> ApiError:
    """What a client asked can't be answered."""
    return ApiError(400, code, reason)


def one(words: Mapping[str, str], key: str) -> str:
    """A word that has to be given."""
    found = words.get(key)
    if not found:
        raise bad(f"`{key}` is missing")
    return found


def no_kind(given: str, kinds: Sequence[str]) -> ApiError:
    """A kind of answer that there isn't, and which one may be meant."""
    near = MEANT.get(given.lower()) or next(iter(difflib.get_close_matches(given.lower(), kinds, 1)), None)
    meant = f"; is `{near}` meant?" if near in kinds else ""
    return bad(f"`kind` is one of {', '.join(kinds)}, and not {given[:20]!r}{meant}")


def range_of(words: Mapping[str, str]) -> tuple[int | None, int | None]:
    """The nanoseconds from `from` to `to`, each None where it isn't given. `now` is one moment in both."""
    where, present = zone(words), time.time_ns()
    first, last = (nanoseconds(words[key], key, where, present) if key in words else None
                   for key in ("from", "to"))
    return first, last


def nanoseconds(given: object, key: str, zone: datetime.tzinfo | None = None, present: int | None = None
                ) -> int:
    """A time: seconds since 1970, ISO 8601 with a zone or in that one, `now`, or `now-1h`."""
    if type(given) is int and abs(given) < MOST_SECONDS:
        return given * 10**9
    if isinstance(given, (int, Decimal)) and not isinstance(given, bool):
        return _of_seconds(str(given) if isinstance(given, int) else _plain(given, key), key)
    if not isinstance(given, str):
        raise bad(f"`{key}`: a time is a number of seconds or a text, and not {type(given).__name__}")
    text = given.strip()
    if SECONDS.fullmatch(text):
        return _of_seconds(text, key)
    try:
        found = from_now(text, present)
        if found is not None:
            return found
        lost = LOST_PLUS.fullmatch(text)
        return moment_of(f"{lost[1]}+{lost[2]}" if lost else text[:LONGEST], zone)
    except (TimeError, OverflowError) as error:
        why = str(error).replace(f", or {OPEN}", "")
        raise bad(f"`{key}`: {why}; seconds since 1970, ISO 8601 with a zone, `now` and `now-1h` are times",
                  "bad_time") from None


def _plain(given: Decimal, key: str) -> str:
    if not given.is_finite() or abs(given.adjusted()) > 20:
        raise bad(f"`{key}`: not a time: {given}", "bad_time")
    return f"{given:f}"


def _of_seconds(text: str, key: str) -> int:
    if not SECONDS.fullmatch(text):
        raise bad(f"`{key}`: not a time: {text[:LONGEST]}; seconds have at most 19 digits, and 9 behind the "
                  "point", "bad_time")
    return int(Decimal(text).scaleb(9))


def span(given: str, key: str) -> int:
    """A span of time in nanoseconds: seconds, or a text such as `15min`."""
    if SECONDS.fullmatch(given):
        found = _of_seconds(given, key)
    else:
        try:
            found = span_of(given[:LONGEST])
        except TimeError as error:
            raise bad(f"`{key}`: {error}", "bad_time") from None
    if found <= 0:
        raise bad(f"`{key}`: a span of time is more than 0", "bad_time")
    return found


def zone(words: Mapping[str, str]) -> datetime.tzinfo | None:
    """The zone of times that have none, and of days, where one is given."""
    given = words.get("zone")
    try:
        return None if given is None else zone_of(given[:LONGEST])
    except TimeError as error:
        raise bad(f"`zone`: {error}; write it as Europe/Berlin", "bad_time") from None


def calendar(words: Mapping[str, str]) -> Calendar | None:
    """The calendar whose days, weeks, months or years a step asks for. None of a span of time."""
    found, unit = zone(words), unit_of(words.get("step"))
    if found is None and unit in ("month", "year"):
        raise bad(f"`step`: a {unit} is one of a zone: give `zone`, as Europe/Berlin", "bad_time")
    return None if found is None or unit is None else Calendar(unit, found)


def too_many_rows(count: int | None, most: int) -> ApiError:
    """More rows than are answered."""
    return ApiError(400, "too_many_rows", f"there would be {count or f'more than {most}'} rows, and at most "
                                          f"{most} are answered: take a greater step")


def whole(words: Mapping[str, str], key: str, most: int) -> int | None:
    """A whole number from 1 to `most`, where one is given."""
    given = words.get(key)
    if given is None:
        return None
    if not re.fullmatch("[0-9]{1,9}", given) or not 1 <= int(given) <= most:
        raise bad(f"`{key}`: a whole number from 1 to {most} is to be given, and not {given[:LONGEST]!r}")
    return int(given)


def decimal(given: str, key: str) -> Decimal:
    """A decimal."""
    try:
        found = Decimal(given[:400])
    except InvalidOperation:
        found = Decimal("nan")
    if not found.is_finite():
        raise bad(f"`{key}`: not a number: {given[:LONGEST]!r}")
    return found
