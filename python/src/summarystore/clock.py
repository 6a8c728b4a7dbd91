"""Times as people have them, as whole numbers of a resolution, and back. All of it is exact."""

from __future__ import annotations

import datetime
import re
import time
import warnings
import zoneinfo
from contextlib import suppress
from decimal import ROUND_FLOOR, Decimal

from .description import NANOSECONDS
from .errors import RoundedTimeWarning, TimeError
from .records import Time
from .wire import LAST_TIME

UTC = datetime.timezone.utc
START = datetime.datetime(1970, 1, 1, tzinfo=UTC)
DAY = re.compile(r"[0-9]{4}-[0-9]{2}-[0-9]{2}")
COUNT = re.compile(r"[0-9]+")
COMPACT = {8: "%Y%m%d", 12: "%Y%m%d%H%M", 14: "%Y%m%d%H%M%S"}
SPAN = re.compile(r"([0-9]+) ?(ns|us|ms|s|min|minutes?|h|hours?|d|days?|w|weeks?)")
_SPANS = {"ns": 1, "us": 10**3, "ms": 10**6, "s": 10**9, "m": 60 * 10**9, "h": 3600 * 10**9,
          "d": 86400 * 10**9, "w": 7 * 86400 * 10**9, "D": 86400 * 10**9, "W": 7 * 86400 * 10**9}
_NUMPY = re.compile(r"(?:datetime|timedelta)64\[([0-9]*)(ns|us|ms|s|m|h|D|W)\]")
_NAT = -2**63
NOW = re.compile(r"now(?: ?([+-]) ?([0-9]{1,9}) ?([a-z]{1,7}))?")
# Fractions of a second beyond what a datetime holds.
OPEN = "open with zone="
"""How it is said in the package that a zone may be told. Commands have `--zone`."""
DOTTED = re.compile(r"([0-9]{1,2})\.([0-9]{1,2})\.([0-9]{4})\b")
FINE = re.compile(r"([^.,]*[:T ](?:[0-9]{2}:[0-9]{2}:[0-9]{2}|[0-9]{6}))[.,]([0-9]+)([^.,]*)")


class TwiceError(TimeError):
    """A clock shows a time twice. `both` are the two, in nanoseconds since 1970."""

    def __init__(self, told: str, both: tuple[int, int]) -> None:
        super().__init__(told)
        self.both = both


def nanoseconds(moment: datetime.datetime, zone: datetime.tzinfo | None) -> int:
    """Nanoseconds since 1970 of a datetime, in this zone where it has none of its own.

    An hour that a clock shows twice, or never, is refused.
    """
    fine = 0
    if type(moment) is not datetime.datetime:
        fine = getattr(moment, "nanosecond", 0)
        plain = getattr(moment, "to_pydatetime", None)      # of a pandas Timestamp
        if plain is not None and moment.tzinfo is not None:
            with suppress(OverflowError):   # not as a datetime: that may be of the first of two such hours
                return int(getattr(moment, "value"))
        if plain is not None:
            moment = plain(warn=False)
    if moment.tzinfo is None or moment.utcoffset() is None:
        if zone is None:
            raise TimeError(f"{moment.isoformat(' ')} has no zone: give it one, or {OPEN}")
        moment = _in_zone(moment.replace(tzinfo=None), zone)
    elif not isinstance(moment.tzinfo, datetime.timezone) and not _is_shown(moment):
        raise TimeError(f"{moment.isoformat(' ')}: the clock never shows it there")
    return _since_1970(moment) + int(fine)


def _since_1970(moment: datetime.datetime) -> int:
    since = moment - START
    return (since.days * 86400 + since.seconds) * 10**9 + since.microseconds * 1000


def _is_shown(moment: datetime.datetime) -> bool:
    """Whether a clock of its zone ever shows a moment. One that it shows twice has its `fold`."""
    try:
        shown = moment.astimezone(UTC).astimezone(moment.tzinfo)
    except OverflowError:
        return True
    return shown.replace(tzinfo=None, fold=0) == moment.replace(tzinfo=None, fold=0)


def _in_zone(moment: datetime.datetime, zone: datetime.tzinfo) -> datetime.datetime:
    one, other = (moment.replace(tzinfo=zone, fold=fold) for fold in (0, 1))
    if one.utcoffset() != other.utcoffset():
        there = any(each.astimezone(UTC).astimezone(zone).replace(tzinfo=None) == moment.replace(fold=0)
                    for each in (one, other))
        told = f"{moment.isoformat(' ')} in {zone}: the clock shows it {{}}; give its offset"
        if there:
            raise TwiceError(told.format("twice"), (_since_1970(one), _since_1970(other)))
        raise TimeError(told.format("never"))
    return one


def moment_of(text: str, zone: datetime.tzinfo | None) -> int:
    """Nanoseconds since 1970 of an ISO 8601 text."""
    # What is finer than a microsecond would be dropped in silence by fromisoformat.
    fine = FINE.fullmatch(text) if "." in text or "," in text else None
    extra = 0
    if ("." in text or "," in text) and not fine:
        raise TimeError(f"{_why_not(text)}: {text[:60]!r}")
    if fine and len(fine[2]) > 9:
        raise TimeError(f"finer than a nanosecond: {text[:60]!r}")
    if fine and len(fine[2]) > 6:
        extra = int(fine[2].ljust(9, "0"))
        text = fine[1] + fine[3]
    try:
        return nanoseconds(datetime.datetime.fromisoformat(text), zone) + extra
    except TwiceError as error:
        raise TwiceError(str(error), (error.both[0] + extra, error.both[1] + extra)) from None
    except TimeError:
        raise
    except ValueError:
        raise TimeError(f"not a time: {text[:60]!r}") from None


def for_commands(error: Exception) -> str:
    """What is said of an error by a command, which has options in the place of calls."""
    return str(error).replace(OPEN, "say --zone")


def _why_not(text: str) -> str:
    """Why a text with a point or a comma is no time, and how it would be one."""
    found = DOTTED.match(text)
    if not found:
        return "not a time, which is written as 2026-03-29T10:00:00+02:00"
    day, month = found[1].zfill(2), found[2].zfill(2)
    return f"a date is written as {found[3]}-{month}-{day}, if the day stands first here"


def digits_of(text: str) -> int:
    """Nanoseconds since 1970 of digits alone: they count seconds since then, as tables have them.

    What may be a date, or is no such count before the year 5138, is refused.
    """
    if len(text) > 11 or is_compact(text):
        raise TimeError(f"digits alone count seconds since 1970: {text[:40]!r} may be something else; give "
                        "a whole number, which counts the stream's own steps, or a time as ISO 8601")
    return int(text) * 10**9


def is_compact(text: str) -> bool:
    """Whether digits may be those of a date, or of a date and a clock, one after the other."""
    form = COMPACT.get(len(text))
    if form is None:
        return False
    try:
        return 1850 <= datetime.datetime.strptime(text, form).year <= 2150
    except ValueError:
        return False


def day_of(given: object) -> datetime.date | None:
    """A day, where it is one: a date, or the text of one."""
    if isinstance(given, datetime.date) and not isinstance(given, datetime.datetime):
        return given
    if isinstance(given, str) and DAY.fullmatch(given):
        try:
            return datetime.date.fromisoformat(given)
        except ValueError:
            raise TimeError(f"no such day: {given}") from None
    return None


def span_of(given: object) -> int:
    """Nanoseconds of a span: a timedelta, or text such as `15 min`, `1h`, `365d`."""
    if isinstance(given, datetime.timedelta):
        fine = getattr(given, "nanoseconds", 0)     # of a pandas Timedelta
        return (given.days * 86400 + given.seconds) * 10**9 + given.microseconds * 1000 + int(fine)
    if isinstance(given, str) and (found := SPAN.fullmatch(given.strip())):
        unit = found[2]
        return int(found[1]) * (_SPANS[unit] if unit in _SPANS else _SPANS[unit[0]])
    kind = getattr(getattr(given, "dtype", None), "kind", "")
    if kind == "m":     # numpy.timedelta64
        return _numpy_count(given)
    raise TimeError(f"not a span of time: {given!r}; write 15min, 1h or 365d, or give a timedelta")


def _numpy_count(given: object) -> int:
    """Nanoseconds of a numpy time. They are reckoned here, since numpy wraps at 64 bits."""
    dtype = str(getattr(given, "dtype"))
    unit = _NUMPY.fullmatch(dtype)
    if not unit:
        raise TimeError(f"{given} counts {dtype}, and not days, hours, .. or nanoseconds")
    count = getattr(given, "astype")("int64").item()
    if count == _NAT:
        raise TimeError("not a time: NaT")
    return int(count * int(unit[1] or 1) * _SPANS[unit[2]])


def from_now(given: object, present: int | None = None) -> int | None:
    """Nanoseconds since 1970 of what is told from the present: `now`, `now-1h`, or a timedelta from now. The
    present is that of the clock where it isn't given."""
    if isinstance(given, datetime.timedelta):
        return (time.time_ns() if present is None else present) + span_of(given)
    if isinstance(given, str) and (found := NOW.fullmatch(given)):
        unit = "min" if found[3] == "m" else found[3]
        span = span_of(f"{found[2]}{unit}") if found[1] else 0
        return (time.time_ns() if present is None else present) + (-span if found[1] == "-" else span)
    return None


def is_float(given: object) -> bool:
    """Whether this is a float, also numpy's: then it counts seconds since 1970, as `time.time()` does."""
    return isinstance(given, float) or getattr(getattr(given, "dtype", None), "kind", "") == "f"


def _of_float(given: object) -> int:
    """Nanoseconds since 1970 of seconds, by the shortest decimal of a float."""
    seconds = Decimal(str(given))
    if not seconds.is_finite() or abs(seconds.adjusted()) > 20:
        raise TimeError(f"not a time: {given}")
    return int(seconds.scaleb(9).to_integral_value(ROUND_FLOOR))


class Clock:
    """The times of one stream: its resolution, the day from which it counts, and a zone."""

    def __init__(self, resolution: str, since: datetime.date, zone: datetime.tzinfo | None) -> None:
        self.resolution = resolution
        self._step = NANOSECONDS[resolution]
        self._zone = zone
        self._origin = self.day(since)
        self._told = False

    def time(self, given: object) -> int:
        """The count of a time. One before the first is refused, and so is one between two counts.

        But what a clock of Python says, a datetime or a float, is rounded down, which is told once.
        """
        if isinstance(given, str):
            if len(given) > 11 and not COUNT.fullmatch(given) and not given.startswith("now"):
                return self.of(moment_of(given, self._zone), given)
        count = self._count(given)
        if count is not None:
            return count
        return self.of(self._nanoseconds(given), given)

    def of(self, passed: int, given: object) -> int:
        """The count of nanoseconds since 1970."""
        whole, rest = divmod(passed - self._origin, self._step)
        if rest and (isinstance(given, datetime.datetime) or is_float(given)):
            self._tell(given)
        elif rest and from_now(given) is None:
            raise TimeError(f"{given} lies between two times of the stream, which counts in "
                            f"{self.resolution}")
        return _checked(whole, given)

    def _tell(self, given: object) -> None:
        if not self._told:
            self._told = True
            warnings.warn(RoundedTimeWarning(f"{given} is rounded down, since the stream counts in "
                                             f"{self.resolution}: so are all times of a clock"), stacklevel=6)

    def day(self, day: datetime.date) -> int:
        """Nanoseconds from 1970 to a day in UTC."""
        return midnight(day, UTC)

    def begin(self, given: object, present: int | None = None) -> int:
        """The first count at a time or after it."""
        count = self._end_of_range(given, 0, False, present)
        if count > LAST_TIME:
            raise TimeError(f"{given} is after the last time that the stream can have")
        return max(0, count)

    def end(self, given: object, present: int | None = None) -> int:
        """The last count at a time or before it. A day ends with its last count."""
        count = self._end_of_range(given, LAST_TIME, True, present)
        if count < 0:
            raise TimeError(f"{given} is before the first time that the stream can have")
        return min(count, LAST_TIME)

    def range_of(self, first: object, last: object) -> tuple[int, int]:
        """The first and the last count of a range. Where both are told from the present it is one moment."""
        present = time.time_ns()
        return self.begin(first, present), self.end(last, present)

    def _end_of_range(self, given: object, otherwise: int, is_end: bool, present: int | None) -> int:
        if given is None:
            return otherwise
        count = self._count(given)
        if count is not None:
            return count
        day = day_of(given)
        if day is not None and is_end:
            return -((self._origin - self._midnight(day, 1)) // self._step) - 1
        since = (self._nanoseconds(given, present) if day is None else self._midnight(day)) - self._origin
        return since // self._step if is_end else -(-since // self._step)

    def step(self, given: object) -> int:
        """How many counts a span has. A number is one of counts."""
        count = self._count(given)
        if count is not None:
            return count
        whole, rest = divmod(span_of(given), self._step)
        if rest:
            raise TimeError(f"{given} isn't a whole number of steps of {self.resolution}")
        return whole

    def now(self) -> int:
        """The present count."""
        present = datetime.datetime.now(UTC)
        return _checked((nanoseconds(present, None) - self._origin) // self._step, present)

    @property
    def zone(self) -> datetime.tzinfo | None:
        """That of times which have none, and of days."""
        return self._zone

    def counting(self) -> tuple[int, int]:
        """Nanoseconds from 1970 to the first time, and those of a count."""
        return self._origin, self._step

    def back(self, count: int) -> Time:
        """A count as a datetime, or as it is where no datetime says it."""
        passed = self._origin + count * self._step
        if self.resolution == "ns":
            return count
        try:
            return (START + datetime.timedelta(microseconds=passed // 1000)).astimezone(self._zone or UTC)
        except OverflowError:
            return count

    def _count(self, given: object) -> int | None:
        if isinstance(given, bool):
            raise TimeError(f"not a time: {given}")
        if isinstance(given, int):
            return given
        if getattr(getattr(given, "dtype", None), "kind", "") in ("i", "u"):
            index = getattr(given, "__index__")
            return int(index())
        return None

    def _nanoseconds(self, given: object, present: int | None = None) -> int:
        if isinstance(given, datetime.datetime):
            if given != given:      # pandas NaT
                raise TimeError("not a time: NaT")
            return nanoseconds(given, self._zone)
        found = from_now(given, present)
        if found is not None:
            return found
        if is_float(given):
            return _of_float(given)
        day = day_of(given)
        if day is not None:
            if self.resolution != "day":
                raise TimeError(f"{given} is a day, and the stream counts in {self.resolution}")
            return self._midnight(day)
        if isinstance(given, str):
            return digits_of(given) if COUNT.fullmatch(given) else moment_of(given, self._zone)
        if getattr(getattr(given, "dtype", None), "kind", "") == "M":
            return _numpy_count(given)
        raise TimeError(f"not a time: {given!r}")

    def _midnight(self, day: datetime.date, days: int = 0) -> int:
        """The first moment of a day, or of one so many days later."""
        zone = UTC if self.resolution == "day" else self._zone
        if zone is None:
            raise TimeError(f"{day} has no zone: give a time with one, or {OPEN}")
        try:
            later = day + datetime.timedelta(days=days)
        except OverflowError:
            raise TimeError(f"{day} is the last day there is") from None
        return midnight(later, zone)


def _checked(count: int, given: object) -> int:
    if not 0 <= count <= LAST_TIME:
        raise TimeError(f"{given} is before the first time of the stream, or after the last")
    return count


def midnight(day: datetime.date, zone: datetime.tzinfo) -> int:
    """Nanoseconds since 1970 of the first moment of a day in a zone. Where no clock shows midnight it is when
    the clock goes forward, and where one shows it twice the first."""
    offset = datetime.datetime(day.year, day.month, day.day, tzinfo=zone).utcoffset()
    return (day - START.date()).days * _SPANS["d"] - (span_of(offset) if offset else 0)


def zone_of(zone: str | datetime.tzinfo | None) -> datetime.tzinfo | None:
    """A zone by its name, such as Europe/Berlin."""
    if zone is not None and hasattr(zone, "localize"):
        # A zone of pytz, also of pandas: by itself it has the local mean time of long ago.
        zone = str(zone)
    if not isinstance(zone, str):
        return zone
    try:
        return zoneinfo.ZoneInfo(zone)
    except (zoneinfo.ZoneInfoNotFoundError, ValueError, OSError):
        raise TimeError(f"no such zone: {zone}") from None
