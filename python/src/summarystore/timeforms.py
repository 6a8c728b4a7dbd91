"""How times are written in a table: guessed from the first of them, and read from all."""

from __future__ import annotations

import datetime
import re
from collections.abc import Callable, Sequence
from dataclasses import dataclass
from itertools import pairwise

from .clock import COUNT, DAY, is_compact, moment_of, nanoseconds
from .codec import Codec
from .description import EPOCH, NANOSECONDS
from .errors import TimeError
from .names import DescribedCodec

ISO, WHOLE = "ISO 8601", "whole numbers"
DATES = ("%d.%m.%Y", "%d/%m/%Y", "%m/%d/%Y", "%Y/%m/%d", "%d-%m-%Y", "%m-%d-%Y", "%d.%m.%y")
CLOCKS = (" %H:%M:%S", " %H:%M", " %H:%M:%S.%f", "")
FEW = 20
FRACTION = re.compile(r":[0-9]{2}[.,]([0-9]+)")
# Counts since 1970 by how many digits they have: seconds until 5138, and so on.
DIGITS = ((8, 11, "s"), (12, 14, "ms"), (15, 17, "us"), (18, 20, "ns"))


Reading = Callable[[str, str, datetime.tzinfo | None], int]
"""What gives the nanoseconds since 1970 of a text of a form, in a zone."""


@dataclass(frozen=True)
class TimeForm:
    """How times are written, and which resolution and first day that asks for."""

    form: str
    resolution: str
    since: datetime.date = EPOCH
    zone: datetime.tzinfo | None = None

    def __str__(self) -> str:
        zone = f" in {self.zone}" if self.zone is not None and self.form != WHOLE else ""
        return f"{self.form}{f' of {self.resolution}' if self.form == WHOLE else zone}"

    def reader(self, codec: Codec, read: Reading | None = None) -> Callable[[str], int]:
        """What gives the count of a text, for a stream. `read` reads a time, where it isn't read alone."""
        if self.form == WHOLE:
            return self._whole(codec)
        if not isinstance(codec, DescribedCodec):
            raise TimeError(f"{codec.short} takes whole numbers as times, and the table has {self.form}")
        time, at, form, zone, told = codec.time, codec.clock.of, self.form, self.zone, read or moment_in
        days = codec.description is not None and codec.description.time == "day"

        def moment(text: str) -> int:
            if days and len(text) <= 10:
                return time(_date(text, form))
            return at(told(text, form, zone), text)
        return moment

    def column(self, codec: Codec, read: Reading | None = None) -> Callable[[Sequence[str]], Sequence[int]]:
        """What gives the counts of many texts, for a stream. Whole numbers that are kept as they are
        are read at once."""
        one = self.reader(codec, read)

        def counts(texts: Sequence[str]) -> Sequence[int]:
            if COUNT.fullmatch("".join(texts)) and all(texts):
                return list(map(int, texts))
            return list(map(one, texts))
        kept = self.form == WHOLE and self._is_kept(codec)
        return counts if kept else lambda texts: list(map(one, texts))

    def is_by_minutes(self, texts: Sequence[str]) -> bool:
        """Whether times are whole minutes, and most of them come 60 s after the one before."""
        minute = NANOSECONDS["minute"]
        if NANOSECONDS[self.resolution] >= minute:
            return False
        moments = sorted({moment for moment in map(self.moment, texts) if moment is not None})
        apart = [after - moment for moment, after in pairwise(moments)]
        return len(apart) > 1 and not any(moment % minute for moment in moments) \
            and 2 * apart.count(minute) >= len(apart)

    def moment(self, text: str) -> int | None:
        """Nanoseconds since 1970. None of what is no time, and of an hour that comes twice."""
        if self.form == WHOLE:
            return int(text) * NANOSECONDS[self.resolution] if COUNT.fullmatch(text) else None
        try:
            return moment_in(text, self.form, self.zone)
        except TimeError:
            return None

    def _is_kept(self, codec: Codec) -> bool:
        """Whether a stream counts as the table does."""
        description = codec.description
        return description is None or (description.time, description.since) == (self.resolution, self.since)

    def _whole(self, codec: Codec) -> Callable[[str], int]:
        each = NANOSECONDS[self.resolution]
        same = self._is_kept(codec)

        def count(text: str) -> int:
            if not COUNT.fullmatch(text):
                raise TimeError(f"not a whole number: {text[:40]!r}")
            number = int(text)
            if same:
                return number
            assert isinstance(codec, DescribedCodec)
            return codec.clock.of(number * each + codec.clock.day(self.since), text)
        return count


def moment_in(text: str, form: str, zone: datetime.tzinfo | None) -> int:
    """Nanoseconds since 1970 of a text of this form."""
    if form == ISO:
        return moment_of(text, zone)
    try:
        return nanoseconds(datetime.datetime.strptime(text, form), zone)
    except TimeError:
        raise
    except ValueError:
        raise TimeError(f"not a time as {form}: {text[:60]!r}") from None


def _date(text: str, form: str) -> datetime.date:
    try:
        if form == ISO:
            return datetime.date.fromisoformat(text)
        return datetime.datetime.strptime(text, form).date()
    except ValueError:
        raise TimeError(f"not a day as {form}: {text[:40]!r}") from None


def guess(texts: Sequence[str], zone: datetime.tzinfo | None) -> TimeForm:
    """The form of these times. Where two forms fit, or none, it has to be told."""
    texts = [text for text in texts if text]
    if texts and all(COUNT.fullmatch(text) for text in texts):
        if all(is_compact(text) for text in texts):
            raise TimeError(f"times such as {texts[0]!r}: digits of a date and a count both fit; give "
                            "--time-format, as %Y%m%d, or --time-unit")
        return TimeForm(WHOLE, _unit(texts))
    few = texts[:FEW]
    forms = [form for form in (ISO, *(date + clock for date in DATES for clock in CLOCKS))
             if _fits(few, form) * 2 > len(few)]
    fits = {form: _fits(texts, form) for form in forms} if len(forms) > 1 else dict.fromkeys(forms, 1)
    best = [form for form in forms if fits[form] == max(fits.values())]
    if len(best) != 1:
        told = f"both {best[0]} and {best[1]} fit" if best else "no form is known that fits"
        example = next(iter(texts), "nothing")
        raise TimeError(f"times such as {example!r}: {told}; give --time-format")
    return of_form(best[0], texts, zone)


def of_form(form: str, texts: Sequence[str], zone: datetime.tzinfo | None) -> TimeForm:
    """The form that was told, with the resolution and the first day that these times ask for."""
    days = [day for day in map(lambda text: _day(text, form), texts) if day is not None]
    first = min(days, default=EPOCH)
    since = datetime.date(first.year, 1, 1) if first < EPOCH else EPOCH
    fitting = [text for text in texts if _day(text, form) is not None]
    if fitting and all(DAY.fullmatch(text) if form == ISO else "%H" not in form for text in fitting):
        return TimeForm(form, "day", since, zone)
    places = max((len(found[1]) for text in texts if (found := FRACTION.search(text))), default=0)
    resolution = "s" if not places else "ms" if places <= 3 else "us" if places <= 6 else "ns"
    return TimeForm(form, resolution, since, zone)


def _unit(texts: Sequence[str]) -> str:
    digits = max(len(text.lstrip("0")) for text in texts)
    for least, most, unit in DIGITS:
        if least <= digits <= most:
            return unit
    raise TimeError(f"times such as {texts[0]!r} may count anything: give --time-unit and --since")


def _fits(texts: Sequence[str], form: str) -> int:
    return sum(_day(text, form) is not None for text in texts)


def _day(text: str, form: str) -> datetime.date | None:
    try:
        if form == ISO:
            return datetime.datetime.fromisoformat(text[:19] if len(text) > 26 else text).date()
        return datetime.datetime.strptime(text, form).date()
    except ValueError:
        return None
