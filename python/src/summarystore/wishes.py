"""What is wished of answers, and how wide these are at most: by what is proved (docs/CONTRACTS.md,
ss_laws), whatever the readings are. All of it is exact.
"""

from __future__ import annotations

import math
import re
from collections.abc import Mapping
from dataclasses import dataclass, field
from fractions import Fraction

from .errors import SourceError
from .targets import MOST_VALUES, Target

SECONDS: Mapping[str, Fraction] = {
    "ns": Fraction(1, 10**9), "us": Fraction(1, 10**6), "ms": Fraction(1, 1000), "s": Fraction(1),
    "min": Fraction(60), "h": Fraction(3600), "d": Fraction(86400), "w": Fraction(7 * 86400),
    "month": Fraction(30 * 86400), "y": Fraction(31557600)}
"""A month has 30 days, and a year 365.25."""
WORDS = {"second": "s", "sec": "s", "minute": "min", "m": "min", "hour": "h", "day": "d", "week": "w",
         "mo": "month", "year": "y", **{unit: unit for unit in SECONDS}}
NUMBER = r"[0-9]+(?:\.[0-9]+)?"
SPAN = re.compile(rf"({NUMBER})? ?([a-z]+)")
WISH = re.compile(rf"(?:(count|sum|mean) )?(?:of )?(?:an? )?(.+) after (?:an? )?(.+) within ({NUMBER}) ?(%)?")
SIGNED = re.compile(rf"-?{NUMBER}")


def span_of(text: str) -> Fraction:
    """Seconds of a span, as `15min`, `1 week`, `day` or `1.5h`."""
    found = SPAN.fullmatch(text.strip())
    unit = found and (WORDS.get(found[2]) or WORDS.get(found[2].removesuffix("s")))
    if not found or not unit:
        raise SourceError(f"not a span of time: {text!r}; write 60s, 15min, 1h, day, week, month or 5y")
    return Fraction(found[1] or 1) * SECONDS[unit]


def every_of(text: str) -> Fraction:
    """Seconds from a reading to the next: a span, or a rate as `10/s` or `4/h`."""
    rate, slash, span = text.partition("/")
    if slash and not re.fullmatch(NUMBER, rate.strip()):
        raise SourceError(f"not a rate: {text!r}; write 10/s or 4/h")
    seconds = span_of(span) if slash else span_of(text)
    many = Fraction(rate.strip()) if slash else Fraction(1)
    if not seconds or not many:
        raise SourceError(f"no reading comes by {text!r}")
    return seconds / many


def number_of(text: str) -> Fraction:
    """A number that a text spells."""
    if not SIGNED.fullmatch(text):
        raise SourceError(f"not a number: {text!r}")
    return Fraction(text)


@dataclass(frozen=True)
class Readings:
    """Readings of one stream, none sooner than `every` seconds after the last, for so many seconds. Where
    it is told, each is from the least to the greatest of `values`."""

    every: Fraction
    seconds: Fraction
    values: tuple[Fraction, Fraction] | None = None

    def __post_init__(self) -> None:
        if self.count > MOST_VALUES:
            raise SourceError(f"{self.count:,} readings are too many: a stream takes 2^40, {MOST_VALUES:,}")
        if self.values is not None and self.values[0] > self.values[1]:
            raise SourceError("the least value is greater than the greatest")

    @property
    def count(self) -> int:
        """How many they are at most."""
        return self.within(self.seconds)

    def within(self, seconds: Fraction) -> int:
        """How many lie at most in a span, one of its ends included."""
        return math.ceil(seconds / self.every)

    def steps(self, within: Fraction) -> int:
        """In how many steps of so many seconds they lie at most: the first may begin in the middle of one."""
        return math.ceil(self.seconds / within) + 1

    @property
    def distance(self) -> Fraction:
        """From the lesser of 0 and the least value to the greater of 0 and the greatest."""
        low, high = self._values
        return max(Fraction(0), high) - min(Fraction(0), low)

    @property
    def greatest(self) -> Fraction:
        """No value lies farther from 0."""
        low, high = self._values
        return max(abs(low), abs(high))

    @property
    def nearest(self) -> Fraction:
        """No value lies nearer to 0."""
        low, high = self._values
        return max(low, -high, Fraction(0))

    @property
    def spread(self) -> Fraction:
        """From the least value to the greatest."""
        low, high = self._values
        return high - low

    @property
    def _values(self) -> tuple[Fraction, Fraction]:
        if self.values is None:
            raise SourceError("sums and means need the least and the greatest value: --range LO HI")
        return self.values


@dataclass(frozen=True)
class Wish:
    """Of a range so many seconds long, that ended `age` seconds before, the count, the sum or the mean is
    to be known within so much: the middle of the interval is no farther from the truth. `share` says that
    this is a part of the truth."""

    text: str = field(compare=False)
    kind: str
    span: Fraction
    age: Fraction
    within: Fraction
    share: bool

    @classmethod
    def of(cls, text: str) -> Wish:
        """The wish that a text spells, as `day after 1y within 5%`."""
        found = WISH.fullmatch(" ".join(text.split()))
        if not found:
            raise SourceError(f"not a wish: {text!r}; write as 'day after 1y within 5%' or 'sum of a week "
                              "after 2y within 100'")
        span, age = span_of(found[2]), span_of(found[3])
        if not span:
            raise SourceError(f"a range without length: {text!r}")
        within = Fraction(found[4])
        return cls(" ".join(text.split()), found[1] or "count", span, age,
                   within / 100 if found[5] else within, found[5] is not None)

    def check(self, readings: Readings) -> None:
        """Raises where nothing can be said of the wish."""
        if self.kind != "count":
            readings.distance       # it needs the values
        if self.age + self.span > readings.seconds:
            raise SourceError(f"{self.text}: no range lies so far back in these years")
        if self.inside(readings) < 1:
            raise SourceError(f"{self.text}: a range may hold no reading")

    def inside(self, readings: Readings) -> int:
        """How many readings lie in the range at least."""
        return math.floor(self.span / readings.every)

    def truth(self, readings: Readings) -> Fraction:
        """The truth is at least so far from 0."""
        if self.kind == "count":
            return Fraction(self.inside(readings))
        return readings.nearest * (self.inside(readings) if self.kind == "sum" else 1)

    def allowed(self, readings: Readings) -> Fraction:
        """Half the width that the interval may have."""
        return self.within * (self.truth(readings) if self.share else 1)

    def half(self, target: Target, readings: Readings) -> Fraction:
        """Half the width that the interval surely has at most.

        An end that cuts a window leaves a count open by at most the length of the target window at its
        age less two, and a sum by the length less one, times the distance of the values. The newest of
        the values behind the range has the age 0, so where there is none the newer end cuts nothing.
        """
        newer = readings.within(self.age)
        ages = [age - 1 for age in (newer, readings.within(self.age + self.span)) if age]
        lengths = [target.length_at(age) for age in ages]
        counts = Fraction(sum(max(0, length - 2) for length in lengths))
        if self.kind == "count":
            return counts / 2
        sums = sum(length - 1 for length in lengths) * readings.distance
        if self.kind == "sum":
            return sums / 2
        few = self.inside(readings) - counts
        if few <= 0:
            return readings.spread / 2
        return min(readings.spread, (sums + readings.greatest * counts) / few) / 2
