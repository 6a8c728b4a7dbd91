"""Intervals that hold the truth, and arithmetic with them that keeps this."""

from __future__ import annotations

import enum
import math
import re
from collections.abc import Iterator
from decimal import (MAX_EMAX, MIN_EMIN, ROUND_CEILING, ROUND_FLOOR, Context, Decimal, InvalidOperation,
                     localcontext)
from fractions import Fraction

from .decimals import EXACT, Number, exact, is_truth_value, places_of, shortened
from .errors import NoValueError

# Quotients: their ends are rounded outwards, to more digits than a sum of 128 bits has.
DIGITS = 60
_DOWN = Context(prec=DIGITS, rounding=ROUND_FLOOR, Emin=MIN_EMIN, Emax=MAX_EMAX)
_UP = Context(prec=DIGITS, rounding=ROUND_CEILING, Emin=MIN_EMIN, Emax=MAX_EMAX)
_FORM = re.compile(r"(?:(.?)([<>^]))?([-+ ]?)([0-9]*)((?:,|_)?(?:\.[0-9]+)?[eEfFgG%])")


def _add(a: Number, b: Number) -> Number:
    return a + b if isinstance(a, int) and isinstance(b, int) else EXACT.add(Decimal(a), Decimal(b))


def _times(a: Number, b: Number) -> Number:
    if isinstance(a, int) and isinstance(b, int):
        return a * b
    return EXACT.multiply(Decimal(a), Decimal(b))


def _over(a: Number, b: Number, context: Context) -> Number:
    """A quotient, exact where it is whole or ends, and otherwise rounded as the context says."""
    if isinstance(a, int) and isinstance(b, int) and a % b == 0:
        return a // b
    return context.divide(Decimal(a), Decimal(b))


class Interval:
    """The truth is at least `lo` and at most `hi`.

    Where `maybe_none` holds there may be no value at all, and where `none` holds there is none: then
    `lo` and `hi` raise NoValueError. An interval can't be changed.
    """

    __slots__ = ("_lo", "_hi", "_maybe_none")

    def __init__(self, lo: object, hi: object | None = None, *, maybe_none: bool = False) -> None:
        self._lo: Number | None = exact(lo)
        self._hi: Number | None = self._lo if hi is None else exact(hi)
        self._maybe_none = maybe_none
        if self.lo > self.hi:
            raise ValueError(f"an interval from {lo} to {hi} holds nothing")

    @classmethod
    def nothing(cls) -> Interval:
        """The answer that there surely is no value."""
        made = cls.__new__(cls)
        made._lo = made._hi = None
        made._maybe_none = False
        return made

    @property
    def lo(self) -> Number:
        """The truth isn't less."""
        if self._lo is None:
            raise NoValueError("there is no value")
        return self._lo

    @property
    def hi(self) -> Number:
        """The truth isn't greater."""
        if self._hi is None:
            raise NoValueError("there is no value")
        return self._hi

    @property
    def none(self) -> bool:
        """Whether there surely is no value."""
        return self._lo is None

    @property
    def maybe_none(self) -> bool:
        """Whether there may be no value."""
        return self._maybe_none

    @property
    def exact(self) -> bool:
        """Whether the truth is known: one number, or that there is no value."""
        return self._lo == self._hi and not self._maybe_none

    @property
    def mid(self) -> Number:
        """The middle, which is at most half of the width away from the truth."""
        return _over(_add(self.lo, self.hi), 2, EXACT)

    @property
    def width(self) -> Number:
        """How far apart the ends are."""
        return _add(self.hi, _times(self.lo, -1))

    def __contains__(self, value: object) -> bool:
        return not self.none and self.lo <= exact(value) <= self.hi

    def surely_below(self, other: Interval) -> bool:
        """Whether the one truth is less than the other, for certain."""
        return not (self._maybe_none or other._maybe_none) and self.hi < other.lo

    def surely_above(self, other: Interval) -> bool:
        """Whether the one truth is greater than the other, for certain."""
        return other.surely_below(self)

    def __and__(self, other: Interval) -> Interval:
        """Of two intervals that hold the same truth, what both hold."""
        if self.none or other.none:
            if (self.none or self._maybe_none) and (other.none or other._maybe_none):
                return Interval.nothing()
            raise ValueError(f"{self!r} and {other!r} can't hold the same")
        lo, hi = max(self.lo, other.lo), min(self.hi, other.hi)
        if lo > hi and self._maybe_none and other._maybe_none:
            return Interval.nothing()
        return Interval(lo, hi, maybe_none=self._maybe_none and other._maybe_none)

    # -- arithmetic: the result holds what comes of any truths that the operands hold

    def __add__(self, other: object) -> Interval:
        that = _interval(other)
        if that is None:
            return NotImplemented
        return self._plus(that)

    def __radd__(self, other: object) -> Interval:
        that = _interval(other)
        if that is None:
            return NotImplemented
        return self._plus(that)

    def __neg__(self) -> Interval:
        return self._with(self, _times(self.hi, -1), _times(self.lo, -1))

    def __sub__(self, other: object) -> Interval:
        that = _interval(other)
        if that is None:
            return NotImplemented
        return self._plus(that.__neg__())

    def __rsub__(self, other: object) -> Interval:
        that = _interval(other)
        if that is None:
            return NotImplemented
        return that._plus(self.__neg__())

    def __mul__(self, other: object) -> Interval:
        that = _interval(other)
        if that is None:
            return NotImplemented
        return self._by(that)

    def __rmul__(self, other: object) -> Interval:
        that = _interval(other)
        if that is None:
            return NotImplemented
        return self._by(that)

    def _plus(self, that: Interval) -> Interval:
        return self._with(that, _add(self.lo, that.lo), _add(self.hi, that.hi))

    def _by(self, that: Interval) -> Interval:
        ends = [_times(a, b) for a in (self.lo, self.hi) for b in (that.lo, that.hi)]
        return self._with(that, min(ends), max(ends))

    def __truediv__(self, other: object) -> Interval:
        that = _interval(other)
        if that is None:
            return NotImplemented
        if that.lo <= 0 <= that.hi:
            raise ZeroDivisionError(f"{that!r} may be 0")
        pairs = [(a, b) for a in (self.lo, self.hi) for b in (that.lo, that.hi)]
        return self._with(that, min(_over(a, b, _DOWN) for a, b in pairs),
                          max(_over(a, b, _UP) for a, b in pairs))

    def _with(self, other: Interval, lo: Number, hi: Number) -> Interval:
        return Interval(lo, hi, maybe_none=self._maybe_none or other._maybe_none)

    # -- as other things

    def __iter__(self) -> Iterator[Number]:
        """The two ends, so that `lo, hi = interval` takes it apart."""
        return iter((self.lo, self.hi))

    def __float__(self) -> float:
        """The nearest float of a truth that is known. Raises NoValueError where it isn't."""
        if not self.exact or self.none:
            raise NoValueError(f"{self} isn't one number: take lo, mid or hi")
        return float(self.lo)

    def __round__(self, digits: int = 0) -> Interval:
        """So many digits behind the point. The ends are rounded outwards, and hold the truth."""
        if self.none:
            return self
        lo, hi = _to_digits(self.lo, digits, ROUND_FLOOR), _to_digits(self.hi, digits, ROUND_CEILING)
        return Interval(lo, hi, maybe_none=self._maybe_none)

    def __format__(self, form: str) -> str:
        """As text. With a form for numbers, as `.1f`, both ends have it, rounded outwards."""
        found = _FORM.fullmatch(form)
        if found is None:
            return format(str(self), form)
        fill, side, sign, width, kind = found.groups()
        place = f"{fill or ''}{side or '>'}{width}"
        if self.none:
            return format("none", place)
        lo = _formatted(self.lo, sign + kind, ROUND_FLOOR)
        hi = _formatted(self.hi, sign + kind, ROUND_CEILING)
        text = lo if lo == hi else f"{lo} .. {hi}"
        return format(f"{text}, or none" if self._maybe_none else text, place)

    def scaled(self, factor: Number) -> Interval:
        """The same truth in another unit. Where there is no value there is none then."""
        return self if self.none or factor == 1 else self * factor

    def __eq__(self, other: object) -> bool:
        if isinstance(other, float):    # as a Decimal: by what the float is, to its last digit
            return self.exact and self._lo == other
        that = _interval(other)
        if that is None:
            return NotImplemented
        return (self._lo, self._hi, self._maybe_none) == (that._lo, that._hi, that._maybe_none)

    def __hash__(self) -> int:
        if self.exact:      # equal to its number, so found by it
            return hash(self._lo)
        return hash((self._lo, self._hi, self._maybe_none))

    def __reduce__(self) -> tuple[object, ...]:
        if self.none:
            return (Interval.nothing, ())
        return (_made, (self.lo, self.hi, self._maybe_none))

    def __str__(self) -> str:
        if self.none:
            return "none"
        ends = _text(self.lo) if self.lo == self.hi else f"{_text(self.lo)} .. {_text(self.hi)}"
        return f"{ends}, or none" if self._maybe_none else ends

    __repr__ = __str__


def _made(lo: Number, hi: Number, maybe_none: bool) -> Interval:
    return Interval(lo, hi, maybe_none=maybe_none)


def _text(value: Number) -> str:
    return str(value) if isinstance(value, int) else f"{value:f}"


def _to_digits(value: Number, digits: int, rounding: str) -> Number:
    """A number with so many digits behind the point, whole where there are none."""
    if isinstance(value, int) and digits >= 0:
        return value
    try:
        found = Decimal(value).quantize(Decimal(1).scaleb(-digits), context=Context(
            prec=EXACT.prec, rounding=rounding, Emin=MIN_EMIN, Emax=MAX_EMAX))
    except InvalidOperation:
        raise ValueError(f"a number can't be rounded to {digits} digits") from None
    return int(found) if digits <= 0 else found


def _formatted(value: Number, form: str, rounding: str) -> str:
    with localcontext(Context(prec=EXACT.prec, rounding=rounding, Emin=MIN_EMIN, Emax=MAX_EMAX)):
        return format(Decimal(value), form)


def _interval(value: object) -> Interval | None:
    """An interval, or a number as one. None where it is neither, so that Python says so."""
    if isinstance(value, Interval):
        return value
    is_float = isinstance(value, float) or getattr(getattr(value, "dtype", None), "kind", "") == "f"
    if isinstance(value, (int, Decimal)) and not is_truth_value(value) or is_float:
        return Interval(value)
    return None


def mean_of(total: Interval, count: Interval, least: Interval | None = None,
            greatest: Interval | None = None) -> Interval:
    """The mean of some values, from intervals of their sum and their number.

    The least and the greatest of them make it narrower. Where the number may be 0 there may be no
    mean, and the interval holds it if there is one. Its ends are rounded outwards where they have more
    than 12 digits more than the sum.
    """
    if count.hi <= 0:
        return Interval.nothing()
    counts = Fraction(max(1, count.lo)), Fraction(count.hi)
    places = max(places_of(total.lo), places_of(total.hi))
    lo = shortened(min(Fraction(total.lo) / each for each in counts), places, ROUND_FLOOR)
    hi = shortened(max(Fraction(total.hi) / each for each in counts), places, ROUND_CEILING)
    if least is not None and not least.none:
        lo = max(lo, least.lo)
    if greatest is not None and not greatest.none:
        hi = min(hi, greatest.hi)
    return Interval(lo, hi, maybe_none=count.lo <= 0)


def outward(value: Number, up: bool) -> float:
    """The nearest float that isn't less, or isn't greater."""
    near = float(value)
    truth = Fraction(value)
    if up and Fraction(near) < truth:
        return math.nextafter(near, math.inf)
    if not up and Fraction(near) > truth:
        return math.nextafter(near, -math.inf)
    return near


class Presence(enum.Enum):
    """Whether a value is there. MAYBE has no truth value."""

    ABSENT = "absent"
    PRESENT = "present"
    MAYBE = "maybe"

    def __bool__(self) -> bool:
        if self is Presence.MAYBE:
            raise TypeError("the store can't tell whether the value is there: compare with Presence.MAYBE")
        return self is Presence.PRESENT
