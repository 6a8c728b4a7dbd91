"""Exact decimals: text that is a number, and no rounding unless it is asked for."""

from __future__ import annotations

import re
from decimal import (MAX_EMAX, MIN_EMIN, ROUND_CEILING, ROUND_FLOOR, Clamped, Context, Decimal,
                     DivisionByZero, Inexact, InvalidOperation, Overflow, Underflow)
from fractions import Fraction
from typing import SupportsIndex, Union

from .errors import NotANumberError

Number = Union[int, Decimal]
"""An exact number."""

# Exact or not at all: a result that doesn't fit so many digits raises, and none is rounded.
EXACT = Context(prec=2000, Emin=MIN_EMIN, Emax=MAX_EMAX,
                traps=[Clamped, DivisionByZero, Inexact, InvalidOperation, Overflow, Underflow])
NUMBER = re.compile(r"[+-]?(?:[0-9]+(?:\.[0-9]*)?|\.[0-9]+)(?:[eE][+-]?[0-9]{1,4})?")
# Longer text, or a greater exponent, is no value of 64 bits in any scale, and would take memory.
LONGEST = 400
MOST_EXPONENT = 200
MORE = 12
"""A quotient of numbers of a scale has at most so many digits more than the scale."""


def decimal_of(text: str) -> Decimal:
    """The number that a text spells: ASCII digits, at most one point, at most one exponent."""
    if len(text) > LONGEST or not NUMBER.fullmatch(text):
        raise NotANumberError(f"not a number: {text[:40]!r}")
    return _bounded(Decimal(text))


def is_truth_value(value: object) -> bool:
    """Whether this is True or False, also numpy's, which has an index and so looks like a number."""
    return isinstance(value, bool) or getattr(getattr(value, "dtype", None), "kind", "") == "b"


def exact(value: object) -> Number:
    """What a person gives as a value, as an exact number.

    A float stands for the shortest decimal that gives it: 21.5 is `21.5`, and 0.1 is `0.1`.
    """
    if isinstance(value, str):
        return decimal_of(value)
    if isinstance(value, Decimal):
        return _bounded(value)
    if is_truth_value(value) or getattr(value, "ndim", False):
        raise NotANumberError(f"not a number: {value}")
    if isinstance(value, int):
        return value
    if isinstance(value, SupportsIndex):
        return value.__index__()
    if isinstance(value, float) or getattr(getattr(value, "dtype", None), "kind", "") == "f":
        # The text of numpy's narrower floats is the shortest for their own width.
        return decimal_of(str(value))
    raise NotANumberError(f"not a number: {value!r}")


def _bounded(value: Decimal) -> Decimal:
    if not value.is_finite() or value and abs(value.adjusted()) > MOST_EXPONENT:
        raise NotANumberError(f"not a number of any stream: {value}")
    if len(value.as_tuple().digits) > LONGEST:
        raise NotANumberError("not a number of any stream: it has more than 400 digits")
    return value


def shortened(value: Fraction, places: int, rounding: str) -> Number:
    """A fraction as a decimal with so many digits behind the point, and as many more as it needs. Where it
    needs more than 12 it is rounded: down, up, or half to even."""
    digits = places + MORE
    found, rest = divmod(value.numerator * 10**digits, value.denominator)
    if rounding == ROUND_CEILING:
        found += rest > 0
    elif rounding != ROUND_FLOOR:
        twice = 2 * rest - value.denominator
        found += twice > 0 or twice == 0 and found % 2
    while digits > places and found % 10 == 0:
        found, digits = found // 10, digits - 1
    return Decimal(found).scaleb(-digits, EXACT) if digits else found


def places_of(value: Number) -> int:
    """How many digits a number has behind its point, without zeros at its end."""
    exponent = 0 if isinstance(value, int) else value.normalize(EXACT).as_tuple().exponent
    assert isinstance(exponent, int)
    return max(0, -exponent)
