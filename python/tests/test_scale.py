"""Decimals: exact at the ends of 64 bits, and nothing that isn't a number becomes one."""

from __future__ import annotations

from decimal import ROUND_CEILING, ROUND_FLOOR, ROUND_HALF_EVEN, Decimal
from fractions import Fraction

import numpy
import pytest
from hypothesis import given
from hypothesis import strategies as st

from summarystore import Interval, NotANumberError, ScaleError
from summarystore.decimals import MORE, places_of, shortened
from summarystore.scale import Scale, decimal_places

LEAST, GREATEST = -2**63, 2**63 - 1


@pytest.mark.parametrize("scale", ["1", "0.1", "0.001", "1e-18", "0.25", "0.3", "7", "10", "1e9", "0.05"])
@pytest.mark.parametrize("number", [LEAST, LEAST + 1, -1, 0, 1, 2**53 + 1, GREATEST - 1, GREATEST])
def test_there_and_back_at_the_ends(scale: str, number: int) -> None:
    made = Scale(Decimal(scale), None)
    value = made.value(number)
    assert Fraction(value) == number * Fraction(scale)
    assert made.number(value) == number
    assert made.number(f"{value:f}" if isinstance(value, Decimal) else str(value)) == number
    assert made.number(str(value)) == number


@given(st.integers(-2**127, 2**127), st.sampled_from(["0.1", "0.25", "1e-18", "3", "1"]))
def test_sums_of_128_bits(number: int, scale: str) -> None:
    made = Scale(Decimal(scale), None)
    assert Fraction(made.value(number)) == number * Fraction(scale)
    assert Fraction(made.interval(Interval(number, number)).lo) == number * Fraction(scale)


@pytest.mark.parametrize("value,number", [
    ("21.5", 215), (" 21.5", None), ("21.50", 215), ("21.55", None), ("-0.1", -1), ("+3", 30), (".5", 5),
    ("5.", 50), ("2e1", 200), ("21,5", None), ("1_0", None), ("٣", None), ("", None), ("-", None),
    ("nan", None), ("Infinity", None), ("1e999999999", None), ("9" * 1000, None), ("0x10", None),
    (21.5, 215), (0.1, 1), (0.30000000000000004, None), (float("nan"), None), (float("inf"), None),
    (Decimal("21.5"), 215), (Decimal("nan"), None), (21, 210), (True, None), (None, None), ([], None),
    (numpy.float32(21.3), 213), (numpy.float64(21.3), 213), (numpy.int64(-4), -40), (b"21.5", None),
    (numpy.float64("nan"), None), ("1/2", None), ("0e9999", 0), ("--1", None), ("1.2.3", None),
])
def test_what_is_a_number(value: object, number: int | None) -> None:
    made = Scale(Decimal("0.1"), None)
    if number is None:
        with pytest.raises((NotANumberError, ScaleError)):
            made.number(value)
    else:
        assert made.number(value) == number


@pytest.mark.parametrize("rounding,expected", [
    ("half-even", [2, 2, 4, -2, -2, 0, 1]), ("half-up", [2, 3, 4, -2, -3, 0, 1]),
    ("floor", [1, 2, 3, -2, -3, 0, 0]), ("ceiling", [2, 3, 4, -1, -2, 1, 1]),
])
@pytest.mark.parametrize("scale", ["0.1", "0.3", "4"])
def test_roundings(rounding: str, expected: list[int], scale: str) -> None:
    made = Scale(Decimal(scale), rounding)
    steps = ["1.5", "2.5", "3.5", "-1.5", "-2.5", "0.01", "0.99"]
    values = [Decimal(step) * Decimal(scale) for step in steps]
    assert [made.number(value) for value in values] == expected


@given(st.decimals(allow_nan=False, allow_infinity=False, min_value=-10**12, max_value=10**12, places=9))
def test_what_does_not_fit_is_refused(value: Decimal) -> None:
    made = Scale(Decimal("0.25"), None)
    if (Fraction(value) / Fraction(1, 4)).denominator == 1:
        assert made.number(value) == Fraction(value) * 4
    else:
        with pytest.raises(ScaleError):
            made.number(value)


def test_places() -> None:
    assert [decimal_places(text) for text in ("1", "1.50", "1e-3", "100", "2.5e1")] == [0, 1, 3, 0, 0]


@given(st.fractions(), st.integers(0, 9))
def test_fractions_that_are_shortened(value: Fraction, places: int) -> None:
    """Down, up and half to even, as Python rounds fractions."""
    step = Fraction(1, 10 ** (places + MORE))
    down, up, near = (shortened(value, places, rounding)
                      for rounding in (ROUND_FLOOR, ROUND_CEILING, ROUND_HALF_EVEN))
    assert Fraction(down) == value // step * step and Fraction(up) == -(-value // step) * step
    assert Fraction(near) == round(value / step) * step
    for found in (down, up, near):
        assert places_of(found) <= places + MORE and not isinstance(found, bool)
