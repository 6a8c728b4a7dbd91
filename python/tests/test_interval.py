"""Arithmetic with intervals holds the truth."""

from __future__ import annotations

import pickle
from decimal import Decimal
from fractions import Fraction

import numpy
import pytest
from hypothesis import given
from hypothesis import strategies as st

from summarystore import Interval, NoValueError, Presence, mean_of
from summarystore.interval import outward

WHOLE = st.integers(-2**130, 2**130)
NUMBERS = st.one_of(WHOLE, st.decimals(allow_nan=False, allow_infinity=False, places=6,
                                       min_value=-10**30, max_value=10**30))


@st.composite
def held(draw: st.DrawFn) -> tuple[Interval, Fraction]:
    """An interval and a truth that lies within."""
    ends = sorted([draw(NUMBERS), draw(NUMBERS)])
    low, high = map(Fraction, ends)
    return Interval(ends[0], ends[1]), low + (high - low) * Fraction(draw(st.integers(0, 1000)), 1000)


def holds(interval: Interval, truth: Fraction) -> bool:
    return Fraction(interval.lo) <= truth <= Fraction(interval.hi)


@given(held(), held())
def test_arithmetic_holds_the_truth(one: tuple[Interval, Fraction], other: tuple[Interval, Fraction]
                                    ) -> None:
    (a, x), (b, y) = one, other
    assert holds(a + b, x + y)
    assert holds(a - b, x - y)
    assert holds(a * b, x * y)
    assert holds(-a, -x)
    if not b.lo <= 0 <= b.hi:
        assert holds(a / b, x / y)


@given(held(), NUMBERS)
def test_numbers_as_operands(one: tuple[Interval, Fraction], number: int | Decimal) -> None:
    (a, x), n = one, Fraction(number)
    assert holds(a + number, x + n) and holds(number + a, x + n)
    assert holds(a - number, x - n) and holds(number - a, n - x)
    assert holds(a * number, x * n) and holds(number * a, x * n)
    if number:
        assert holds(a / number, x / n)


@given(st.lists(st.integers(-10**20, 10**20), min_size=1, max_size=20), st.integers(0, 5),
       st.integers(0, 10**6))
def test_means(values: list[int], loose: int, wide: int) -> None:
    total, count = sum(values), len(values)
    mean = mean_of(Interval(total - wide, total + wide), Interval(max(0, count - loose), count + loose),
                   Interval(min(values)), Interval(max(values)))
    assert holds(mean, Fraction(total, count))
    assert mean.maybe_none == (count <= loose)


@given(NUMBERS)
def test_floats_are_rounded_outwards(number: int | Decimal) -> None:
    assert Fraction(outward(number, False)) <= Fraction(number) <= Fraction(outward(number, True))


def test_what_a_person_reads() -> None:
    assert repr(Interval("21.4", "21.7")) == "21.4 .. 21.7"
    assert repr(Interval(5)) == "5"
    assert repr(Interval(1, 2, maybe_none=True)) == "1 .. 2, or none"
    assert repr(Interval.nothing()) == "none"
    assert repr(Interval(Decimal("1E+3"))) == "1000"


def test_properties() -> None:
    wide = Interval(1, 4)
    assert (wide.lo, wide.hi, wide.mid, wide.width, wide.exact) == (1, 4, Decimal("2.5"), 3, False)
    assert Interval(7).exact and Interval.nothing().exact
    assert not Interval(7, maybe_none=True).exact
    assert 1 in wide and 4 in wide and Decimal("2.5") in wide and 5 not in wide
    assert Interval(1, 2).surely_below(Interval(3, 4)) and Interval(3, 4).surely_above(2 * Interval(1))
    assert not Interval(1, 3).surely_below(Interval(3, 4))
    assert Interval(1, 5) & Interval(3, 9) == Interval(3, 5)
    assert sum([wide, wide, wide]) == Interval(3, 12)
    assert hash(Interval(1, 2)) == hash(Interval(1, 2)) and Interval(3) == 3
    assert pickle.loads(pickle.dumps(wide)) == wide
    assert pickle.loads(pickle.dumps(Interval.nothing())) == Interval.nothing()


@pytest.mark.parametrize("use", ["lo", "hi", "mid", "width"])
def test_what_has_no_value_has_no_ends(use: str) -> None:
    none = Interval.nothing()
    with pytest.raises(NoValueError):
        getattr(none, use)
    with pytest.raises(NoValueError):
        none + 1
    assert 5 not in none
    assert (Interval(1, maybe_none=True) + 1).maybe_none


def test_floats_are_equal_as_to_a_decimal() -> None:
    assert Interval("21.5") == 21.5 and 21.5 == Interval("21.5") and 21.5 in {Interval("21.5")}
    assert Interval("0.1") != 0.1 and Interval("0.1") != float("nan") and Interval(1, 2) != 1.0
    assert Interval(1, maybe_none=True) != 1.0 and Interval.nothing() != 0.0


def test_floats_stand_for_their_shortest_decimal() -> None:
    tenth = Interval("0.1")
    assert Interval(0.1) == tenth and 0.1 in tenth and Interval(numpy.float32(0.1)) == tenth
    assert Interval(1) + 0.1 == 0.1 + Interval(1) == Interval("1.1") and 0.3 - tenth == Interval("0.2")
    assert 3 * tenth * 0.1 == Interval("0.03") and tenth / 0.5 == Interval("0.2")
    with pytest.raises(ValueError):
        Interval(1) + float("nan")
    with pytest.raises(TypeError):
        Interval(1) + True


def test_as_a_float_where_it_is_known() -> None:
    assert float(Interval("21.5")) == 21.5
    for other in (Interval(1, 2), Interval(1, maybe_none=True), Interval.nothing()):
        with pytest.raises(NoValueError):
            float(other)


def test_taken_apart() -> None:
    low, high = Interval(1, 4)
    assert (low, high) == (1, 4)
    with pytest.raises(NoValueError):
        list(Interval.nothing())


@given(held(), st.integers(-3, 8))
def test_rounded_it_holds_the_truth(one: tuple[Interval, Fraction], digits: int) -> None:
    interval, truth = one
    found = round(interval, digits)
    assert holds(found, truth)
    assert Fraction(found.width) <= Fraction(interval.width) + 2 * Fraction(10) ** -digits
    low, _, high = f"{interval:.{abs(digits)}f}".partition(" .. ")
    assert Fraction(low) <= truth <= Fraction(high or low)


def test_forms() -> None:
    assert f"{Interval('21.44', '21.61'):.1f}" == "21.4 .. 21.7" and f"{Interval('21.5'):.2f}" == "21.50"
    assert f"{Interval(1, 2, maybe_none=True):+.1f}" == "+1.0 .. +2.0, or none"
    assert f"{Interval(5):>6}|{Interval(5):^7.1f}|{Interval.nothing():6.1f}" == "     5|  5.0  |  none"
    assert f"{Interval(10**6) / 3:,.1f}" == "333,333.3 .. 333,333.4" and f"{Interval(1, 2)}" == "1 .. 2"
    assert round(Interval(155, 166), -1) == Interval(150, 170) and round(Interval("1.5")) == Interval(1, 2)
    assert round(Interval.nothing(), 1).none
    with pytest.raises(ValueError):
        f"{Interval(1):.1q}"


def test_what_is_no_number_is_refused() -> None:
    for wrong in (True, "x", None, float("nan"), Decimal("nan"), "inf"):
        with pytest.raises((TypeError, ValueError)):
            Interval(wrong)
    with pytest.raises(ZeroDivisionError):
        Interval(1) / Interval(-1, 1)
    with pytest.raises(ValueError):
        Interval(2, 1)
    with pytest.raises(ValueError):
        Interval(1) & Interval(2)


def test_a_maybe_is_no_truth() -> None:
    assert Presence.PRESENT and not Presence.ABSENT
    with pytest.raises(TypeError):
        bool(Presence.MAYBE)
