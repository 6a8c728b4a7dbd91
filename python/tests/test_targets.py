"""Targets by the definitions: lengths by age, and how many windows stand."""

from __future__ import annotations

from collections.abc import Sequence
from fractions import Fraction
from itertools import accumulate, islice

import pytest
from hypothesis import given, settings
from hypothesis import strategies as st

from summarystore.targets import GREATEST, Target, boundaries, defined_boundaries, power_sum
from summarystore.wishes import Readings

small = st.one_of(
    st.builds(lambda *numbers: Target("exp", numbers), st.integers(2, 16), st.integers(1, 9),
              st.integers(1, 9)),
    st.builds(lambda *numbers: Target("power", numbers), st.integers(1, 4), st.integers(0, 3),
              st.integers(1, 9), st.integers(1, 9)))
targets = st.one_of(
    small,
    st.builds(lambda *numbers: Target("exp", numbers), st.integers(2, 16), st.integers(1, GREATEST),
              st.integers(1, GREATEST)),
    st.builds(lambda *numbers: Target("power", numbers), st.integers(1, 4), st.integers(0, 3),
              st.integers(1, GREATEST), st.integers(1, GREATEST)))
ages = st.one_of(st.integers(0, 300), st.integers(0, 1 << 40))


def test_rows_of_the_definitions() -> None:
    for text, lengths in (("exp 2 1 1", [1, 2, 4, 8, 16]), ("exp 3 2 1", [1, 1, 3, 3, 9]),
                          ("power 1 1 1 1", [1, 2, 3, 4, 5]), ("power 2 1 1 1", [1, 2, 2, 3, 3]),
                          ("power 1 0 1 2", [2, 2, 2, 2, 2])):
        found = [length for many, length in islice(Target.of(text).groups(), 5) for _ in range(many)]
        assert found[:5] == lengths
        assert [Target.of(text).length_at(sum(lengths[:at])) for at in range(5)] == lengths
    for text, standing in (("exp 2 1 1", [1, 2, 2, 3, 3, 4, 3]), ("power 1 1 1 1", [1, 2, 2, 3, 3, 4, 4]),
                           ("power 1 0 1 2", [1, 1, 2, 2, 3, 3, 4])):
        assert [len(ends) + 1 for ends in defined_boundaries(Target.of(text), 7)] == standing
    assert [power_sum(exponent, 10) for exponent in range(7)] == [10, 55, 385, 3025, 25333, 220825, 1978405]
    assert [Target.of("exp 2 1 1").cover(values) for values in (0, 1, 2, 3, 7, 8)] == [0, 1, 2, 2, 3, 4]


@pytest.mark.parametrize("text", ["exp 1 1 1", "exp 17 1 1", "exp 2 0 1", "exp 2 1 65537", "power 0 0 1 1",
                                  "power 5 0 1 1", "power 1 4 1 1", "power 1 0 0 1", "exp 2 1", "log 1 1 1"])
def test_what_is_no_target(text: str) -> None:
    with pytest.raises(ValueError):
        Target.of(text)


@given(targets, ages)
def test_lengths_by_age(target: Target, age: int) -> None:
    """The group that holds an age does so, and no length is above the closed form."""
    group = target.group_at(age)
    assert target.start(group) <= age < target.start(group + 1)
    assert target.start(group + 1) - target.start(group) == target.repeated(group) * target.length(group)
    assert target.windows_before(group + 1) - target.windows_before(group) == target.repeated(group)
    assert target.length_at(age) <= target.length_by_form(age)
    assert target.cover(age) <= target.cover_by_form(age)
    assert Target.of(str(target)) == target


@given(targets, ages, st.integers(1, GREATEST))
def test_more_windows_in_a_group(target: Target, age: int, repeat: int) -> None:
    """With a greater R no length at an age is greater, and no fewer windows cover the values."""
    *shape, fewer, scale = target.numbers
    one, more = (Target(target.family, (*shape, number, scale)) for number in sorted((fewer, repeat)))
    assert more.length_at(age) <= one.length_at(age)
    assert more.cover(age) >= one.cover(age)


@settings(max_examples=50)
@given(small, st.lists(st.integers(1, 9), min_size=1, max_size=120), st.integers(0, 30), st.integers(1, 30))
def test_what_stands_within_steps(target: Target, gaps: Sequence[int], start: int, within: int) -> None:
    """No window crosses a multiple of the step, none is longer than without it, and how many there are."""
    times = list(accumulate(gaps, initial=start))
    steps = [time // within for time in times]
    for values, ends in enumerate(defined_boundaries(target, len(times), steps), 1):
        met = len(set(steps[:values]))
        span = Fraction(times[values - 1] - start + 1)
        assert met <= Readings(Fraction(min(gaps)), span).steps(Fraction(within))
        assert len(ends) + 1 <= target.most_windows(values, met) <= target.most_windows(values + 1, met)
        assert target.most_windows(values, met) <= target.most_windows(values, met + 1)
        for before, end in zip([0, *ends], [*ends, values]):
            assert steps[before] == steps[end - 1] and end - before <= target.length_at(values - end)


def test_rows_of_steps() -> None:
    """One window more for each further step, and no more steps than values."""
    target = Target.of("exp 2 1 1")
    assert [target.most_windows(7, steps) for steps in (1, 2, 7, 8)] == [5, 6, 11, 11]
    assert [target.most_windows(values, 3) for values in (0, 1, 2)] == [0, 1, 4]
    day = Readings(Fraction(60), Fraction(86400))
    assert [day.steps(Fraction(step)) for step in (86400, 86399, 43200, 3600)] == [2, 3, 3, 25]


@given(small)
def test_what_stands(target: Target) -> None:
    """By the slow definition: how many windows stand, how long each is, and that the fast way finds them."""
    for values, ends in enumerate(defined_boundaries(target, 250), 1):
        assert list(ends) == list(boundaries(target, values))
        assert len(ends) + 1 <= target.most_windows(values) <= target.most_windows(values + 1)
        for before, end in zip([0, *ends], [*ends, values]):
            assert end - before <= target.length_at(values - end)
