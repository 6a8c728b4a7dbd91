"""What is known of several together holds the truth, however the parts are grouped."""

from __future__ import annotations

import math
from collections.abc import Mapping, Sequence
from fractions import Fraction

from hypothesis import given
from hypothesis import strategies as st

from summarystore import Interval
from summarystore.combining import (KINDS, Part, answer, empty, greatest_of, joined, least_of,
                                    mean_of_figures)

Values = Sequence[int]
SLACK = st.integers(0, 5)


def part_of(values: Values, sure: bool, slack: Mapping[str, tuple[int, int]]) -> Part:
    """Intervals that hold the truths of some values, wider than they have to be."""
    def around(kind: str, truth: int | Fraction) -> Interval:
        below, above = slack[kind]
        return Interval(math.floor(truth) - below, math.ceil(truth) + above,
                        maybe_none=kind in ("min", "max", "mean") and not sure)
    if not values:
        part = dict(empty(KINDS))
        if not sure:
            part["count"], part["sum"] = Interval(0, slack["count"][1]), around("sum", 0)
            part["min"], part["max"], part["mean"] = (around(kind, 0) for kind in ("min", "max", "mean"))
        return part
    below = min(slack["count"][0], len(values) - 1) if sure else len(values)
    return {"count": Interval(len(values) - below, len(values) + slack["count"][1]),
            "sum": around("sum", sum(values)), "min": around("min", min(values)),
            "max": around("max", max(values)), "mean": around("mean", Fraction(sum(values), len(values)))}


PARTS = st.lists(st.tuples(st.lists(st.integers(-20, 20), max_size=4), st.booleans(),
                           st.fixed_dictionaries({kind: st.tuples(SLACK, SLACK) for kind in KINDS})),
                 max_size=6)


def holds(kind: str, found: Interval, values: Values) -> bool:
    """Whether an answer holds the truth of some values."""
    if not values and kind not in ("count", "sum"):
        return found.none or found.maybe_none
    if kind == "mean":
        return Fraction(found.lo) <= Fraction(sum(values), len(values)) <= Fraction(found.hi)
    truth = {"count": len(values), "sum": sum(values)}.get(kind)
    if truth is not None:
        return truth in found
    return (min(values) if kind == "min" else max(values)) in found


@given(st.lists(st.tuples(st.integers(-9, 9), SLACK, SLACK, st.sampled_from(("sure", "maybe", "none")))))
def test_what_rose_together(given_rises: Sequence[tuple[int, int, int, str]]) -> None:
    """Of those that may have none each may or may not have its truth."""
    parts = [{"increase": Interval.nothing() if sure == "none" else
              Interval(truth - below, truth + above, maybe_none=sure == "maybe")}
             for truth, below, above, sure in given_rises]
    found = joined(("increase",), [empty(("increase",)), *parts])["increase"]
    sure = [truth for truth, _, _, kind in given_rises if kind == "sure"]
    maybe = [truth for truth, _, _, kind in given_rises if kind == "maybe"]
    assert found.none == (not sure and not maybe)
    if not found.none:
        assert found.maybe_none == (not sure)
        for more in (maybe, maybe[:1], maybe[1:]) if maybe else ([],):
            assert sum(sure) + sum(more) in found


@given(PARTS)
def test_the_truth_is_held(given_parts: Sequence[tuple[Values, bool, Mapping[str, tuple[int, int]]]]) -> None:
    parts = [part_of(*each) for each in given_parts]
    values = [value for each in given_parts for value in each[0]]
    whole = joined(KINDS, parts)
    for kind in KINDS:
        assert holds(kind, answer(kind, whole), values)
    if values:
        figures = mean_of_figures(whole)
        assert answer("mean", whole).width <= figures.width and holds("mean", figures, values)


@given(PARTS, st.integers(0, 6))
def test_grouping_changes_nothing(given_parts: Sequence[tuple[Values, bool, Mapping[str, tuple[int, int]]]],
                                  at: int) -> None:
    parts = [part_of(*each) for each in given_parts]
    whole = joined(KINDS, parts)
    assert joined(KINDS, [joined(KINDS, parts[:at]), joined(KINDS, parts[at:])]) == whole
    assert joined(KINDS, reversed(parts)) == whole


def test_the_least_and_the_greatest() -> None:
    none, maybe, sure = Interval.nothing(), Interval(1, 9, maybe_none=True), Interval(4, 6)
    assert least_of([]) == greatest_of([]) == least_of([none, none]) == none
    assert least_of([none, maybe]) == maybe and greatest_of([none, maybe]) == maybe
    assert least_of([maybe, sure, none]) == Interval(1, 6)
    assert greatest_of([maybe, sure, none]) == Interval(4, 9)
    assert least_of([maybe, Interval(5, 20, maybe_none=True)]) == Interval(1, 20, maybe_none=True)
    assert greatest_of([maybe, Interval(5, 20, maybe_none=True)]) == Interval(1, 20, maybe_none=True)
    assert least_of([Interval(2, 8), Interval(3, 5)]) == Interval(2, 5)
    assert greatest_of([Interval(2, 8), Interval(3, 5)]) == Interval(3, 8)


def test_the_mean_of_one_of_them() -> None:
    """Where no other may have a value it is as the store tells it, and else it lies between theirs."""
    one = {"count": Interval(1, 2), "sum": Interval(-3, 9), "min": Interval(-3, 9), "max": Interval(-3, 9),
           "mean": Interval("0.5", 4)}
    assert answer("mean", joined(KINDS, [empty(KINDS), one])) == Interval("0.5", 4)
    assert answer("mean", joined(KINDS, [one, {**one, "mean": Interval(2, 5)}])) == Interval("0.5", 5)
    assert answer("mean", joined(KINDS, [])).none and mean_of_figures(one) == Interval(-3, 9)
