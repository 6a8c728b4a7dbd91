"""What is known over several streams or stores together, from what is known of each.

A part is what one of them says of the kinds that an answer needs, all of one moment. Parts are joined
in any order and grouping: the parts of the streams of a store to one of the store, and those to one of
all stores.
"""

from __future__ import annotations

from collections.abc import Iterable, Mapping, Sequence

from .interval import Interval, mean_of

Part = Mapping[str, Interval]

FIGURES = ("count", "sum", "min", "max")
KINDS = (*FIGURES, "mean")
"""What is needed for a mean of several: that of each too, since theirs lies between these."""
ADDED = ("count", "sum", "integral")
"""What is 0 where there are no values."""
METERS = ("increase", "integral")
"""What meters are asked, which over several of them is the sum."""


def needed(kind: str) -> Sequence[str]:
    """What has to be known of each for an answer of this kind."""
    return KINDS if kind == "mean" else (kind,)


def empty(kinds: Iterable[str]) -> Part:
    """What is known of no streams, and of a stream without a value."""
    return {kind: Interval(0) if kind in ADDED else Interval.nothing() for kind in kinds}


def joined(kinds: Sequence[str], parts: Iterable[Part]) -> Part:
    """What is known of all of them."""
    listed = list(parts)
    return {kind: _joined(kind, [part[kind] for part in listed]) for kind in kinds}


def answer(kind: str, part: Part) -> Interval:
    """The answer of a kind. A mean is that of one of them, where no other may have a value."""
    if kind != "mean":
        return part[kind]
    found, each = mean_of_figures(part), part["mean"]
    if found.none or each.none:
        return Interval.nothing()
    lo, hi = max(found.lo, each.lo), min(found.hi, each.hi)
    return Interval(lo, hi, maybe_none=found.maybe_none) if lo <= hi else found


def mean_of_figures(part: Part) -> Interval:
    """What is known of a mean by the count, the sum, the least and the greatest alone."""
    return mean_of(part["sum"], part["count"], part["min"], part["max"])


def _joined(kind: str, intervals: Sequence[Interval]) -> Interval:
    if kind == "min":
        return least_of(intervals)
    if kind == "max":
        return greatest_of(intervals)
    if kind == "mean":
        return hull_of(intervals)
    return rise_of(intervals) if kind == "increase" else total_of(intervals)


def total_of(intervals: Iterable[Interval]) -> Interval:
    """Holds the sum of the truths that the intervals hold."""
    return sum(intervals, Interval(0))


def rise_of(intervals: Iterable[Interval]) -> Interval:
    """Holds the sum of the truths, where some of them may have none: a counter that took nothing didn't rise.

    There is none where none of them has one.
    """
    some = [each for each in intervals if not each.none]
    if not some:
        return Interval.nothing()
    found = sum((Interval(min(0, each.lo), max(0, each.hi)) if each.maybe_none else each for each in some),
                Interval(0))
    return Interval(found.lo, found.hi, maybe_none=all(each.maybe_none for each in some))


def least_of(intervals: Iterable[Interval]) -> Interval:
    """Holds the least of the truths that the intervals hold, where some of them may have none.

    It is at most the end of each that surely has a value. Where none surely has, one of them alone may
    have it, so the greatest end bounds it.
    """
    some = [each for each in intervals if not each.none]
    if not some:
        return Interval.nothing()
    sure = [each.hi for each in some if not each.maybe_none]
    hi = min(sure) if sure else max(each.hi for each in some)
    return Interval(min(each.lo for each in some), hi, maybe_none=not sure)


def greatest_of(intervals: Iterable[Interval]) -> Interval:
    """Holds the greatest of the truths, as `least_of` the least."""
    some = [each for each in intervals if not each.none]
    if not some:
        return Interval.nothing()
    sure = [each.lo for each in some if not each.maybe_none]
    lo = max(sure) if sure else min(each.lo for each in some)
    return Interval(lo, max(each.hi for each in some), maybe_none=not sure)


def hull_of(intervals: Iterable[Interval]) -> Interval:
    """From the least end to the greatest: between the means of those that have values lies that of all."""
    some = [each for each in intervals if not each.none]
    if not some:
        return Interval.nothing()
    return Interval(min(each.lo for each in some), max(each.hi for each in some),
                    maybe_none=all(each.maybe_none for each in some))
