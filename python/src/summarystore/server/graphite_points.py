"""What Graphite's functions make of the points of a series, computed on intervals.

A point is an interval that holds the truth, and the result holds what the function gives for each truth
that the points hold. A point may be `none`, as Graphite has no value there, or may perhaps be.
"""

from __future__ import annotations

from collections.abc import Callable, Iterable, Mapping, Sequence
from decimal import Decimal
from functools import reduce
from itertools import accumulate, groupby

from ..combining import greatest_of, least_of
from ..decimals import EXACT, Number
from ..interval import Interval

Points = Sequence[Interval]
NOTHING = Interval.nothing()


def perhaps(point: Interval) -> Interval:
    """The same, where there may be no value."""
    return point if point.none or point.maybe_none else Interval(point.lo, point.hi, maybe_none=True)


def hull(one: Interval, other: Interval) -> Interval:
    """Holds what either of two holds."""
    if one.none or other.none:
        return perhaps(other if one.none else one)
    return Interval(min(one.lo, other.lo), max(one.hi, other.hi),
                    maybe_none=one.maybe_none or other.maybe_none)


# ---- several points together --------------------------------------------------------------


def sum_of(points: Iterable[Interval]) -> Interval:
    """The sum of those that have a value, and none where none has."""
    some = [point for point in points if not point.none]
    if not some:
        return NOTHING
    total = sum((hull(Interval(point.lo, point.hi), Interval(0)) if point.maybe_none else point
                 for point in some), Interval(0))
    return perhaps(total) if all(point.maybe_none for point in some) else total


def mean_of(points: Iterable[Interval]) -> Interval:
    """The mean of those that have a value, and none where none has."""
    some = [point for point in points if not point.none]
    sure = [point for point in some if not point.maybe_none]
    open_ones = [point for point in some if point.maybe_none]
    if not some:
        return NOTHING
    # Those that may be none count where they make the mean greater, or less.
    hi = -_least_mean([-point for point in sure], [-point for point in open_ones])
    lo = _least_mean(sure, open_ones)
    return Interval(lo.lo, hi.hi, maybe_none=not sure)


def _least_mean(sure: Points, open_ones: Points) -> Interval:
    """The least mean of all that are sure and some that are open, rounded outwards."""
    total, count = reduce(_add, (point.lo for point in sure), Decimal(0)), len(sure)
    for end in sorted(point.lo for point in open_ones):
        if count and EXACT.multiply(Decimal(end), Decimal(count)) >= total:
            break
        total, count = _add(total, end), count + 1
    return Interval(total) / count


def count_of(points: Iterable[Interval]) -> Interval:
    """How many have a value."""
    some = [point for point in points if not point.none]
    return Interval(sum(not point.maybe_none for point in some), len(some))


def last_of(points: Sequence[Interval]) -> Interval:
    """The last that has a value."""
    found = NOTHING
    for point in reversed(points):
        if not point.none:
            found = point if found.none else hull(Interval(found.lo, found.hi), point)
            if not point.maybe_none:
                return found if not found.maybe_none else Interval(found.lo, found.hi)
    return found


TOGETHER: Mapping[str, Callable[[Points], Interval]] = {
    "sum": sum_of, "mean": mean_of, "min": least_of, "max": greatest_of, "count": count_of, "last": last_of}
"""What of several points makes one, by its kind."""


def moving_mean(points: Points, window: int) -> Points:
    """Of each point from `window` on the mean of so many before it."""
    sums = [list(accumulate((0 if point.none or point.maybe_none else end(point) for point in points),
                            _add, initial=Decimal(0))) for end in (_lo, _hi)]
    sure = list(accumulate((not (point.none or point.maybe_none) for point in points), initial=0))
    open_ones = list(accumulate((point.maybe_none for point in points), initial=0))

    def mean(at: int) -> Interval:
        begin = at - window
        if open_ones[at] > open_ones[begin]:
            return mean_of(points[begin:at])
        count = sure[at] - sure[begin]
        ends = (EXACT.subtract(each[at], each[begin]) for each in sums)
        return Interval(*ends) / count if count else NOTHING
    return [mean(at) for at in range(window, len(points))]


def _add(one: Decimal, other: Number) -> Decimal:
    return EXACT.add(one, Decimal(other))


def _lo(point: Interval) -> Number:
    return point.lo


def _hi(point: Interval) -> Number:
    return point.hi


# ---- one point after another --------------------------------------------------------------


def scaled(points: Points, factor: Decimal) -> Points:
    """Each times a factor."""
    return [point if point.none else point * factor for point in points]


def moved(points: Points, amount: Decimal) -> Points:
    """Each and an amount."""
    return [point if point.none else point + amount for point in points]


def derivative(points: Points) -> Points:
    """How much each is more than the one before."""
    pairs = zip([NOTHING, *points], points)
    return [NOTHING if before.none or point.none else point - before for before, point in pairs]


def rises(points: Points, most: Decimal | None, least: Decimal | None) -> Points:
    """How much a counter rose to each, where what falls was begun anew: by `most` and `least` if given."""
    inside = [_inside(point, most, least) for point in points]
    return [_rise(before, point, most, least) for before, point in zip([NOTHING, *inside], inside)]


def _inside(point: Interval, most: Decimal | None, least: Decimal | None) -> Interval:
    """A point, but for what is above `most` or below `least`: that is no value."""
    if point.none:
        return point
    lo = point.lo if least is None else max(point.lo, least)
    hi = point.hi if most is None else min(point.hi, most)
    if lo > hi:
        return NOTHING
    return Interval(lo, hi, maybe_none=point.maybe_none or (lo, hi) != (point.lo, point.hi))


def _rise(before: Interval, point: Interval, most: Decimal | None, least: Decimal | None) -> Interval:
    if before.none or point.none:
        return NOTHING
    change = point - before
    rose, fell = change.hi >= 0, change.lo < 0
    found = []
    if rose:
        found.append(Interval(max(0, change.lo), change.hi, maybe_none=change.maybe_none))
    if fell and most is not None:
        again = Interval(change.lo, min(0, change.hi), maybe_none=change.maybe_none)
        found.append(again + most + 1 - (least or 0))
    elif fell and least is not None:
        found.append(perhaps(point - least) if change.maybe_none else point - least)
    elif fell:
        found.append(NOTHING)
    return reduce(hull, found)


def kept(points: Points, limit: int | None) -> Points:
    """Where there is none the last value, in gaps of at most so many points."""
    found = list(points)
    before, begin = NOTHING, 0
    for at, point in enumerate([*points, Interval(0)]):
        if not (point.none or point.maybe_none):
            found[begin:at] = _filled(before, points[begin:at], limit)
            before, begin = point, at + 1
    return found


def _filled(before: Interval, gap: Points, limit: int | None) -> Points:
    """What stands in a gap behind a value: points that are none, or may be.

    Whether it is too long isn't known where some of it may have a value.
    """
    short = limit is None or len(gap) <= limit
    found: list[Interval] = []
    last = before
    for is_none, group in groupby(gap, lambda point: point.none):
        run = list(group)
        if is_none:
            is_lost = limit is not None and len(run) > limit
            found += [NOTHING if is_lost else last if short else perhaps(last)] * len(run)
            continue
        for point in run:
            last = hull(last, Interval(point.lo, point.hi))
            found.append(last if short else perhaps(last))
    return found
