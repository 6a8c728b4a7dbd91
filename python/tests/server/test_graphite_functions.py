"""Graphite's functions on intervals: as Graphite has them where all is known, and else with the truth."""

from __future__ import annotations

import itertools
from collections.abc import Callable, Sequence
from decimal import Decimal
from fractions import Fraction
from functools import partial

import pytest
from hypothesis import given
from hypothesis import strategies as st

from summarystore.interval import Interval
from summarystore.server import graphite_points as points_of
from summarystore.server.graphite_calls import target_of
from summarystore.server.graphite_targets import TargetError

from ..waiting import run
from .conftest import Serving
from .test_graphite_out import BASE, Client, asking

Value = Fraction | None
Values = Sequence[Value]

# ---- where all is known -------------------------------------------------------------------

GIVEN = (None, 5, 7, None, None, 3, 9, None, 2, 2, None, None, None, 4)
COUNTER = (5, 7, 3, 9, 2, 2, 4)
rises = points_of.rises


def points(values: Sequence[int | None]) -> list[Interval]:
    return [Interval.nothing() if value is None else Interval(value) for value in values]


@pytest.mark.parametrize("function, given, wanted", [
    (points_of.derivative, GIVEN,
     (None, None, 2, None, None, None, 6, None, None, 0, None, None, None, None)),
    (partial(rises, most=None, least=None), GIVEN,
     (None, None, 2, None, None, None, 6, None, None, 0, None, None, None, None)),
    (partial(rises, most=Decimal(9), least=None), COUNTER, (None, 2, 6, 6, 3, 0, 2)),
    (partial(rises, most=Decimal(8), least=Decimal(3)), COUNTER, (None, 2, 2, None, None, None, None)),
    (partial(rises, most=None, least=Decimal(3)), COUNTER, (None, 2, 0, 6, None, None, None)),
    (partial(points_of.kept, limit=None), GIVEN, (None, 5, 7, 7, 7, 3, 9, 9, 2, 2, 2, 2, 2, 4)),
    (partial(points_of.kept, limit=1), GIVEN, (None, 5, 7, None, None, 3, 9, 9, 2, 2, None, None, None, 4)),
    (partial(points_of.kept, limit=2), GIVEN, (None, 5, 7, 7, 7, 3, 9, 9, 2, 2, None, None, None, 4)),
    (partial(points_of.moving_mean, window=2), GIVEN, (5, 6, 7, None, 3, 6, 9, 2, 2, 2, None, None)),
    (partial(points_of.scaled, factor=Decimal(-2)), GIVEN,
     (None, -10, -14, None, None, -6, -18, None, -4, -4, None, None, None, -8)),
    (partial(points_of.moved, amount=Decimal(3)), GIVEN,
     (None, 8, 10, None, None, 6, 12, None, 5, 5, None, None, None, 7))])
def test_as_graphite_has_it(function: Callable[[points_of.Points], points_of.Points],
                            given: Sequence[int | None], wanted: Sequence[int | None]) -> None:
    """The values are those of graphite-web 1.1.8."""
    assert function(points(given)) == points(wanted)


@pytest.mark.parametrize("kind, wanted", [("sum", (12, 12, 4, 4)), ("mean", (6, 6, 2, 4)),
                                          ("max", (7, 9, 2, 4)), ("last", (7, 9, 2, 4))])
def test_together_as_graphite_has_it(kind: str, wanted: Sequence[int]) -> None:
    found = [points_of.TOGETHER[kind](points(GIVEN[at:at + 4])) for at in range(0, len(GIVEN), 4)]
    assert found == points(wanted)


# ---- and where it isn't -------------------------------------------------------------------

ENDS = st.integers(-6, 6)


@st.composite
def unsure(draw: st.DrawFn) -> list[tuple[Value, Interval]]:
    """Some truths, each with an interval that holds it."""
    found: list[tuple[Value, Interval]] = []
    for _ in range(draw(st.integers(0, 7))):
        lo, hi = sorted((draw(ENDS), draw(ENDS)))
        kind = draw(st.sampled_from(("none", "sure", "perhaps", "not")))
        truth = Fraction(draw(st.integers(lo, hi)))
        if kind == "none":
            found.append((None, Interval.nothing()))
        else:
            found.append((None if kind == "not" else truth, Interval(lo, hi, maybe_none=kind != "sure")))
    return found


def holds(point: Interval, truth: Value) -> bool:
    if truth is None:
        return point.none or point.maybe_none
    return not point.none and Fraction(point.lo) <= truth <= Fraction(point.hi)


def derivative(values: Values) -> Values:
    return [None if before is None or value is None else value - before
            for before, value in zip([None, *values], values)]


def counted(values: Values, most: int | None, least: int | None) -> Values:
    found: list[Value] = []
    before: Value = None
    for value in values:
        if value is None or most is not None and value > most or least is not None and value < least:
            value = None
        if before is None or value is None:
            found.append(None)
        elif value >= before:
            found.append(value - before)
        elif most is not None:
            found.append(most + 1 + value - before - (least or 0))
        else:
            found.append(None if least is None else value - least)
        before = value
    return found


def kept(values: Values, limit: int | None) -> Values:
    found: list[Value] = []
    before: Value = None
    for is_none, group in itertools.groupby(values, lambda value: value is None):
        run_ = list(group)
        if is_none:
            found += [None if limit is not None and len(run_) > limit else before] * len(run_)
        else:
            found += run_
            before = run_[-1]
    return found


def mean(values: Values) -> Value:
    some = [value for value in values if value is not None]
    return sum(some, Fraction(0)) / len(some) if some else None


def moving(values: Values, window: int) -> Values:
    return [mean(values[at - window:at]) for at in range(window, len(values))]


BOUNDS = st.one_of(st.none(), ENDS)


def decimal(bound: int | None) -> Decimal | None:
    return None if bound is None else Decimal(bound)


@given(unsure(), BOUNDS, BOUNDS, st.integers(1, 4))
def test_each_holds_the_truth(given_: list[tuple[Value, Interval]], most: int | None, least: int | None,
                              window: int) -> None:
    truths, found = [each[0] for each in given_], [each[1] for each in given_]
    for wanted, function in (
            (derivative(truths), points_of.derivative(found)),
            (counted(truths, most, least), points_of.rises(found, decimal(most), decimal(least))),
            (kept(truths, window), points_of.kept(found, window)),
            (kept(truths, None), points_of.kept(found, None)),
            (moving(truths, window), points_of.moving_mean(found, window)),
            ([None if each is None else -3 * each for each in truths], points_of.scaled(found, Decimal(-3))),
            ([None if each is None else each + 2 for each in truths], points_of.moved(found, Decimal(2)))):
        assert len(wanted) == len(function)
        assert all(map(holds, function, wanted)), (function, wanted)


@given(unsure())
def test_together_holds_the_truth(given_: list[tuple[Value, Interval]]) -> None:
    some = [each[0] for each in given_ if each[0] is not None]
    truths: dict[str, Value] = {
        "sum": sum(some, Fraction(0)) if some else None, "mean": mean(some), "min": min(some, default=None),
        "max": max(some, default=None), "last": some[-1] if some else None, "count": Fraction(len(some))}
    for kind, truth in truths.items():
        assert holds(points_of.TOGETHER[kind]([each[1] for each in given_]), truth), kind


# ---- over a store -------------------------------------------------------------------------


async def drawn(client: Client, target: str, points_: int = 10) -> dict[str, list[list[float | None]]]:
    """The points of a target over ten minutes, by the names of its series."""
    found = await client.get("/render", {"target": target, "from": str(BASE), "until": str(BASE + 599),
                                         "maxDataPoints": str(points_)})
    assert isinstance(found, list), found
    return {each["target"]: each["datapoints"] for each in found}


def test_names(serving: Serving) -> None:
    async def work() -> None:
        async with asking(serving) as client:
            for target, names in (
                    ("aliasByNode(home.*.*, 1, -1)", ["attic.power", "living_room.temperature"]),
                    ("aliasByNode(sumSeries(home.*.power), 0, 9)", ["home."]),
                    ("scale(plain, 0.0010)", ["scale(plain,0.001)"]),
                    ("offset(plain,-2.50)", ["offset(plain,-2.5)"]),
                    ('summarize(plain, "1min", "avg", true)', ['summarize(plain, "1min", "avg", true)']),
                    ("summarize(plain, '1min')", ['summarize(plain, "1min", "sum")']),
                    ("movingAverage(plain,2)", ["movingAverage(plain,2)"]),
                    ("movingAverage(plain,'2min')", ['movingAverage(plain,"2min")']),
                    ("sum(plain, home.attic.power)", ["sumSeries(plain,home.attic.power)"]),
                    ("averageSeries(home.*.power)", ["averageSeries(home.*.power)"]),
                    ("derivative(keepLastValue(plain, 3))", ["derivative(keepLastValue(plain))"]),
                    ("sumSeries(nothing.*)", [])):
                assert list(await drawn(client, target)) == names, target
    run(work())


def test_values(serving: Serving) -> None:
    """Minutes of `plain`: its 60 values stand in the first, and `power` has one value a minute."""
    async def work() -> None:
        async with asking(serving) as client:
            async def values(target: str, points_: int = 10) -> list[float | None]:
                (found,) = (await drawn(client, target, points_)).values()
                return [value for value, _ in found]
            power = "home.attic.power"
            assert (await values(f"scale({power}, -2)"))[:3] == [0, -2, -4]
            assert (await values(f"consolidateBy(scale({power}, -2), 'min')", 5))[:2] == [-2, -6]
            assert (await values(f"derivative({power})"))[:3] == [None, 1, 1]
            assert (await values(f"nonNegativeDerivative(scale({power}, -1), 9)"))[:3] == [None, 9, 9]
            assert (await values(f"movingAverage({power}, 2)"))[:4] == [None, 0, 0.5, 1.5]
            assert (await values(f"sumSeries({power}, plain)"))[:3] == [29.5, 1, 2]
            assert (await values(f"averageSeries({power}, plain)"))[:3] == [14.75, 1, 2]
            assert (await values("keepLastValue(plain)"))[:3] == [29.5] * 3
            assert (await values("keepLastValue(plain, 3)"))[:3] == [29.5, None, None]
            assert await values(f"summarize(scale({power}, 2), '5min', 'sum')") == [20, 70]
            assert await values(f"summarize(offset({power}, 1), '5min', 'max')") == [5, 10]
            assert await values(f"summarize({power}, '5min', 'last')") == [4, 9]
            assert await values("summarize(plain, '5min', 'count')") == [60, 0]
            assert await values(f"summarize(nonNegativeDerivative({power}), '5min')") == [4, 5]
            assert await values(f"movingAverage(summarize({power}, '5min'), 1)") == [0, 10]
            assert await values(f"summarize(sumSeries({power}, plain), '5min')") == [10 + 1770, 35]
    run(work())


def test_the_band_of_a_result(serving: Serving) -> None:
    """`.lo` and `.hi` within a function are the ends of what it gives, and hold the truth."""
    name = "home.living_room.temperature"
    truth = [sum(second % 100 for second in range(10 * at, 10 * at + 10)) / 100 for at in range(60)]
    forms: dict[str, Sequence[float | None]] = {
        "scale({},-10)": [-10 * each for each in truth],
        "derivative({})": [None, *(b - a for a, b in zip(truth, truth[1:]))],
        "sumSeries({},offset({},1))": [2 * each + 1 for each in truth]}

    async def work() -> None:
        async with asking(serving) as client:
            for form, wanted in forms.items():
                (low,) = (await drawn(client, form.replace("{}", f"{name}.lo"), 60)).values()
                (high,) = (await drawn(client, form.replace("{}", f"{name}.hi"), 60)).values()
                for (least, at), (most, _), value in zip(low, high, wanted):
                    if value is not None:
                        assert least is not None and most is not None
                        assert least - 1e-9 <= value <= most + 1e-9, (form, at)
                assert any(least != most for (least, _), (most, _) in zip(low, high))
    run(work())


WRONG = ("scale(plain)", "scale(plain, x)", "scale('plain', 2)", "offset(plain, 1, 2)", "aliasByNode(plain)",
         "aliasByNode(plain, 1.5)", "movingAverage(plain, 0)", "movingAverage(plain, 'soon')",
         "movingAverage(plain)", "summarize(plain)", "summarize(plain, '1h', 'median')",
         "summarize(plain, '1h', 'sum', 1)", "keepLastValue(plain, -1)", "nonNegativeDerivative(plain, x)",
         "sumSeries()", "derivative(plain, 1)", "constantLine(x)", "alias(constantLine(1), 'x')",
         "consolidateBy(plain, 'sd')", "alias(plain, n)", "scale(plain, 1e999)")


@pytest.mark.parametrize("target", WRONG)
def test_wrong_arguments(target: str) -> None:
    with pytest.raises((TargetError, ValueError)):
        target_of(target)


def test_what_can_not_be_drawn(serving: Serving) -> None:
    async def work() -> None:
        async with asking(serving) as client:
            for target in ("sumSeries(plain, plain.hi)", "summarize(home.attic.power, '90s')",
                           "sumSeries(plain, summarize(plain, '5min'))", "movingAverage(plain, '1s')",
                           "summarize(derivative(summarize(plain, '4min')), '6min')",
                           f"sumSeries({','.join(['movingAverage(plain, 9999)'] * 60)})",
                           "scale(" * 17 + "plain" + ",2)" * 17):
                words = {"target": target, "from": str(BASE), "until": str(BASE + 599), "maxDataPoints": "10"}
                assert await client.get("/render", words) == (400, "bad_request"), target
    run(work())
