"""Plans: what is wished, what is surely kept to, and that nothing is wider than told."""

from __future__ import annotations

import json
import os
from collections.abc import Callable, Sequence
from dataclasses import replace
from fractions import Fraction
from itertools import accumulate
from pathlib import Path

import pytest
from hypothesis import given, settings
from hypothesis import strategies as st

from summarystore import plan, wishes
from summarystore.errors import SourceError
from summarystore.planner import (EMPTY_FILE, MOST_RECORDS, RECORD, SCALES, SHAPES, Planner, bytes_of,
                                  records_of)
from summarystore.store import Store
from summarystore.targets import GREATEST, Target, boundaries, defined_boundaries
from summarystore.wishes import SECONDS, Readings, Wish

from .test_targets import small

DAY, YEAR = SECONDS["d"], SECONDS["y"]
MINUTES = Readings(Fraction(60), 10 * YEAR, (Fraction(10), Fraction(50)))


# ---- what actually comes, by docs/DEFINITIONS.md -----------------------------------------

Interval = tuple[Fraction, Fraction]
Value = tuple[int, int]


def split(values: Sequence[Value], first: int, last: int) -> tuple[range, Callable[[int], tuple[int, int]]]:
    """How many values of a window may lie in a range of times, and between which sums so many lie."""
    times, (begin, end) = [time for time, _ in values], (values[0][0], values[-1][0])
    inside = max(0, min(last, end - 1) - max(first, begin + 1) + 1)
    outside = max(0, end - begin - 1) - inside
    ends = sum(first <= time <= last for time in {begin, end})
    total, low, high = sum(v for _, v in values), min(v for _, v in values), max(v for _, v in values)
    count = len(times)
    if ends == len({begin, end}):
        return range(count, count + 1), lambda x: (total, total)
    free = max(0, count - 2)
    may = range(ends + max(0, free - outside), ends + min(free, inside) + 1)
    return may, lambda x: (max(x * low, total - (count - x) * high), min(x * high, total - (count - x) * low))


def asked(values: Sequence[Value], ends: Sequence[int], first: int, last: int) -> tuple[Interval, Interval]:
    """The intervals of the count and of the sum."""
    counts, sums = [0, 0], [0, 0]
    for begin, end in zip([0, *ends], [*ends, len(values)]):
        may, between = split(values[begin:end], first, last)
        counts[0] += may[0]
        counts[1] += may[-1]
        sums[0] += min(between(x)[0] for x in may)
        sums[1] += max(between(x)[1] for x in may)
    return (Fraction(counts[0]), Fraction(counts[1])), (Fraction(sums[0]), Fraction(sums[1]))


def mean(counts: Interval, sums: Interval, least: int, greatest: int) -> Interval:
    """The interval of the mean, of values within these."""
    by = [max(Fraction(1), end) for end in counts]
    quotients = [total / many for total in sums for many in by]
    return max(min(quotients), Fraction(least)), min(max(quotients), Fraction(greatest))


@st.composite
def streams(draw: st.DrawFn) -> tuple[int, Sequence[Value]]:
    """Readings, none sooner than so much after the last."""
    every = draw(st.integers(1, 6))
    step = st.integers(every, every + draw(st.sampled_from([0, 1, 5])))
    steps = draw(st.lists(step, min_size=30, max_size=150))
    least = draw(st.integers(-9, 9))
    sizes = st.integers(least, least + draw(st.integers(0, 9)))
    values = draw(st.lists(sizes, min_size=len(steps), max_size=len(steps)))
    return every, list(zip(accumulate(steps), values))


@settings(max_examples=200)
@given(small, streams(), st.data())
def test_nothing_is_wider_than_told(target: Target, stream: tuple[int, Sequence[Value]],
                                    data: st.DataObject) -> None:
    every, values = stream
    now, least, greatest = values[-1][0], min(v for _, v in values), max(v for _, v in values)
    readings = Readings(Fraction(every), Fraction(now + 1), (Fraction(least), Fraction(greatest)))
    *_, ends = defined_boundaries(target, len(values))
    assert len(values) <= readings.count
    assert len(ends) + 1 <= target.most_windows(readings.count)
    for _ in range(3):
        age = data.draw(st.integers(0, now - every))
        span = data.draw(st.integers(every, now - age))
        last = now - age
        inside = [v for time, v in values if last - span < time <= last]
        counts, sums = asked(values, ends, last - span + 1, last)
        assert counts[0] <= len(inside) <= counts[1] and sums[0] <= sum(inside) <= sums[1]

        def half(kind: str) -> Fraction:
            return Wish("", kind, Fraction(span), Fraction(age), Fraction(0), False).half(target, readings)
        assert counts[1] - counts[0] <= 2 * half("count")
        assert sums[1] - sums[0] <= 2 * half("sum")
        if len(inside) >= span // every:        # as many as told; else a mean is of fewer
            lo, hi = mean(counts, sums, least, greatest)
            assert hi - lo <= 2 * half("mean")


# ---- plans -------------------------------------------------------------------------------

kinds = st.sampled_from(["count", "sum", "mean"])


@st.composite
def wished(draw: st.DrawFn) -> Wish:
    kind, span, age = draw(kinds), draw(st.sampled_from(["hour", "day", "month"])), draw(st.sampled_from(
        ["0s", "1h", "1d", "1w", "1y", "5y"]))
    return Wish.of(f"{kind} of {span} after {age} within {draw(st.integers(1, 40))}%")


@settings(max_examples=10)
@given(st.lists(wished(), min_size=1, max_size=3))
def test_plans_meet_the_wishes(given_wishes: Sequence[Wish]) -> None:
    """All that are told do, by the closed forms of others too, and with one window less in a group none
    of their shape and scale does."""
    planner = Planner(MINUTES, given_wishes)
    found = planner.plan()
    assert found.choices or found.why
    for choice in found.choices:
        assert planner.meets(choice.target) and choice.records <= MOST_RECORDS
        assert choice.bytes == EMPTY_FILE + RECORD * (2 + choice.windows)
        *shape, repeat, scale = choice.target.numbers
        assert repeat == 1 or not planner.meets(Target(choice.target.family, (*shape, repeat - 1, scale)))
    assert [choice.bytes for choice in found.choices] == sorted(choice.bytes for choice in found.choices)
    if found.nearest is not None:
        assert not planner.meets(found.nearest.target) and planner.has_room(found.nearest.target)


def test_no_smaller_one_is_missed() -> None:
    """Over all R and the scales that are tried, where there are few."""
    readings = Readings(SECONDS["h"], 30 * DAY)
    wish = Wish.of("day after 1w within 10%")
    planner = Planner(readings, [wish])
    tried = [Target(family, (*shape, repeat, scale)) for family, shape in SHAPES for scale in SCALES
             if scale < 20 for repeat in range(1, 100)]
    best = min(records_of(target, readings.count, 1) for target in tried if planner.meets(target))
    assert planner.plan().choices[0].records == best


def test_steps_take_windows() -> None:
    """Within a step there is one window more for each further one, and widths are those of the target."""
    wish = Wish.of("day after 1y within 5%")
    plain, stepped = Planner(MINUTES, [wish]), Planner(MINUTES, [wish], within=DAY)
    assert (plain.steps, stepped.steps) == (1, 3654)
    for target in (Target.of("exp 2 60 1"), Target.of("power 1 1 4 1")):
        one, other = plain.choice(target), stepped.choice(target)
        assert other.windows == one.windows + 3653 and other.halves == one.halves
        assert other.bytes == bytes_of(1 + (1 + other.windows))
    assert all(choice.windows > 3653 for choice in stepped.plan().choices)
    few = Planner(MINUTES, [wish], streams=200, within=DAY).plan()
    assert few.why and few.larger and f"{few.larger.records:,}" in few.why
    hours = Readings(Fraction(3600), 2 * DAY)
    short = Planner(hours, [Wish.of("day after 1h within 50")], within=Fraction(60))
    assert short.choice(Target.of("exp 2 1 1")).windows == 2 * 6 + 48 - 2
    for wrong in (Fraction(0), Fraction(-1)):
        with pytest.raises(SourceError):
            Planner(MINUTES, [wish], within=wrong)


def test_what_cannot_be_met() -> None:
    tight = Planner(MINUTES, [Wish.of("day after 1y within 5%")], most_bytes=10**6).plan()
    assert tight.why and tight.larger and tight.nearest and not tight.choices
    assert tight.nearest.bytes <= 10**6 < tight.larger.bytes and f"{tight.larger.bytes:,}" in tight.why
    many = Planner(MINUTES, [Wish.of("day after 1y within 5%")], streams=100).plan()
    assert many.why and "2^20 records" in many.why and "of 45 such streams" in many.why
    around = Readings(Fraction(60), YEAR, (Fraction(-5), Fraction(5)))
    zero = Planner(around, [Wish.of("sum of day after 1w within 5%")], most_bytes=10**6).plan()
    assert zero.why and "may be 0" in zero.why
    coarse = Planner(MINUTES, [Wish.of("day after 1y within 0")], scale=60).plan()
    assert coarse.why and coarse.larger is None and "no target" in coarse.why
    assert Planner(around, [Wish.of("sum of day after 1w within 900")]).plan().choices


@pytest.mark.parametrize("text, seconds", [
    ("60s", 60), ("1min", 60), ("15 minutes", 900), ("h", 3600), ("1.5h", 5400), ("2 weeks", 14 * 86400),
    ("ms", Fraction(1, 1000)), ("5y", 5 * 31557600), ("month", 30 * 86400), ("10us", Fraction(1, 10**5)),
    ("10/s", Fraction(1, 10)), ("4 / h", 900), ("1440/day", 60)])
def test_how_often(text: str, seconds: Fraction | int) -> None:
    assert wishes.every_of(text) == seconds


@pytest.mark.parametrize("text", ["", "5", "fortnight", "-1s", "0s", "0/s", "x/s", "1/", "1e3s", "1d 2h"])
def test_what_is_no_span(text: str) -> None:
    with pytest.raises(SourceError):
        wishes.every_of(text)


def test_wishes() -> None:
    one, same = Wish.of("day after 1y within 5%"), Wish.of("count of a  day after year within 5 %")
    assert replace(same, text=one.text) == one != replace(Wish.of("day after 1y within 5"), text=one.text)
    assert Wish.of("sum of a week after 2 years within 100").kind == "sum"
    for text in ("day", "day after 1y", "day within 5%", "day after 1y within x",
                 "max of day after 1y within 1", "0s after 1y within 1"):
        with pytest.raises(SourceError):
            Wish.of(text)
    bare = Readings(Fraction(60), YEAR)
    for text in ("sum of day after 1w within 1", "day after 1y within 1", "1s after 1w within 1"):
        with pytest.raises(SourceError):
            Planner(bare, [Wish.of(text)])
    with pytest.raises(SourceError):
        Readings(Fraction(1, 10**6), 100 * YEAR)
    for streams_, scale in ((0, None), (4097, None), (1, 0), (1, GREATEST + 1)):
        with pytest.raises(SourceError):
            Planner(bare, [Wish.of("day after 1w within 1")], streams_, scale=scale)
    with pytest.raises(SourceError):
        Planner(bare, [])


@pytest.mark.parametrize("text, number", [("5MB", 5 * 10**6), ("64KiB", 65536), ("1000", 1000),
                                          ("1 G", 10**9)])
def test_bytes(text: str, number: int) -> None:
    assert plan.bytes_of(text) == number


@given(st.fractions(0, 10**7))
def test_shown_numbers_are_no_less(number: Fraction) -> None:
    told = Fraction(plan.shown(number).replace(",", ""))
    assert number <= told <= number + max(Fraction(1, 10**4), number / 1000)


def test_the_command(folder: Path, capsys: pytest.CaptureFixture[str]) -> None:
    words = ["--every", "1min", "--years", "10", "--wish", "day after 1y within 5%"]
    assert plan.main([*words, "--show", "1"]) == 0
    *_, head, row = capsys.readouterr().out.splitlines()
    assert head.split() == ["target", "windows", "bytes", "wish", "1"] and row.startswith("exp 16 7325 72 ")
    assert plan.main([*words, "--json", "--plot", str(folder / "wide.svg")]) == 0
    facts = json.loads(capsys.readouterr().out)
    assert facts["met"] and facts["readings"] == 5_259_600 and facts["wishes"][0]["within"] == "72"
    first = facts["targets"][0]
    assert first == {"target": "exp 16 7325 72", "windows": 22865, "records": 22867,
                     "bytes": 36864 + 128 * 22867, "within": ["70"]}
    drawn = (folder / "wide.svg").read_text(encoding="utf-8")
    assert "</svg>" in drawn and "exp 16 7325 72" in drawn
    assert plan.main([*words, "--bytes", "1MB", "--plot", str(folder / "near.svg")]) == 1
    said = capsys.readouterr().out
    assert "no target surely meets this" in said and "comes nearest" in said
    assert plan.main([*words, "--within", "day", "--show", "1"]) == 0
    first_line, *_, row = capsys.readouterr().out.splitlines()
    assert first_line.endswith(", no window across a multiple of day")
    assert int(row.split()[4].replace(",", "")) > 2 * 3653
    assert plan.main([*words, "--within", "1.5h", "--json"]) == 0
    assert json.loads(capsys.readouterr().out)["step"] == "5400" and facts["step"] is None
    assert plan.main([*words, "--within", "0s"]) == 2
    assert "no step" in capsys.readouterr().err
    assert plan.main([*words, "--plot", str(folder / "wide.xyz")]) == 3
    assert plan.main([*words[:-1], "day after 1y"]) == 2
    assert "not a wish" in capsys.readouterr().err


# ---- the program -------------------------------------------------------------------------

@pytest.mark.parametrize("text, within, streams_", [
    ("exp 2 1 1", None, 3), ("power 1 1 4 1", None, 1), ("exp 3 5 2", None, 2), ("power 2 3 1 7", None, 1),
    ("exp 2 1 1", 24, 2), ("power 1 1 4 1", 10, 1), ("exp 2 1 1", 1, 1), ("exp 16 1 60", 365, 1)])
def test_the_file_is_no_longer_than_told(store: Store, path: Path, text: str, within: int | None,
                                         streams_: int) -> None:
    """Up to each of some numbers of values, where the windows are those of the definition."""
    target = Target.of(text)
    names, taken = [f"s{number}" for number in range(streams_)], 0
    steps = [time // within if within else 0 for time in range(1, 398)]
    defined = list(defined_boundaries(target, 397, steps))
    for name in names:
        store.create(name, text, within)
    for values in (1, 2, 5, 40, 397):
        for name in names:
            store.append_many(name, [(time, time % 7) for time in range(taken + 1, values + 1)])
        taken = values
        met = len(set(steps[:values]))
        assert {stream.windows for stream in store.list()} == {len(defined[values - 1]) + 1}
        assert within or len(defined[values - 1]) == len(boundaries(target, values))
        assert len(defined[values - 1]) < target.most_windows(values, met)
        assert os.path.getsize(path) <= bytes_of(records_of(target, values, streams_, met))
