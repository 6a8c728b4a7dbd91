"""Means as the program tells them: fractions, shown by the scale, and what an older one is asked instead."""

from __future__ import annotations

import asyncio
from collections.abc import Callable, Sequence
from decimal import ROUND_HALF_EVEN, Decimal
from fractions import Fraction
from pathlib import Path

import pytest
from hypothesis import given
from hypothesis import strategies as st

import summarystore
from summarystore import (Estimate, Interval, aio, calls, certificate, errors, mean_of, means, older,
                          row_calls)
from summarystore.codec import PlainCodec
from summarystore.decimals import shortened
from summarystore.description import Description
from summarystore.kinds import ENDS
from summarystore.names import DescribedCodec
from summarystore.store import Store
from summarystore.wire import Reply

from .conftest import must_have_means

A = PlainCodec("a")
SEVEN = list(zip(range(10, 80, 10), (5, -3, 8, 1, 9, 2, 7)))
OF_SEVEN = [((10, 25), "-3 8"), ((25, 55), "-1 17/2"), ((45, 55), "2 9"), ((50, 70), "6 6"),
            ((0, 100), "29/7 29/7"), ((15, 34), "-3 8 maybe-none"), ((71, 80), "none")]
"""What the store of the guide answers to `query a mean`."""
SHOWN = ["-3 .. 8", "-1 .. 8.5", "2 .. 9", "6", "4.142857142857 .. 4.142857142858", "-3 .. 8, or none",
         "none"]
ROWS = [((0, 100, 25), ["0 -3 8", "25 -3 8", "50 6 6", "75 none", "100 none"]),
        ((10, 70, 61), ["10 29/7 29/7"]), ((25, 55, 31), ["25 -1 17/2"]),
        ((20, 39, 10), ["20 -3 8 maybe-none", "30 -3 8 maybe-none"])]
WINDOWS = ["1 4 4 11 -3 8 10 40", "5 6 2 11 2 9 50 60", "7 7 1 7 7 7 70 70"]
CERTIFIED = [
    (("hi", 25, 55), "17/2 0 0 2", Fraction(17, 2),
     ["inside 1 4 1 8*1", "outside 1 4 3 -3*1 -2*1 8*1", "inside 5 6 1 9*1", "outside 5 6 1 2*1"]),
    (("lo", 25, 55), "-1 0 0 2", Fraction(-1),
     ["inside 1 4 2 -3*1 -2*1", "outside 1 4 2 8*2", "inside 5 6 1 2*1", "outside 5 6 1 9*1"]),
    (("lo", 0, 100), "29/7 29 7 0", Fraction(29, 7), []),
    (("hi", 80, 90), "none 0 0 0", None, []),
    (("hi", 15, 34), "8 0 0 1", Fraction(8), ["inside 1 4 1 8*1", "outside 1 4 3 -3*1 -2*1 8*1"])]


def asked(call: calls.Call[Interval], head: str) -> Interval:
    """What a question is answered by one reply."""
    assert len(call.lines) == 1
    return call.answer([Reply(head)])


def test_a_mean_is_asked_of_the_program() -> None:
    found = [calls.query(A, "mean", *span) for span, _ in OF_SEVEN]
    assert [call.lines for call in found] == [[f"query a mean {a} {b}"] for (a, b), _ in OF_SEVEN]
    assert [str(asked(call, f"mean {text}")) for call, (_, text) in zip(found, OF_SEVEN)] == SHOWN
    assert asked(found[3], "mean 6 6").exact and asked(found[6], "mean none").none
    with pytest.raises(errors.RangeError):
        asked(found[0], "refused RANGE")


def test_rows_of_means() -> None:
    for span, rows in ROWS:
        call = row_calls.series("a", A, "mean", *span)
        assert call.lines == ["series a mean {} {} {}".format(*span)]
        found = call.answer([Reply(f"series {len(rows)}", rows)])
        assert [row.start for row in found] == [int(row.split(" ")[0]) for row in rows]
        assert [row.interval for row in found] == [
            asked(calls.query(A, "mean", 0, 1), f"mean {row.partition(' ')[2]}") for row in rows]


@pytest.mark.parametrize("scale, text, shown", [
    ("0.1", "215 215", "21.5"), ("0.1", "43/2 65/3", "2.15 .. 2.1666666666667"),
    ("0.1", "-1/3 1/3", "-0.0333333333334 .. 0.0333333333334"), ("0.25", "1 3/2", "0.25 .. 0.375"),
    ("1000", "1/3 2", "333.333333333333 .. 2000"), ("1", "1/4096 1", "0.000244140625 .. 1"),
    ("1", "1/8192 1", "0.000122070312 .. 1"),
    ("0.01", "1/1000000000000000000 1 maybe-none", "0.00 .. 0.01, or none"),
    ("1", "9223372036854775807 9223372036854775807", "9223372036854775807")])
def test_by_the_scale(scale: str, text: str, shown: str) -> None:
    """A fraction has at most 12 digits more than the scale, and is rounded outwards where it has more."""
    codec = DescribedCodec("a", Description(Decimal(scale)), None)
    assert str(asked(calls.query(codec, "mean", 0, 9), f"mean {text}")) == shown


@given(st.fractions(), st.fractions(), st.sampled_from(("1", "0.1", "0.25", "1000", "0.000001")))
def test_the_truth_is_held(one: Fraction, other: Fraction, scale: str) -> None:
    lo, hi = sorted((one, other))
    codec = DescribedCodec("a", Description(Decimal(scale)), None)
    found = means.shown(codec, means.Mean(lo, hi))
    step = Fraction(scale)
    assert Fraction(found.lo) <= lo * step <= hi * step <= Fraction(found.hi)
    assert Fraction(found.width) <= (hi - lo) * step + 2 * Fraction(1, 10**12)
    estimate = means.estimate_shown(codec, f"{lo} {hi} {hi}")
    assert estimate.guess is not None and estimate.guess in estimate.interval


@pytest.mark.parametrize("text", [
    "", "1", "1 2 3", "1 x", "1 2.5", "2 1", "2/4 1", "1/1 2", "1/0 2", "1 2/-3", "-0/2 1", "1 2 maybe",
    "none none", "0/3 1", "1 2 maybe-none maybe-none"])
def test_what_is_no_mean(text: str) -> None:
    with pytest.raises(errors.ProtocolError):
        means.mean_of(text)


def test_guesses() -> None:
    codec = DescribedCodec("a", Description(Decimal("0.1")), None)
    call = calls.estimate(codec, "mean", 5, 9)
    assert call.lines == ["estimate a mean 5 9"]
    assert call.answer([Reply("estimate -1 11/3 17/2")]) == Estimate(
        Interval("-0.1", "0.85"), Decimal("0.3666666666667"))
    assert call.answer([Reply("estimate none")]) == Estimate(Interval.nothing(), None)
    assert call.answer([Reply("estimate 1 2 3 maybe-none")]).interval.maybe_none
    rows = row_calls.estimates("a", codec, "mean", 0, 9, 5)
    assert rows.lines == ["estimates a mean 0 9 5"]
    found = rows.answer([Reply("estimates 2", ["0 none", "5 1/2 1 1"])])
    assert [(row.guess, row.interval) for row in found] == [
        (None, Interval.nothing()), (Decimal("0.1"), Interval("0.05", "0.1"))]
    for wrong in ("1 2", "1 3 2", "2 1 3", "1 2 3 4"):
        with pytest.raises(errors.ProtocolError):
            call.answer([Reply(f"estimate {wrong}")])


def replies_of(words: tuple[str, int, int], head: str, rows: Sequence[str], answered: str) -> list[Reply]:
    """The replies to `certify`, with a stream that has no landmarks."""
    return [Reply(f"certify {head}", rows), Reply("list 1", ["a exp 2 1 1 7 3 0 0"]),
            Reply("windows 3", WINDOWS), Reply(f"mean {answered}")]


@pytest.mark.parametrize("words, head, answer, rows", CERTIFIED)
def test_certificates(words: tuple[str, int, int], head: str, answer: Fraction | None, rows: list[str]
                      ) -> None:
    call = calls.certify(A, "mean", *words, [])
    assert call.lines[0] == "certify a mean {} {} {}".format(*words)
    said = dict(OF_SEVEN).get(words[1:], "none")
    assert call.answer(replies_of(words, head, rows, said)).check() == answer
    other = "3 4" if answer is None else "none"
    wrong = [replies_of(words, head, rows, other),
             replies_of(words, head.replace(" 7 0", " 6 0").replace("none 0 0", "none 0 1")
                        .replace(" 0 0 ", " 1 0 "), rows, said)]
    for replies in wrong:
        with pytest.raises(errors.CertificateError):
            call.answer(replies).check()


def test_what_landmarks_add_to_a_certificate() -> None:
    call = calls.certify(A, "mean", "lo", 0, 9, [(2, 4)])
    assert call.lines[4:] == ["query a sum 2 4", "query a count 2 4"]
    told = [Reply("certify 7/2 7 2 0"), Reply("list 1", ["a power 1 0 1 3 2 1 1 1"]),
            Reply("windows 1", ["1 1 1 0 0 0 1 1"]), Reply("mean 7/2 7/2"), Reply("sum 7 7"),
            Reply("count 1 1")]
    assert call.answer(told).check() == Fraction(7, 2)
    assert call.answer(told).marked == certificate.Known(7, 1)
    with pytest.raises(errors.CertificateError):
        call.answer([*told[:5], Reply("count 1 2")])


# ---- programs that are older ------------------------------------------------------------


def test_what_is_asked_of_an_older_program() -> None:
    lines = ["query a mean 25 55", "list", "series a mean 0 50 25", "query b sum 0 1", "query c mean 0 1",
             "estimate a mean 0 1"]
    replies = [Reply("refused SYNTAX"), Reply("list 0"), Reply("refused SYNTAX"), Reply("refused SYNTAX"),
               Reply("refused UNKNOWN"), Reply("refused SYNTAX")]
    again = older.instead(lines, replies)
    assert again == [f"query a {kind} 25 55" for kind in ("count", "sum", "min", "max")] + [
        f"series a {kind} 0 50 25" for kind in ("count", "sum", "min", "max")]
    more = [Reply("count 2 4"), Reply("sum -3 25"), Reply("min -3 2"), Reply("max 8 9"),
            Reply("series 3", ["0 0 2", "25 0 0", "50 3 3"]),
            Reply("series 3", ["0 -5 9", "25 0 0", "50 10 10"]),
            Reply("series 3", ["0 -3 8 maybe-none", "25 none", "50 3 3"]),
            Reply("series 3", ["0 -3 8 maybe-none", "25 none", "50 4 4"])]
    found = list(older.mended(lines, replies, more))
    assert found[0] == Reply("mean -3/2 9") and found[1:2] + found[3:] == replies[1:2] + replies[3:]
    assert found[2] == Reply("series 3", ["0 -3 8 maybe-none", "25 none", "50 10/3 10/3"])
    assert older.instead(lines[1:2], replies[1:2]) == []
    assert older.mended(lines[:1], replies[:1], [Reply("refused UNKNOWN")] * 4) == [Reply("refused UNKNOWN")]


OLDER = """while read -r tag line; do case $line in
*mean*) echo "$tag refused SYNTAX";; *count*) echo "$tag count 2 4";; *sum*) echo "$tag sum -3 25";;
*min*) echo "$tag min -3 2";; *max*) echo "$tag max 8 9";; *close) echo "$tag refused NO_CURSOR";;
list) echo "$tag list 0";; *) echo "$tag refused SYNTAX";;
esac; done"""


def test_an_older_program(folder: Path, fake: Callable[[str], str]) -> None:
    """It is asked for sum and count, and told apart where it has nothing of the kind."""
    program = fake(OLDER)
    with Store(folder / "any.store", program=program) as store:
        assert store.mean("a", 25, 55) == store.query("a", "mean", 25, 55) == Interval("-1.5", 9)
        with pytest.raises(errors.CommandError):
            store.estimate("a", "mean", 25, 55)
        with pytest.raises(errors.CommandError):
            store.certify("a", "mean", "lo", 25, 55)

    async def work() -> None:
        async with await aio.open(folder / "any.store", program=program) as opened:
            assert await opened.mean("a", 25, 55) == Interval("-1.5", 9)
    asyncio.run(work())


# ---- the true program -------------------------------------------------------------------


def test_the_store_of_the_guide(plain: Store) -> None:
    must_have_means(plain)
    plain.create("a", "exp 2 1 1")
    plain.append_many("a", SEVEN)
    assert [str(plain.mean("a", *span)) for span, _ in OF_SEVEN] == SHOWN
    for span, rows in ROWS:
        found = plain.series("a", "mean", *span)
        assert [row.interval for row in found] == [
            asked(calls.query(A, "mean", 0, 1), f"mean {row.partition(' ')[2]}") for row in rows]
    for words, _, answer, _ in CERTIFIED:
        assert plain.certify("a", "mean", "lo" if words[0] == "lo" else "hi", *words[1:]).check() == answer


def test_certificates_of_the_true_program(plain: Store) -> None:
    must_have_means(plain)
    plain.create("p", "power 1 0 1 4")
    plain.append_many("p", [(10, 1), (20, 1), (30, 2), (40, 3)])
    with plain.landmark("p", 41, 45):
        plain.append("p", 43, 0)
    for first, last in ((0, 37), (0, 44), (11, 60), (42, 42), (15, 35)):
        mean, ends = plain.mean("p", first, last), []
        for end in ENDS:
            found = plain.certify("p", "mean", end, first, last, landmarks=[(41, 45)])
            ends.append(found.check())
        if not mean.none:
            assert Fraction(mean.lo) <= Fraction(ends[0] or 0) <= Fraction(ends[1] or 0) <= Fraction(mean.hi)


def test_guesses_of_the_true_program(plain: Store) -> None:
    must_have_means(plain)
    plain.create("a", "exp 2 1 1")
    plain.append_many("a", SEVEN)
    for span, _ in OF_SEVEN:
        found, mean = plain.estimate("a", "mean", *span), plain.mean("a", *span)
        assert found.interval == mean
        total, count = plain.estimate("a", "sum", *span).guess, plain.estimate("a", "count", *span).guess
        if mean.none:
            assert found.guess is None
            continue
        assert total is not None and count is not None and found.guess is not None
        guess = shortened(Fraction(total) / max(1, int(count)), 0, ROUND_HALF_EVEN)
        assert found.guess == min(max(guess, mean.lo), mean.hi)
    rows = plain.estimates("a", "mean", 0, 100, 25)
    assert [row.interval for row in rows] == [row.interval for row in plain.series("a", "mean", 0, 100, 25)]
    assert [row.guess is None for row in rows] == [False, False, False, True, True]


def test_tighter_than_sum_over_count(path: Path) -> None:
    with summarystore.open(path) as store:
        must_have_means(store)
        store.create("hall", "power 1 1 4 1", scale="0.1", unit="°C")
        store.append_many("hall", [(60 * at, f"{200 + at * 7 % 31}e-1") for at in range(2000)])
        for first in range(0, 60_000, 7_777):
            span = first + 5, first + 3600
            whole = mean_of(store.query("hall", "sum", *span), store.query("hall", "count", *span))
            mean = store.mean("hall", *span)
            assert whole.lo - mean.lo <= Decimal("1e-13") and mean.hi - whole.hi <= Decimal("1e-13")
            truth = [Fraction(200 + at * 7 % 31, 10) for at in range(2000) if span[0] <= 60 * at <= span[1]]
            assert Fraction(mean.lo) <= sum(truth) / len(truth) <= Fraction(mean.hi)
