"""Certificates: why one end of an interval can't be narrower, and a check of that by itself.

The check takes the windows as the store shows them, the times of landmarks as it is told them, and
what was answered of the values of landmarks. It is no part of the program.
"""

from __future__ import annotations

from collections.abc import Sequence
from dataclasses import dataclass
from fractions import Fraction
from itertools import cycle
from typing import Union

from .errors import CertificateError, ProtocolError
from .means import mean_of, ratio_of
from .wire import INTEGER, LAST_TIME, Reply, after, numbers, rows_of

Span = tuple[int, int]
Answer = Union[int, Fraction, None]
"""A count, a sum, or a mean. None where there is no value, and so no mean."""


@dataclass(frozen=True)
class Known:
    """Some values by their sum and their number. Where one of both is asked for the other may be left out."""

    total: int = 0
    count: int = 0

    def __add__(self, other: Known) -> Known:
        return Known(self.total + other.total, self.count + other.count)

    def of_kind(self, kind: str) -> Known:
        """As far as an answer of this kind hangs on it."""
        return Known(0 if kind == "count" else self.total, 0 if kind == "sum" else self.count)

    def answer(self, kind: str) -> Answer:
        """The answer of these values."""
        if kind == "mean":
            return Fraction(self.total, self.count) if self.count else None
        return self.count if kind == "count" else self.total


@dataclass(frozen=True)
class Bounds:
    """A window in whole numbers."""

    first: int
    last: int
    count: int
    sum: int
    least: int
    greatest: int
    start: int
    end: int


@dataclass(frozen=True)
class Side:
    """How many values of a window lie on one side of the range, and which these may be."""

    count: int
    runs: tuple[tuple[int, int], ...]

    @property
    def known(self) -> Known:
        """Their sum and their number."""
        return Known(sum(value * times for value, times in self.runs), self.count)


@dataclass(frozen=True)
class Cut:
    """What a certificate says of a window that the range cuts."""

    first: int
    last: int
    inside: Side
    outside: Side


def window_of(row: str) -> Bounds:
    """A row of `windows`."""
    return Bounds(*numbers(row, 8))


def _side(row: str, word: str) -> tuple[int, int, Side]:
    words = after(row, word).split(" ")
    runs = [run.split("*") for run in words[3:]]
    if len(words) < 3 or any(len(run) != 2 for run in runs) \
            or not all(INTEGER.fullmatch(part) for part in [*words[:3], *sum(runs, [])]):
        raise ProtocolError(f"a row of a certificate was to come: {row[:200]}")
    first, last, count = map(int, words[:3])
    return first, last, Side(count, tuple((int(value), int(times)) for value, times in runs))


def marked_of(kinds: Sequence[str], replies: Sequence[Reply]) -> Known:
    """The values of landmarks, by the answers of these kinds to each part that one covers."""
    found = {"sum": 0, "count": 0}
    for kind, reply in zip(cycle(kinds), replies):
        lo, hi = numbers(after(reply.head, kind), 2)
        if lo != hi:
            raise CertificateError("the values of a landmark aren't known exactly")
        found[kind] += lo
    return Known(found["sum"], found["count"])


def answered_of(kind: str, end: str, reply: Reply) -> Answer:
    """What the query says of an end."""
    text = after(reply.head, kind)
    if kind != "mean":
        return numbers(text, 2)[end == "hi"]
    mean = mean_of(text)
    return None if mean is None else mean.lo if end == "lo" else mean.hi


def _head(kind: str, text: str) -> tuple[Answer, Known]:
    """`ANSWER BASE COUNT`, and of a mean `ANSWER SUM COUNT COUNT`: the answer, and what is known."""
    if kind != "mean":
        answer, base, _ = numbers(text, 3)
        return answer, Known(count=base) if kind == "count" else Known(base)
    word, _, rest = text.partition(" ")
    total, count, _ = numbers(rest, 3)
    return None if word == "none" else ratio_of(word), Known(total, count)


def cuts_of(kind: str, reply: Reply) -> tuple[Answer, Known, tuple[Cut, ...]]:
    """The reply to `certify` of a kind: the answer, what is known, and the cut windows."""
    rows = rows_of(reply, "certify")
    answer, base = _head(kind, after(reply.head, "certify"))
    cuts = []
    for inner, outer in zip(rows[::2], rows[1::2]):
        first, last, inside = _side(inner, "inside")
        again = _side(outer, "outside")
        if again[:2] != (first, last):
            raise CertificateError(f"the two rows of a window name different ones: {inner}; {outer}")
        cuts.append(Cut(first, last, inside, again[2]))
    return answer, base, tuple(cuts)


@dataclass(frozen=True)
class Certificate:
    """Values that a stream may have had, filters aside, with which this end is right.

    All numbers are the stream's whole numbers. `answer` is that of `base`, the values which are known to lie
    in the range, and of those inside.
    """

    kind: str
    end: str
    first: int
    last: int
    answer: Answer
    base: Known
    cuts: tuple[Cut, ...]
    answered: Answer
    windows: tuple[Bounds, ...]
    landmarks: tuple[Span, ...]
    marked: Known
    landmarks_listed: int

    def check(self) -> Answer:
        """Checks it, and gives the answer that it shows. Raises CertificateError where it is wrong."""
        if len(self.landmarks) != self.landmarks_listed:
            raise CertificateError(f"the stream has {self.landmarks_listed} landmarks, and the times of "
                                   f"{len(self.landmarks)} were given: `certify(.., landmarks=..)`")
        times = [time for span in self.landmarks for time in span]
        _need(times == sorted(times), "the landmarks are told out of order, or one ends before it begins")
        whole = [Known(window.sum, window.count) for window in self.windows if self._whole(window)]
        known = sum(whole, self.marked).of_kind(self.kind)
        _need(self.base == known, f"whole windows and landmarks have {known} in the range")
        cut = [window for window in self.windows if self._is_cut(window)]
        _need(len(cut) == len(self.cuts), f"the range cuts {len(cut)} windows")
        for window, told in zip(cut, self.cuts):
            _need((told.first, told.last) == (window.first, window.last),
                  f"the range cuts the window {window.first} to {window.last}")
            self._check_window(window, told)
            known += told.inside.known
        found = known.answer(self.kind)
        _need(self.answer == found, f"what is known and the values inside are {found}")
        _need(self.answer == self.answered, f"the query is answered {self.answered}")
        return self.answer

    def _check_window(self, window: Bounds, told: Cut) -> None:
        place = f"window {window.first} to {window.last}: "
        inside, outside = told.inside, told.outside
        for side in (inside, outside):
            _need(all(times > 0 for _, times in side.runs), place + "a run has no values")
            _need(sum(times for _, times in side.runs) == side.count,
                  place + "the runs are other numbers of values")
        values = [value for value, _ in inside.runs + outside.runs]
        _need(inside.count + outside.count == window.count, place + f"it has {window.count} values")
        _need(inside.known.total + outside.known.total == window.sum, place + f"its sum is {window.sum}")
        _need(min(values) == window.least and max(values) == window.greatest,
              place + f"its least and greatest value are {window.least} and {window.greatest}")
        # The first and the last value have their times, and each other one needs a free time between.
        ends = self._holds(window.start) + self._holds(window.end)
        room_in = self._free(max(window.start + 1, self.first), min(window.end - 1, self.last))
        room_out = self._free(window.start + 1, window.end - 1) - room_in
        _need(0 <= inside.count - ends <= room_in, place + f"{inside.count} values can't lie in the range")
        _need(0 <= outside.count - (2 - ends) <= room_out,
              place + f"{outside.count} values can't lie outside the range")

    def _holds(self, time: int) -> bool:
        return self.first <= time <= self.last

    def _whole(self, window: Bounds) -> bool:
        return self._holds(window.start) and self._holds(window.end)

    def _is_cut(self, window: Bounds) -> bool:
        meets = window.start <= self.last and window.end >= self.first
        return meets and not self._whole(window)

    def _free(self, first: int, last: int) -> int:
        """How many of these times no landmark covers."""
        covered = sum(max(0, min(last, end) - max(first, start) + 1) for start, end in self.landmarks)
        return max(0, last - first + 1) - covered


def parts_within(landmarks: Sequence[tuple[int, int | None]], first: int, last: int) -> list[Span]:
    """The parts of a range that landmarks cover. One without an end is open."""
    ends = [(max(start, first), min(LAST_TIME if end is None else end, last)) for start, end in landmarks]
    return [part for part in ends if part[0] <= part[1]]


def _need(holds: bool, reason: str) -> None:
    if not holds:
        raise CertificateError(reason)
