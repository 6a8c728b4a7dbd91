"""Means of a program that is older than this package: it refuses to tell them, and is asked for counts, sums,
the least and the greatest values in their place. What comes of these is wider, and not of one moment."""

from __future__ import annotations

import re
from collections.abc import Awaitable, Callable, Iterator, Sequence
from fractions import Fraction
from itertools import islice
from typing import TypeVar

from . import wire
from .calls import Call
from .combining import FIGURES
from .wire import Reply

T = TypeVar("T")
REFUSED = "refused SYNTAX"
MEAN = re.compile(r"(query|series) (\S+) mean (.+)")


def instead(lines: Sequence[str], replies: Sequence[Reply]) -> Sequence[str]:
    """What is to be asked in the place of means that were refused: nothing, as a rule."""
    return [f"{found[1]} {found[2]} {kind} {found[3]}" for found in _refused(lines, replies) if found
            for kind in FIGURES]


def mended(lines: Sequence[str], replies: Sequence[Reply], more: Sequence[Reply]) -> Sequence[Reply]:
    """The replies, with what the second ones say in the place of those that were refused."""
    rest = iter(more)
    return [reply if found is None else _mean(found[1], list(islice(rest, len(FIGURES))))
            for found, reply in zip(_refused(lines, replies), replies)]


def answer(call: Call[T], ask: Callable[[Sequence[str]], Sequence[Reply]]) -> T:
    """What a call is answered, by whoever asks for its lines."""
    replies = ask(call.lines)
    again = instead(call.lines, replies)
    return call.answer(mended(call.lines, replies, ask(again)) if again else replies)


async def answer_later(call: Call[T], ask: Callable[[Sequence[str]], Awaitable[Sequence[Reply]]]) -> T:
    """The same, for asyncio."""
    replies = await ask(call.lines)
    again = instead(call.lines, replies)
    return call.answer(mended(call.lines, replies, await ask(again)) if again else replies)


def _refused(lines: Sequence[str], replies: Sequence[Reply]) -> Iterator[re.Match[str] | None]:
    for line, reply in zip(lines, replies):
        yield MEAN.fullmatch(line) if reply.head == REFUSED else None


def _mean(form: str, replies: Sequence[Reply]) -> Reply:
    for reply in replies:
        if reply.head.startswith("refused "):
            return reply
    if form == "query":
        return Reply(f"mean {_text([wire.after(each.head, kind) for kind, each in zip(FIGURES, replies)])}")
    columns = [[row.partition(" ") for row in wire.rows_of(each, "series")] for each in replies]
    rows = [f"{row[0][0]} {_text([text for _, _, text in row])}" for row in zip(*columns)]
    return Reply(replies[0].head, rows)


def _text(figures: Sequence[str]) -> str:
    """The reply to a mean, from those to its figures."""
    count, total, least, greatest = map(wire.interval_of, figures)
    if count.hi <= 0:
        return "none"
    counts = Fraction(max(1, count.lo)), Fraction(count.hi)
    lo = min(Fraction(total.lo) / each for each in counts)
    hi = max(Fraction(total.hi) / each for each in counts)
    lo, hi = max(lo, Fraction(least.lo)), min(hi, Fraction(greatest.hi))
    return f"{lo} {hi} maybe-none" if count.lo <= 0 else f"{lo} {hi}"
