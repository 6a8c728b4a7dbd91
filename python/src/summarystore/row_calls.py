"""What calls for rows send, and what they make of the replies: spans of time one after the other, and those
that the calendar of a zone has."""

from __future__ import annotations

import warnings
from collections.abc import Callable, Sequence
from itertools import islice, pairwise
from typing import TypeVar

from . import wire
from .calendars import Calendar
from .calls import Call, estimate, estimate_of, increases, query, row_of
from .codec import Codec, streams_of
from .description import unit_of
from .errors import StepWarning, refusal_of
from .interval import Interval
from .kinds import ESTIMATED, KINDS as ASKED, one_of
from .records import EstimateRow, Row
from .series import Series
from .wire import Reply

T = TypeVar("T")
MOST_ROWS = 100_000
"""Rows of a series that the program doesn't make itself."""


def increase_rows(codec: Codec, first: object, last_time: object, step: object
                  ) -> Call[Sequence[tuple[int, Interval]]]:
    """The same in rows: from each step until the next."""
    (begin, end), each = codec.range_of(first, last_time), codec.step(step)
    if each < 1 or end < begin:
        raise refusal_of("RANGE", f"series {codec.short} increase {begin} {end} {each}")
    if (end - begin) // each >= MOST_ROWS:
        raise refusal_of("NUMBER", f"series {codec.short} increase {begin} {end} {each}")
    starts = range(begin, max(end, begin + 1), each)
    inner = increases(codec, [*starts, max(end, begin)])
    return Call(inner.lines, lambda replies: list(zip(starts, inner.result(replies))))


def rows(name: str, codec: Codec, kind: str, edges: Sequence[int]) -> Call[Series]:
    """The answers of one kind from each of some counts until before the next."""
    asked = increases(codec, edges) if kind == "increase" else each(
        edges, lambda begin, end: query(codec, kind, begin, end - 1))
    return Call(asked.lines, lambda replies: series_of(name, codec, kind,
                                                       list(zip(edges, asked.result(replies)))))


def each(edges: Sequence[int], one: Callable[[int, int], Call[T]]) -> Call[Sequence[T]]:
    """A call for each row, from where it begins to where the next does. Their lines go together."""
    asked = [one(begin, end) for begin, end in pairwise(edges)]

    def result(replies: Sequence[Reply]) -> Sequence[T]:
        rest = iter(replies)
        return [call.result(list(islice(rest, len(call.lines)))) for call in asked]
    return Call([line for call in asked for line in call.lines], result)


def calendar_rows(name: str, codec: Codec, calendar: Calendar, first: object, last_time: object,
                  made: Callable[[Sequence[int]], Call[T]]) -> Call[T]:
    """A call for the rows of a zone. Where a stream's step doesn't fit them that is told, once."""
    counting = codec.counting()
    begin, end = map(counting.moment, codec.range_of(first, last_time))
    if end < begin:
        raise refusal_of("RANGE", f"series {codec.short} {first} {last_time}")
    found = calendar.edges(begin, end, MOST_ROWS)
    if found is None:
        raise refusal_of("NUMBER", f"series {codec.short} {first} {last_time} in more than {MOST_ROWS} rows")
    moments: Sequence[int] = found
    asked = made(counting.edges(moments))
    key = str(calendar.zone)
    if key in codec.told:
        return asked

    def result(replies: Sequence[Reply]) -> T:
        within = next((row.within for row in streams_of(wire.rows_of(replies[0], "list"))
                       if row.name == codec.short), None)
        told = counting.misfit(within, calendar, moments)
        if told is not None:
            codec.told.add(key)
            warnings.warn(StepWarning(f"{name}: {told}"), stacklevel=5)
        return asked.result(replies[1:])
    return Call([wire.LIST, *asked.lines], result)


def series(name: str, codec: Codec, kind: str, first: object, last_time: object, step: object
           ) -> Call[Series]:
    """The rows of one kind."""
    calendar = codec.calendar(step)
    if calendar is not None:
        return calendar_rows(name, codec, calendar, first, last_time,
                             lambda edges: rows(name, codec, kind, edges))
    if kind == "increase":
        asked = increase_rows(codec, first, last_time, step)
        return Call(asked.lines, lambda replies: series_of(name, codec, kind, asked.result(replies)))
    line = wire.series(codec.short, one_of(kind, ASKED), *codec.range_of(first, last_time), codec.step(step))
    return Call([line], lambda replies: series_of(name, codec, kind, [
        row_of(codec, kind, row) for row in wire.rows_of(replies[0], "series")]))


def series_of(name: str, codec: Codec, kind: str, rows: Sequence[tuple[int, Interval]]) -> Series:
    """Rows as they are shown."""
    return Series(name, kind, unit_of(codec.description, kind),
                  [Row(codec.time_back(start), interval) for start, interval in rows])


def estimates(name: str, codec: Codec, kind: str, first: object, last_time: object, step: object
              ) -> Call[Sequence[EstimateRow]]:
    """The same in rows."""
    calendar = codec.calendar(step)
    if calendar is not None:
        return calendar_rows(name, codec, calendar, first, last_time,
                             lambda edges: _estimate_rows(codec, kind, edges))
    here = *codec.range_of(first, last_time), codec.step(step)

    def result(replies: Sequence[Reply]) -> Sequence[EstimateRow]:
        rows = [row.partition(" ") for row in wire.rows_of(replies[0], "estimates")]
        return [EstimateRow(codec.time_back(wire.numbers(start, 1)[0]), *estimate_of(codec, kind, text))
                for start, _, text in rows]
    return Call([wire.estimates(codec.short, one_of(kind, ESTIMATED), *here)], result)


def _estimate_rows(codec: Codec, kind: str, edges: Sequence[int]) -> Call[Sequence[EstimateRow]]:
    asked = each(edges, lambda begin, end: estimate(codec, kind, begin, end - 1))
    return Call(asked.lines, lambda replies: [EstimateRow(codec.time_back(start), *found)
                                              for start, found in zip(edges, asked.result(replies))])
