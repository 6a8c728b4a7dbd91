"""What a gauge is asked: its integral over a range, and its mean by time.

An increment stands at the time of the reading that ended it. So those later than t1 and not later than t2 add
up to the integral from the newest reading until t1 to the newest until t2. The increment of the first reading
is 0. Where t1 is its time, that of the sum from t1 on is known better, since no window is cut.
"""

from __future__ import annotations

from collections.abc import Sequence

from . import calls, row_calls, wire
from .calls import Call
from .codec import Codec
from .description import SPANS
from .errors import refusal_of
from .gauges import increments_of, must_be_gauge, seconds
from .interval import Interval
from .scale import Scale
from .series import Series
from .wire import Reply

KINDS = ("integral", "time_mean")
"""What a gauge is asked."""
Rows = Sequence[tuple[int, Interval]]


def query(codec: Codec, kind: str, first: object, last_time: object, begun: int | None) -> Call[Interval]:
    """`calls.query`, which gauges may be asked more. `begun` is the first time of the increments, where the
    mean by time is asked."""
    if kind not in KINDS:
        return calls.query(codec, kind, first, last_time)
    begin, end = codec.range_of(first, last_time)
    inner = _rows(codec, kind, begin, end, max(1, end - begin), begun)
    return Call(inner.lines, lambda replies: inner.result(replies)[0][1])


def series(name: str, codec: Codec, kind: str, first: object, last_time: object, step: object,
           begun: int | None) -> Call[Series]:
    """The same in rows: from each step until the next."""
    if kind not in KINDS:
        return row_calls.series(name, codec, kind, first, last_time, step)
    calendar = codec.calendar(step)
    if calendar is not None:
        return row_calls.calendar_rows(name, codec, calendar, first, last_time,
                                       lambda edges: rows(name, codec, kind, edges, begun))
    inner = _rows(codec, kind, *codec.range_of(first, last_time), codec.step(step), begun)
    return Call(inner.lines, lambda replies: row_calls.series_of(name, codec, kind, inner.result(replies)))


def rows(name: str, codec: Codec, kind: str, edges: Sequence[int], begun: int | None) -> Call[Series]:
    """The same from each of some counts until the next."""
    if kind not in KINDS:
        return row_calls.rows(name, codec, kind, edges)
    inner = row_calls.each(edges, lambda begin, end: query(codec, kind, begin, end, begun))
    return Call(inner.lines, lambda replies: row_calls.series_of(name, codec, kind,
                                                                 list(zip(edges, inner.result(replies)))))


def _rows(codec: Codec, kind: str, begin: int, end: int, each: int, begun: int | None) -> Call[Rows]:
    description, meter, beside = must_be_gauge(codec)
    if each < 1 or end < begin:
        raise refusal_of("RANGE", f"{kind} {codec.short} {begin} {end} {each}")
    scale = Scale(increments_of(description).scale, None)
    last = calls.last_numbers(codec)
    lines = [*last.lines]
    if end > begin:
        lines += [wire.series(beside, "sum", begin + 1, end, each),
                  wire.query(beside, "sum", begin, min(begin + each, end)),
                  wire.query(beside, "count", 0, max(0, begin - 1))]

    def shown(start: int, added: Interval, newest: int) -> Interval:
        if kind == "integral":
            return scale.interval(added) / SPANS[str(meter.integrate)]
        length = 0 if begun is None else min(start + each, end, newest) - max(start, begun)
        return scale.interval(added) / seconds(description, length) if length > 0 else Interval.nothing()

    def result(replies: Sequence[Reply]) -> Rows:
        found = last.result(replies[:1])
        newest = found[1] if len(found) == 4 else -1
        added = _added(begin, replies[1:]) if end > begin else [(begin, Interval(0))]
        return [(start, shown(start, interval, newest)) for start, interval in added]
    return Call(lines, result)


def _added(begin: int, replies: Sequence[Reply]) -> Rows:
    """The increments of each row. The first of all is 0, so the first row may begin with it."""
    rows, first, before = replies
    found = [_row(row) for row in wire.rows_of(rows, "series")]
    count = wire.interval_of(wire.after(before.head, "count"))
    if begin == 0 or count == 0:
        found[0] = begin, wire.interval_of(wire.after(first.head, "sum"))
    return found


def _row(row: str) -> tuple[int, Interval]:
    """A row of increments, which begins one step behind that of the answer."""
    start, _, text = row.partition(" ")
    return wire.numbers(start, 1)[0] - 1, wire.interval_of(text)
