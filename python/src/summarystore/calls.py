"""What each call sends, and what it makes of the replies. Both faces of a store are built on this."""

from __future__ import annotations

from collections.abc import Callable, Sequence
from dataclasses import dataclass
from typing import Generic, TypeVar

from . import certificate, means, wire
from .certificate import Certificate
from .codec import Codec, Translator, streams_of
from .combining import Part
from .errors import refusal_of
from .interval import Interval, Presence
from .kinds import ENDS, ESTIMATED, KINDS as ASKED, one_of
from .meters import Standing, increase_of, must_be_counter
from .records import Estimate, Last, Reading, Stored, Stream, Time, Window
from .wire import Reply

T = TypeVar("T")


@dataclass(frozen=True)
class Call(Generic[T]):
    """Lines, and what their replies mean."""

    lines: Sequence[str]
    result: Callable[[Sequence[Reply]], T]

    def answer(self, replies: Sequence[Reply]) -> T:
        """What the replies mean. Raises the first refusal among them."""
        for line, reply in zip(self.lines, replies):
            if reply.head.startswith("refused "):
                raise refusal_of(reply.head[8:], line)
        return self.result(replies)


class Lines(Call[Sequence[Reply]]):
    """Lines whose replies are given as they are, refusals too."""

    def answer(self, replies: Sequence[Reply]) -> Sequence[Reply]:
        """The replies."""
        return replies


def _stored(replies: Sequence[Reply]) -> Stored:
    return wire.stored_of(replies[0])


def create(codec: Codec, target: str | Sequence[object], within: int | None) -> Call[Stored]:
    """Makes a stream."""
    return Call([wire.create(codec.short, target, within)], _stored)


def append(codec: Codec, time: object, value: object) -> Call[Stored]:
    """Takes a value."""
    return Call([wire.append(codec.short, *codec.rows([(time, value)])[0])], _stored)


def standing(translator: Translator, name: str, target: str | Sequence[object], within: int | None
             ) -> Call[Stored]:
    """What stands in a stream that stands already. Raises where it isn't kept as is asked for."""
    words = target.split() if isinstance(target, str) else [str(word) for word in target]
    wanted = " ".join(words if within is None else [*words, f"within {within}"])

    def result(replies: Sequence[Reply]) -> Stored:
        rows = streams_of(wire.rows_of(replies[0], "list"))
        row = next(row for row in rows if translator.name_of(row.short_name) == name)
        kept = row.target if row.within is None else f"{row.target} within {row.within}"
        if kept != wanted:
            raise refusal_of("EXISTS", f"create {name} {wanted}; it has the target {kept}")
        return Stored(row.values, row.windows)
    return Call([wire.LIST], result)


def landmark_span(codec: Codec, start: object | None, end: object | None) -> tuple[int, int | None]:
    """When a landmark begins, and when it is to end, if that is told."""
    begun = codec.now() if start is None else codec.time(start)
    ended = None if end is None else codec.time(end)
    if ended is not None and ended < begun:
        raise refusal_of("RANGE", f"landmark {codec.short} from {begun} to {ended}")
    return begun, ended


def landmark_open(codec: Codec, time: int) -> Call[Stored]:
    """Opens a landmark."""
    return Call([wire.landmark_open(codec.short, time)], _stored)


def landmark_close(codec: Codec, time: int) -> Call[Stored]:
    """Closes a landmark."""
    return Call([wire.landmark_close(codec.short, time)], _stored)


def drop(codec: Codec) -> Call[Stored]:
    """Removes a stream."""
    return Call([wire.drop(codec.short)], _stored)


def last_numbers(codec: Codec) -> Call[tuple[int, ...]]:
    """The last time, and of the newest value the time and its ends, as whole numbers as far as there
    are some."""
    def result(replies: Sequence[Reply]) -> tuple[int, ...]:
        rest = wire.after(replies[0].head, "last")
        if rest == "none":
            return ()
        return tuple(wire.numbers(rest, 4 if " " in rest else 1))
    return Call([wire.last(codec.short)], result)


def last(codec: Codec) -> Call[Last | None]:
    """The last time and the newest value."""
    inner = last_numbers(codec)

    def result(replies: Sequence[Reply]) -> Last | None:
        found = inner.result(replies)
        if not found:
            return None
        if len(found) == 1:
            return Last(codec.time_back(found[0]), None, None)
        value = codec.interval_back("max", Interval(found[2], found[3]))
        return Last(codec.time_back(found[0]), codec.time_back(found[1]), value)
    return Call(inner.lines, result)


def standing_of_counter(codec: Codec) -> Call[Standing]:
    """The newest time and the greatest value, of one moment, as whole numbers."""
    inner = last_numbers(codec)

    def result(replies: Sequence[Reply]) -> Standing:
        found, greatest = inner.result(replies), _whole("max", replies[1])
        return Standing(found[0] if found else -1, None if greatest.none else int(greatest.hi))
    return Call([*inner.lines, _until(codec, wire.LAST_TIME)], result)


def _until(codec: Codec, time: int) -> str:
    """The greatest value until a time: of a counter the one that it has then."""
    return wire.query(codec.short, "max", 0, time)


def _whole(kind: str, reply: Reply) -> Interval:
    return wire.interval_of(wire.after(reply.head, kind))


def value_at(codec: Codec, time: object) -> Call[Interval]:
    """What a counter has at a time."""
    must_be_counter(codec)
    return Call([_until(codec, codec.end(time))], lambda replies: _interval(codec, "max", replies[0]))


def increases(codec: Codec, times: Sequence[int]) -> Call[Sequence[Interval]]:
    """By how much a counter rose from each of some times until the next."""
    must_be_counter(codec)
    lines = [wire.query(codec.short, "min", 0, wire.LAST_TIME), *(_until(codec, time) for time in times)]

    def result(replies: Sequence[Reply]) -> Sequence[Interval]:
        least, values = _whole("min", replies[0]), [_whole("max", reply) for reply in replies[1:]]
        return [codec.interval_back("max", increase_of(before, end, least))
                for before, end in zip(values, values[1:])]
    return Call(lines, result)


def increase(codec: Codec, first: object, last_time: object) -> Call[Interval]:
    """By how much a counter rose from one time until another."""
    times = codec.range_of(first, last_time)
    if times[1] < times[0]:
        raise refusal_of("RANGE", f"increase {codec.short} {times[0]} {times[1]}")
    inner = increases(codec, times)
    return Call(inner.lines, lambda replies: inner.result(replies)[0])


def query(codec: Codec, kind: str, first: object, last_time: object) -> Call[Interval]:
    """The interval of one kind."""
    if one_of(kind, ASKED) == "increase":
        return increase(codec, first, last_time)
    line = wire.query(codec.short, kind, *codec.range_of(first, last_time))
    return Call([line], lambda replies: _interval(codec, kind, replies[0]))


def _interval(codec: Codec, kind: str, reply: Reply) -> Interval:
    return _shown(codec, kind, wire.after(reply.head, kind))


def _shown(codec: Codec, kind: str, text: str) -> Interval:
    """What the program says, as it is shown."""
    if kind == "mean":
        return means.shown(codec, means.mean_of(text))
    return codec.interval_back(kind, wire.interval_of(text))


def figures(codec: Codec, kinds: Sequence[str], first: object, last_time: object, step: object | None
            ) -> Call[Sequence[Part]]:
    """The answers of several kinds, all of one moment: their lines go to the program together. With a
    step there is one for each of its rows, and otherwise one."""
    here = codec.range_of(first, last_time)
    if step is None:
        lines = [wire.query(codec.short, wire.name_word(kind), *here) for kind in kinds]
    else:
        lines = [wire.series(codec.short, wire.name_word(kind), *here, codec.step(step)) for kind in kinds]

    def column(kind: str, reply: Reply) -> Sequence[Interval]:
        if step is None:
            return [_interval(codec, kind, reply)]
        return [row_of(codec, kind, row)[1] for row in wire.rows_of(reply, "series")]

    def result(replies: Sequence[Reply]) -> Sequence[Part]:
        return [dict(zip(kinds, row)) for row in zip(*map(column, kinds, replies))]
    return Call(lines, result)


def has(codec: Codec, value: object, first: object, last_time: object) -> Call[Presence]:
    """Whether a value is there."""
    line = wire.has(codec.short, codec.value(value), *codec.range_of(first, last_time))
    return Call([line], lambda replies: wire.presence_of(replies[0]))


def row_of(codec: Codec, kind: str, row: str) -> tuple[int, Interval]:
    """A row of the program's `series`: where it begins, and its answer."""
    start, _, text = row.partition(" ")
    return wire.numbers(start, 1)[0], _shown(codec, kind, text)


def estimate(codec: Codec, kind: str, first: object, last_time: object) -> Call[Estimate]:
    """The interval of a count, a sum or a mean, and the likeliest number in it."""
    line = wire.estimate(codec.short, one_of(kind, ESTIMATED), *codec.range_of(first, last_time))
    return Call([line], lambda replies: estimate_of(codec, kind, wire.after(replies[0].head, "estimate")))


def estimate_of(codec: Codec, kind: str, text: str) -> Estimate:
    """What the program says of an estimate."""
    if kind == "mean":
        return means.estimate_shown(codec, text)
    interval, guess = wire.estimate_of(text)
    return Estimate(codec.interval_back(kind, interval), codec.interval_back(kind, Interval(guess)).lo)


def values(codec: Codec, first: object, last_time: object) -> Call[Sequence[Reading]]:
    """The values of landmarks."""
    def result(replies: Sequence[Reply]) -> Sequence[Reading]:
        rows = [wire.numbers(row, 2) for row in wire.rows_of(replies[0], "values")]
        return [Reading(codec.time_back(time), codec.value_back(value)) for time, value in rows]
    return Call([wire.values(codec.short, *codec.range_of(first, last_time))], result)


def listed(translator: Translator) -> Call[Sequence[Stream]]:
    """All streams."""
    def result(replies: Sequence[Reply]) -> Sequence[Stream]:
        rows = streams_of(wire.rows_of(replies[0], "list"))
        return [row._replace(name=translator.name_of(row.short_name)) for row in rows]
    return Call([wire.LIST], result)


def cursor_open(codec: Codec) -> Call[int]:
    """Opens the cursor of a session."""
    return Call([wire.cursor_open(codec.short)],
                lambda replies: wire.numbers(wire.after(replies[0].head, "cursor"), 1)[0])


def cursor_next(codec: Codec, count: int) -> Call[Sequence[Window]]:
    """The next windows of a cursor."""
    def result(replies: Sequence[Reply]) -> Sequence[Window]:
        rows = [wire.numbers(row, 8) for row in wire.rows_of(replies[0], "rows")]
        return [_window(codec, row) for row in rows]
    return Call([wire.cursor_next(count)], result)


def _window(codec: Codec, row: Sequence[int]) -> Window:
    return Window(row[0], row[1], row[2], codec.value_back(row[3]), codec.value_back(row[4]),
                  codec.value_back(row[5]), codec.time_back(row[6]), codec.time_back(row[7]))


def cursor_first(codec: Codec) -> Call[Time | None]:
    """The time at which the oldest window begins, by lines that go together."""
    def result(replies: Sequence[Reply]) -> Time | None:
        rows = wire.rows_of(replies[1], "rows")
        return _window(codec, wire.numbers(rows[0], 8)).start if rows else None
    return Call([wire.cursor_open(codec.short), wire.cursor_next(1), wire.CURSOR_CLOSE], result)


def cursor_close() -> Call[None]:
    """Ends the cursor of a session."""
    return Call([wire.CURSOR_CLOSE], lambda replies: None)


def certify(codec: Codec, kind: str, end: str, first: object, last_time: object,
            landmarks: Sequence[tuple[object, object]]) -> Call[Certificate]:
    """A certificate, with all that its check needs."""
    begin, finish = codec.range_of(first, last_time)
    marks = [(codec.time(start), wire.LAST_TIME if stop is None else codec.time(stop))
             for start, stop in landmarks]
    parts = certificate.parts_within(marks, begin, finish)
    asked = ("sum", "count") if kind == "mean" else (kind,)
    lines = [wire.certify(codec.short, one_of(kind, ESTIMATED), one_of(end, ENDS, "end"), begin, finish),
             wire.LIST, wire.windows(codec.short), wire.query(codec.short, kind, begin, finish),
             *(wire.query(codec.short, each, *part) for part in parts for each in asked)]

    def result(replies: Sequence[Reply]) -> Certificate:
        answer, base, cuts = certificate.cuts_of(kind, replies[0])
        stream = next(row for row in streams_of(wire.rows_of(replies[1], "list"))
                      if row.name == codec.short)
        windows = tuple(map(certificate.window_of, wire.rows_of(replies[2], "windows")))
        return Certificate(kind, end, begin, finish, answer, base, cuts,
                           certificate.answered_of(kind, end, replies[3]), windows, tuple(marks),
                           certificate.marked_of(asked, replies[4:]), stream.landmarks)
    return Call(lines, result)
