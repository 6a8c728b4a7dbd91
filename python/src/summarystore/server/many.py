"""Questions over many streams of the store at once, by a pattern of their names.

The answers say what a gateway needs to put those of several services together: the parts of a mean,
and by a digest of the names which streams they are over (`GET /api/names`).
"""

from __future__ import annotations

import asyncio
import hashlib
from collections.abc import Awaitable, Callable, Iterable, Mapping, Sequence
from dataclasses import dataclass

from aiohttp import web
from multidict import MultiMapping

from .. import combining
from ..calendars import Calendar, Counting
from ..combining import Part
from ..description import unit_of
from ..gauges import BESIDE
from ..kinds import KINDS as ALL_KINDS, one_of
from ..wire import LAST_TIME
from . import asked
from .answers import ends_of, table_answer
from .app import Service
from .endpoints import Access, ApiError, Endpoint
from .globs import LONGEST, matches
from .meaning import Meaning, seconds_of

KINDS = ("count", "sum", "mean", "min", "max", *combining.METERS)
METERS = {"increase": "counter", "integral": "gauge"}
"""What meters are asked, and which of them."""
ROWS = 200
TOGETHER = 100
"""So many streams are asked together."""
MOST_CELLS = 2_000_000
"""Rows, times streams, times what has to be known of each."""
MOST_WITHOUT = 1000


def digest_of(names: Iterable[str]) -> str:
    """What tells sets of names apart, whatever their order."""
    return hashlib.sha256("\0".join(sorted(names)).encode()).hexdigest()[:32]


@dataclass(frozen=True)
class Rows:
    """Spans of time from `first` to `last`, in nanoseconds, each of `step` but the last. Those of a calendar
    go from edge to edge."""

    first: int
    last: int
    step: int
    calendar: Calendar | None = None
    edges: Sequence[int] = ()

    @property
    def count(self) -> int:
        """How many there are."""
        return len(self.edges) - 1 if self.edges else -(-(self.last - self.first + 1) // self.step)

    @property
    def told(self) -> Mapping[str, object]:
        """What is told of them, in seconds."""
        step = self.calendar.step if self.calendar else seconds_of(self.step)
        zone = {"zone": str(self.calendar.zone)} if self.calendar else {}
        return {"from": seconds_of(self.first), "to": seconds_of(self.last), "step": step, **zone}

    def told_of(self, row: int) -> dict[str, object]:
        """Where a row begins, in seconds, and of a calendar where the next one does."""
        until = {"until": seconds_of(self.edges[row + 1])} if self.edges else {}
        return {"time": seconds_of(self.span(row)[0]), **until}

    def span(self, row: int) -> tuple[int, int]:
        """The first and the last time of a row."""
        if self.edges:
            return self.edges[row], self.edges[row + 1] - 1
        begin = self.first + row * self.step
        return begin, min(self.last, begin + self.step - 1)


def pattern_of(words: Mapping[str, str], key: str) -> str:
    """A pattern of names."""
    pattern = asked.one(words, key)
    if len(pattern) > LONGEST:
        raise asked.bad(f"`{key}` has 1 to {LONGEST} characters")
    return pattern


def kind_of(words: Mapping[str, str]) -> str:
    """A kind of answer that several streams have together."""
    kind = words.get("kind", "mean")
    if kind not in KINDS:
        raise asked.no_kind(kind, KINDS)
    return kind


def range_of(words: Mapping[str, str]) -> tuple[int | None, int | None]:
    """The nanoseconds from `from` to `to`, each None where it isn't given."""
    first, last = asked.range_of(words)
    if first is not None and last is not None and last < first:
        raise asked.bad("the range ends before it begins", "bad_range")
    return first, last


def rows_of(words: Mapping[str, str], most: int) -> Rows:
    """The rows that are asked for. They are the same spans of time for all streams."""
    if "from" not in words:
        raise asked.bad("`from` is missing: the rows of several streams are the same spans of time")
    first, last = range_of({"to": "now", **words})
    assert first is not None and last is not None
    if "step" in words and "rows" in words:
        raise asked.bad("`step` and `rows` don't go together")
    calendar = asked.calendar(words)
    if calendar is not None:
        edges = calendar.edges(first, last, most)
        if edges is None:
            raise asked.too_many_rows(None, most)
        return Rows(first, last, 0, calendar, edges)
    length = last - first + 1
    step = asked.span(words["step"], "step") if "step" in words else \
        -(-length // (asked.whole(words, "rows", most) or min(ROWS, most)))
    rows = Rows(first, last, step)
    if rows.count > most:
        raise asked.too_many_rows(rows.count, most)
    return rows


def parts_of(part: Part) -> dict[str, object]:
    """What a mean is made of, as it is answered: the figures of all, and between what their means lie."""
    return {"parts": {kind: ends_of(interval) for kind, interval in part.items()}}


class Many:
    """The handlers."""

    def __init__(self, service: Service) -> None:
        self._service = service

    async def names(self, request: web.Request) -> web.StreamResponse:
        """`GET /api/names`. Who knows them by their digest isn't told them again."""
        found = await self._names(request.query, request.query.get("match", "*"))
        told: dict[str, object] = {"matched": len(found), "digest": digest_of(found)}
        if request.query.get("known") != told["digest"]:
            told["names"] = found
        return table_answer(request, told, [{"name": name} for name in found])

    async def _names(self, words: MultiMapping[str], pattern: str) -> Sequence[str]:
        """The names of a pattern, without those that `without` takes off."""
        if not 0 < len(pattern) <= LONGEST:
            raise asked.bad(f"a pattern has 1 to {LONGEST} characters")
        without: Sequence[str] = words.getall("without", ())
        if len(without) > MOST_WITHOUT or any(not 0 < len(each) <= LONGEST for each in without):
            raise asked.bad(f"`without` stands at most {MOST_WITHOUT} times, with 1 to {LONGEST} characters")
        streams = await self._service.ask(lambda store: store.list())
        return [stream.name for stream in streams if matches(pattern, stream.name)
                and (BESIDE in pattern or not stream.name.endswith(BESIDE))
                and not any(matches(each, stream.name) for each in without)]

    async def _matched(self, words: MultiMapping[str], kind: str
                       ) -> tuple[str, Sequence[str], dict[str, object]]:
        pattern = pattern_of(words, "streams")
        if "stream" in words:
            raise asked.bad("`stream` and `streams` don't go together")
        names = await self._names(words, pattern)
        if kind in METERS:
            names = [name for name in names if self._meter(name) == METERS[kind]]
        if not names:
            raise ApiError(404, "unknown_stream", f"no {METERS.get(kind, 'stream')} matches {pattern!r}")
        return pattern, names, {"matched": len(names), "digest": digest_of(names)}

    async def query(self, request: web.Request) -> web.StreamResponse:
        """`GET /api/query` by `streams`."""
        words = request.query
        kind = kind_of(words)
        first, last = range_of(words)
        pattern, names, matched = await self._matched(words, kind)
        kinds = combining.needed(kind)

        async def of_stream(name: str) -> Part:
            return await self._part(name, kinds, first, last)
        part = combining.empty(kinds)
        for at in range(0, len(names), TOGETHER):
            found = await asyncio.gather(*map(of_stream, names[at:at + TOGETHER]))
            part = combining.joined(kinds, [part, *found])
        told: dict[str, object] = {
            "streams": pattern, "kind": kind, "unit": self._unit(kind, names), "from": _seconds(first),
            "to": _seconds(last), **matched, **ends_of(combining.answer(kind, part))}
        if kind == "mean":
            told.update(parts_of(part))
        return table_answer(request, told, [{key: each for key, each in told.items() if key != "parts"}])

    async def _part(self, name: str, kinds: Sequence[str], first: int | None, last: int | None) -> Part:
        """What is known of one stream from one nanosecond to another."""
        meaning = self._meaning(name)
        begin = None if first is None else meaning.first(first)
        end = None if last is None else meaning.last(last)
        if end is not None and end < (begin or 0):
            return combining.empty(kinds)
        if kinds[0] in METERS:
            kind = one_of(kinds[0], ALL_KINDS)
            return {kind: await self._service.ask(lambda store: store.query(name, kind, begin, end))}
        return (await self._service.ask(lambda store: store.figures(name, kinds, begin, end)))[0]

    async def series(self, request: web.Request) -> web.StreamResponse:
        """`GET /api/series` by `streams`."""
        words = request.query
        kind = kind_of(words)
        rows = rows_of(words, self._service.configuration.limits.rows)
        pattern, names, matched = await self._matched(words, kind)
        kinds = combining.needed(kind)
        if rows.count * len(names) * len(kinds) > MOST_CELLS:
            raise ApiError(400, "too_many_rows", f"{rows.count} rows of {len(names)} streams are too many: "
                                                 "take a greater step, or a narrower pattern")
        parts = await self._part_rows(names, kinds, rows)
        shown: list[dict[str, object]] = [
            {**rows.told_of(row), **ends_of(combining.answer(kind, part)),
             **(parts_of(part) if kind == "mean" else {})} for row, part in enumerate(parts)]
        told: dict[str, object] = {
            "streams": pattern, "kind": kind, "unit": self._unit(kind, names), **rows.told, **matched,
            "rows": shown}
        return table_answer(request, told, [{key: each for key, each in row.items() if key != "parts"}
                                            for row in shown])

    async def _part_rows(self, names: Sequence[str], kinds: Sequence[str], rows: Rows) -> Sequence[Part]:
        """What is known of several streams in each row."""
        async def of_stream(name: str) -> Sequence[Part]:
            return await self._rows(name, kinds, rows)
        total: Sequence[Part] = [combining.empty(kinds)] * rows.count
        for at in range(0, len(names), TOGETHER):
            found = await asyncio.gather(*map(of_stream, names[at:at + TOGETHER]))
            total = [combining.joined(kinds, row) for row in zip(total, *found)]
        return total

    async def _rows(self, name: str, kinds: Sequence[str], rows: Rows) -> Sequence[Part]:
        """What is known of one stream in each row: by a series where the rows are whole counts of it."""
        meaning = self._meaning(name)
        begin, end = -((meaning.origin - rows.first) // meaning.step), meaning.last(rows.last)
        edges = Counting(meaning.origin, meaning.step).edges(rows.edges) if rows.edges else ()
        if kinds[0] in METERS and 1 < len(edges) == len(rows.edges):    # each until the next row
            risen = await self._service.ask(
                lambda store: store.rows(name, one_of(kinds[0], ALL_KINDS), edges))
            return [{kinds[0]: row.interval} for row in risen]
        if rows.edges or rows.step % meaning.step or not 0 <= begin <= end < LAST_TIME:
            return await asyncio.gather(*(self._part(name, kinds, *rows.span(row))
                                          for row in range(rows.count)))
        step = rows.step // meaning.step
        if kinds[0] in METERS:
            kind = one_of(kinds[0], ALL_KINDS)
            series = await self._service.ask(lambda store: store.series(name, kind, begin, end, step))
            found: Sequence[Part] = [{kind: row.interval} for row in series]
        else:
            found = await self._service.ask(lambda store: store.figures(name, kinds, begin, end, step))
        return [*found, *[combining.empty(kinds)] * (rows.count - len(found))]

    def _meter(self, name: str) -> str | None:
        described = self._meaning(name).description
        return None if described is None or described.meter is None else described.meter.kind

    def _meaning(self, name: str) -> Meaning:
        return self._service.intake.streams.meaning(self._service.store(), name)

    def _unit(self, kind: str, names: Sequence[str]) -> str | None:
        """The unit that all of them have. A number of values has none."""
        units = {unit_of(self._meaning(name).description, kind) for name in names}
        return units.pop() if len(units) == 1 else None


def endpoints(service: Service, one: Mapping[str, Callable[[web.Request], Awaitable[web.StreamResponse]]]
              ) -> Sequence[Endpoint]:
    """The addresses: those that answer by `stream` too are given, and asked where it is that."""
    many = Many(service)

    def by_word(path: str, several: Callable[[web.Request], Awaitable[web.StreamResponse]]) -> Endpoint:
        async def found(request: web.Request) -> web.StreamResponse:
            return await (several if "streams" in request.query else one[path])(request)
        return Endpoint("GET", path, found, Access.READ)

    return [by_word("/api/query", many.query), by_word("/api/series", many.series),
            Endpoint("GET", "/api/names", many.names, Access.READ)]


def _seconds(nanoseconds: int | None) -> object:
    return None if nanoseconds is None else seconds_of(nanoseconds)
