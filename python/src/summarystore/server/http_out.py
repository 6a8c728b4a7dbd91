"""Questions by HTTP: the streams, and answers as intervals that hold the truth."""

from __future__ import annotations

import asyncio
import tempfile
from collections.abc import AsyncIterator, Mapping, Sequence
from typing import TypedDict

from aiohttp import web

from ..calendars import Calendar, Counting
from ..description import unit_of
from ..interval import Presence
from ..kinds import KINDS, Kind, one_of
from ..records import Stream, Window
from . import asked, exactjson, many
from .answers import CSV, JSON, csv_line, ends_of, table_answer, wants_csv
from .app import Service
from .endpoints import Access, ApiError, Endpoint
from .globs import LONGEST, matches
from .many import ROWS
from .meaning import Meaning
from .settings import IGNORE

TOGETHER = 200
"""So many streams are asked for their newest value together."""
MOST_VALUES = 100_000
MOST_WINDOWS = 1 << 20
PIECE = 200
IN_MEMORY = 1 << 20
"""Of an answer so many bytes are held in memory, and what is longer in a file."""
CHUNK = 1 << 16
WINDOW = ("first", "last", "count", "sum", "min", "max", "from", "to")


class CalendarRows(TypedDict):
    """Rows of a calendar as they are answered."""

    step: str
    zone: str
    notice: str | None
    rows: Sequence[Mapping[str, object]]


class HttpOut:
    """The handlers."""

    def __init__(self, service: Service) -> None:
        self._service = service

    # ---- streams ------------------------------------------------------------------------

    async def streams(self, request: web.Request) -> web.StreamResponse:
        """`GET /api/streams`."""
        pattern = request.query.get("match", "*")
        if not 0 < len(pattern) <= LONGEST:
            raise asked.bad(f"`match` has 1 to {LONGEST} characters")
        streams = await self._service.ask(lambda store: store.list())
        chosen = [stream for stream in streams if matches(pattern, stream.name)]
        rows: list[Mapping[str, object]] = []
        for at in range(0, len(chosen), TOGETHER):
            rows += await asyncio.gather(*map(self._stream, chosen[at:at + TOGETHER]))
        if wants_csv(request):
            rows = [{**row, "labels": exactjson.dumps(row["labels"]), "words": exactjson.dumps(row["words"]),
                     "newest": _flat(row["newest"])}
                    for row in rows]
        return table_answer(request, {"streams": rows}, rows)

    async def _stream(self, stream: Stream) -> Mapping[str, object]:
        last = await self._service.ask(lambda store: store.last(stream.name))
        meaning = self._meaning(stream.name)
        told = meaning.description
        newest = None
        if last is not None and last.value is not None and last.newest is not None:
            newest = {"time": meaning.shown_time(last.newest), "lo": last.value.lo, "hi": last.value.hi}
        return {"name": stream.name, "unit": told.unit if told else None,
                "kind": told.meter.kind if told and told.meter else None,
                "integrate": told.meter.integrate if told and told.meter else None,
                **self._shown(stream.name), "labels": dict(told.labels) if told else {},
                "target": stream.target, "within": stream.within,
                "within_seconds": None if stream.within is None else meaning.length(stream.within),
                "values": stream.values, "windows": stream.windows, "landmarks": stream.landmarks,
                "open_landmark": self._service.landmarks.is_open(stream),
                "last": None if last is None else meaning.shown_time(last.time), "newest": newest}

    def _shown(self, name: str) -> Mapping[str, object]:
        """What the page draws of a stream, and the words of its numbers, as its mapping has them."""
        mapping = self._service.intake.mappings.of_stream(name)
        words: dict[str, str] = {}
        for word, number in mapping.words.items() if mapping else ():
            words.setdefault(number, word)
        words.pop(IGNORE, None)
        return {"shows": mapping.shows if mapping else None, "words": words}

    def _meaning(self, name: str) -> Meaning:
        return self._service.intake.streams.meaning(self._service.store(), name)

    # ---- answers ------------------------------------------------------------------------

    async def query(self, request: web.Request) -> web.StreamResponse:
        """`GET /api/query`."""
        words = request.query
        name, kind = asked.one(words, "stream"), asked.one(words, "kind")
        meaning = self._meaning(name)
        first, last = _range(words, meaning)
        told: dict[str, object] = {"stream": name, "kind": kind, "from": _seconds(meaning, first),
                                   "to": _seconds(meaning, last)}
        if kind == "has":
            value = asked.decimal(asked.one(words, "value"), "value")
            presence: Presence = await self._service.ask(
                lambda store: store.has(name, meaning.value(value), first, last))
            told.update(value=value, answer=presence.value)
        elif kind == "value_at":
            at = meaning.last(asked.nanoseconds("now", "to")) if last is None else last
            told.update(ends_of(await self._service.ask(lambda store: store.value_at(name, at))))
        elif kind in KINDS:
            asked_kind = one_of(kind, KINDS)
            told.update(ends_of(await self._service.ask(
                lambda store: store.query(name, asked_kind, first, last))))
        else:
            raise asked.no_kind(kind, (*KINDS, "value_at", "has"))
        return table_answer(request, told, [told])

    async def series(self, request: web.Request) -> web.StreamResponse:
        """`GET /api/series`."""
        words = request.query
        name, kind = asked.one(words, "stream"), words.get("kind", "mean")
        if kind not in KINDS:
            raise asked.no_kind(kind, KINDS)
        meaning = self._meaning(name)
        first, last = await self._span(name, meaning, *_range(words, meaning))
        told: dict[str, object] = {"stream": name, "kind": kind,
                                   "unit": unit_of(meaning.description, kind),
                                   "from": _seconds(meaning, first), "to": _seconds(meaning, last)}
        if first is None or last is None:
            return table_answer(request, {**told, "step": None, "rows": []}, [])
        calendar = asked.calendar(words)
        if calendar is not None:
            found = await self._calendar_rows(name, one_of(kind, KINDS), calendar, meaning, (first, last))
            return table_answer(request, {**told, **found}, found["rows"])
        step = self._step(words, meaning, last - first + 1)
        answers = await self._service.ask(
            lambda store: store.series(name, one_of(kind, KINDS), first, last, step))
        rows: list[dict[str, object]] = [{"time": meaning.shown_time(row.start), **ends_of(row.interval)}
                                         for row in answers]
        told.update(step=meaning.length(step), rows=rows)
        return table_answer(request, told, rows)

    async def _calendar_rows(self, name: str, kind: Kind, calendar: Calendar, meaning: Meaning,
                             span: tuple[int, int]) -> CalendarRows:
        """Whole days, weeks, months or years of a zone: each row says where it begins and where the next
        does. Where the step of the stream doesn't fit them, `notice` says so."""
        most = self._service.configuration.limits.rows
        counting = Counting(meaning.origin, meaning.step)
        calendar = calendar.for_counts(meaning.step)
        moments = calendar.edges(counting.moment(span[0]), counting.moment(span[1]), most)
        if moments is None:
            raise asked.too_many_rows(None, most)
        edges = counting.edges(moments)
        found = await self._service.ask(lambda store: store.rows(name, kind, edges))
        rows: list[dict[str, object]] = [
            {"time": meaning.seconds(edge), "until": meaning.seconds(after), **ends_of(row.interval)}
            for edge, after, row in zip(edges, edges[1:], found)]
        streams = await self._service.ask(lambda store: store.list())
        within = next((stream.within for stream in streams if stream.name == name), None)
        return CalendarRows(step=calendar.step, zone=str(calendar.zone), rows=rows,
                            notice=counting.misfit(within, calendar, moments))

    def _step(self, words: Mapping[str, str], meaning: Meaning, counts: int) -> int:
        """How many counts each row has."""
        most = self._service.configuration.limits.rows
        if "step" in words and "rows" in words:
            raise asked.bad("`step` and `rows` don't go together")
        if "step" in words:
            step = max(1, -(-asked.span(words["step"], "step") // meaning.step))
        else:
            step = max(1, -(-counts // (asked.whole(words, "rows", most) or min(ROWS, most))))
        if -(-counts // step) > most:
            raise asked.too_many_rows(-(-counts // step), most)
        return step

    async def _span(self, name: str, meaning: Meaning, first: int | None, last: int | None
                    ) -> tuple[int | None, int | None]:
        """A range whose ends are those of the stream where they aren't given."""
        if last is None:
            newest = await self._service.ask(lambda store: store.last(name))
            if newest is None:
                return first, None
            last = meaning.count_of(newest.time)
        if first is None:
            first = await self._service.ask(lambda store: self._service.intake.streams.first(store, name))
        if first is not None and first > last:
            raise asked.bad("`from` is after `to`, or after the newest time of the stream", "bad_range")
        return first, last

    async def landmarks(self, request: web.Request) -> web.StreamResponse:
        """`GET /api/landmarks`."""
        name = asked.one(request.query, "stream")
        meaning = self._meaning(name)
        first, last = _range(request.query, meaning)
        streams = await self._service.ask(lambda store: store.list())
        stream = next((each for each in streams if each.name == name), None)
        if stream is None:
            raise ApiError(404, "unknown_stream", f"no stream {name!r} stands")
        if stream.landmark_values > MOST_VALUES:
            raise ApiError(400, "too_many_values", f"the landmarks of this stream have "
                           f"{stream.landmark_values} values, and at most {MOST_VALUES} are answered")
        found = await self._service.ask(lambda store: store.values(name, first, last))
        values = [{"time": meaning.shown_time(each.time), "value": each.value} for each in found]
        spans = [{"from": _of(meaning, span.begin), "to": _of(meaning, span.end)}
                 for span in self._service.landmarks.of(name)
                 if (last is None or span.begin is None or meaning.count(span.begin) <= last)
                 and (first is None or span.end is None or meaning.count(span.end) >= first)]
        told = {"stream": name, "landmarks": spans, "unknown": self._service.landmarks.unknown(stream),
                "values": values}
        return table_answer(request, told, values)

    async def unmatched(self, request: web.Request) -> web.StreamResponse:
        """`GET /api/unmatched`: the names that no mapping matches."""
        names = self._service.unmatched
        rows = [{"name": each.name, "source": each.source, "count": each.count, "last": each.last // 10**9}
                for each in names.list()]
        told = {"readings": names.count, "unlisted": names.unlisted, "names": rows}
        return table_answer(request, told, rows)

    # ---- windows ------------------------------------------------------------------------

    async def windows(self, request: web.Request) -> web.StreamResponse:
        """`GET /api/windows`: what the store keeps. It is read at once, and sent as fast as it is taken: a
        client that is slow holds none of the eight cursors."""
        name = asked.one(request.query, "stream")
        most = asked.whole(request.query, "limit", MOST_WINDOWS) or MOST_WINDOWS
        meaning = self._meaning(name)
        table = wants_csv(request)
        found = self._service.store().windows(name)
        with tempfile.SpooledTemporaryFile(IN_MEMORY) as kept:
            try:
                kept.write((csv_line(WINDOW) if table else f'{{"stream":{exactjson.dumps(name)},"windows":['
                            ).encode())
                async for piece in _pieces(found, meaning, most, table):
                    kept.write(piece.encode())
                kept.write(b"" if table else b"]}")
            finally:
                await found.aclose()    # type: ignore[attr-defined]
            kept.seek(0)
            answer = web.StreamResponse(headers={"Content-Type": f"{CSV if table else JSON}; charset=utf-8"})
            answer.enable_chunked_encoding()
            await answer.prepare(request)
            while data := kept.read(CHUNK):
                await answer.write(data)
            await answer.write_eof()
        return answer


def endpoints(service: Service) -> Sequence[Endpoint]:
    """The addresses."""
    out = HttpOut(service)
    return [Endpoint("GET", "/api/streams", out.streams, Access.READ),
            *many.endpoints(service, {"/api/query": out.query, "/api/series": out.series}),
            Endpoint("GET", "/api/windows", out.windows, Access.READ),
            Endpoint("GET", "/api/landmarks", out.landmarks, Access.READ),
            Endpoint("GET", "/api/unmatched", out.unmatched, Access.READ)]


def _flat(newest: object) -> object:
    return exactjson.dumps(newest) if newest is not None else None


def _range(words: Mapping[str, str], meaning: Meaning) -> tuple[int | None, int | None]:
    """The counts from `from` to `to`, each None where it isn't given."""
    begin, end = asked.range_of(words)
    first = None if begin is None else meaning.first(begin)
    last = None if end is None else meaning.last(end)
    if last is not None and last < (first or 0):
        raise asked.bad("the range ends before it begins, or before the first time there can be", "bad_range")
    return first, last


def _seconds(meaning: Meaning, count: int | None) -> object:
    return None if count is None else meaning.seconds(count)


def _of(meaning: Meaning, nanoseconds: int | None) -> object:
    return None if nanoseconds is None else meaning.seconds(meaning.count(nanoseconds))


async def _pieces(found: AsyncIterator[Window], meaning: Meaning, most: int, table: bool
                  ) -> AsyncIterator[str]:
    """The rows of windows as text, some hundred at a time. The first piece comes in any case."""
    rows: list[str] = []
    count, before = 0, ""
    async for window in found:
        cells = (window.first, window.last, window.count, window.sum, window.least, window.greatest,
                 meaning.shown_time(window.start), meaning.shown_time(window.end))
        rows.append(csv_line(cells) if table else exactjson.dumps(dict(zip(WINDOW, cells))))
        count += 1
        if len(rows) == PIECE or count == most:
            yield before + ("" if table else ",").join(rows)
            rows, before = [], "" if table else ","
        if count == most:
            return
    if rows or count == 0:
        yield before + ("" if table else ",").join(rows) if rows else ""
