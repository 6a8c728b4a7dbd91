"""The gateway: the service's face by HTTP over many shards.

The mean of one stream is as its shard tells it. That of several is put together from their counts, sums,
least and greatest values, and lies between their means: it may be wider than what is known of them.
"""

from __future__ import annotations

import asyncio
import logging
import time
from collections.abc import Mapping, Sequence
from contextlib import suppress
from decimal import Decimal

import aiohttp
from aiohttp import web

from .. import combining
from ..server import asked
from ..server.answers import JSON, json_answer, table_answer
from ..server.counters import Counters
from ..server.endpoints import Access, ApiError, Endpoint
from ..server.globs import matches
from ..server.http import Http
from ..server.many import kind_of, pattern_of, range_of, rows_of
from ..server.meaning import seconds_of
from ..server.tokens import read_tokens
from . import describing, gathering
from .directory import Directory
from .gathering import Gathered
from .layout import Layout, Shard
from .shards import (AS_OF, COPIED, PIECE, NoAnswerError, Shards, Words, as_of_of, object_of, whole_of)

log = logging.getLogger("summarystored")
PASSED = ("stream", "kind", "value", "from", "to", "step", "rows", "zone", "limit")
"""The words of a question about one stream."""


def _behind(shard: Shard, as_of: Decimal, body: Mapping[str, object]) -> web.Response:
    """The answer of a shard that is too far behind."""
    told = {"partial": True, "missing": [], "behind": [shard.name], "as_of": as_of}
    answer = json_answer({**gathering.without_ends(body), **told})
    answer.headers.update({gathering.HEADER: shard.name, "Summarystore-Shard": shard.name, AS_OF: str(as_of)})
    return answer


def _text(value: object) -> str:
    return f"{value:f}" if isinstance(value, Decimal) else str(value)


class Gateway:
    """All that is shared. It is made and used within one event loop."""

    def __init__(self, layout: Layout) -> None:
        self.configuration = layout
        self.tokens = read_tokens(layout.tokens.file)
        self.counters = Counters()
        self.shards = Shards(layout.shards, layout.asking)
        self.directory = Directory(self.shards)
        self.started = time.time()
        self.stopping = False
        self.http = Http(self, endpoints(self))
        self._looking: asyncio.Task[None] | None = None

    async def start(self) -> None:
        """Looks at the shards once, and listens. Shards that don't answer yet are no failure."""
        await self.shards.open()
        await self.directory.look()
        await self.http.start()
        self._looking = asyncio.get_running_loop().create_task(self._look())

    async def stop(self) -> None:
        """Takes no more, and lets the answers that are under way end."""
        self.stopping = True
        await self.http.stop()
        if self._looking is not None:
            self._looking.cancel()
            with suppress(asyncio.CancelledError):
                await self._looking
        await self.shards.close()

    async def _look(self) -> None:
        while True:
            await asyncio.sleep(self.configuration.asking.look_seconds)
            await self.directory.look()

    # ---- questions about one stream -----------------------------------------------------

    async def one(self, request: web.Request) -> web.StreamResponse:
        """Hands the question to the shard that has the stream, and its answer back as it comes."""
        name = asked.one(request.query, "stream")
        words = [(key, value) for key, value in request.query.items() if key in PASSED]
        try:
            answer = await self._passed(request, await self.directory.holder(name), words)
            if answer is None:      # it has gone from there
                await self.directory.look()
                answer = await self._passed(request, await self.directory.holder(name), words)
        except NoAnswerError as error:
            raise ApiError(503, "no_answer", str(error), 5) from None
        if answer is None:
            raise ApiError(404, "unknown_stream", f"no stream {name!r} stands")
        return answer

    async def _passed(self, request: web.Request, shard: Shard, words: Words) -> web.StreamResponse | None:
        """The answer of a shard. None where it has no such stream."""
        headers = {"Accept": request.headers["Accept"]} if "Accept" in request.headers else {}
        async with self.shards.opened(shard, request.path, words, headers) as found:
            if found is None:
                return None
            as_of = self.shards.behind(as_of_of(found))
            if as_of is not None and found.content_type == JSON and found.status < 400:
                return _behind(shard, as_of, object_of(await whole_of(found)))
            answer = web.StreamResponse(status=found.status, headers={
                "Content-Type": found.headers.get("Content-Type", "application/json"),
                "Summarystore-Shard": shard.name,
                **({} if as_of is None else {gathering.HEADER: shard.name}),
                **{key: found.headers[key] for key in (COPIED, AS_OF) if key in found.headers}})
            await answer.prepare(request)
            try:
                async for piece in found.content.iter_chunked(PIECE):
                    await answer.write(piece)
            except (aiohttp.ClientError, asyncio.TimeoutError, OSError):
                # The head is out: only an answer without its end says that something is missing.
                if request.transport is not None:
                    request.transport.abort()
                raise ConnectionError(shard.name) from None
            await answer.write_eof()
            return answer

    # ---- questions about many streams ---------------------------------------------------

    async def _gathered(self, path: str, words: Words) -> Gathered:
        return await gathering.gather(self.shards, path, words, self.configuration.limits.answer_seconds)

    async def _must_be_whole(self, pattern: str, gathered: Gathered) -> None:
        """Raises ApiError where the answers are over nothing, or over a stream twice."""
        gathered.must_have_some()
        if not gathered.bodies and not gathered.partial:
            raise ApiError(404, "unknown_stream", f"no stream matches {pattern!r}")
        await self.directory.must_be_apart(pattern, {shard: str(body.get("digest"))
                                                     for shard, body in gathered.bodies.items()})

    async def query(self, request: web.Request) -> web.StreamResponse:
        """`GET /api/query`."""
        words = request.query
        if "streams" not in words:
            return await self.one(request)
        pattern, kind, (first, last) = pattern_of(words, "streams"), kind_of(words), range_of(words)
        question = [("streams", pattern), ("kind", kind), *_ends(first, last)]
        gathered = await self._gathered("/api/query", question)
        parts = gathering.parts_of(kind, gathered)
        await self._must_be_whole(pattern, gathered)
        part = combining.joined(combining.needed(kind), parts)
        told: dict[str, object] = {
            "streams": pattern, "kind": kind, "unit": gathered.unit(), "from": _seconds(first),
            "to": _seconds(last), "matched": gathered.matched(),
            **gathering.ends(kind, part, gathered.partial)}
        return _table(request, gathered, {**told, **gathered.told()}, [told])

    async def series(self, request: web.Request) -> web.StreamResponse:
        """`GET /api/series`."""
        words = request.query
        if "streams" not in words:
            return await self.one(request)
        pattern, kind = pattern_of(words, "streams"), kind_of(words)
        rows = rows_of(words, self.configuration.limits.rows)
        question = [("streams", pattern), ("kind", kind), *_ends(rows.first, rows.last),
                    *((key, _text(rows.told[key])) for key in ("step", "zone") if key in rows.told)]
        gathered = await self._gathered("/api/series", question)
        columns = gathering.rows_of(kind, rows.count, gathered)
        await self._must_be_whole(pattern, gathered)
        kinds = combining.needed(kind)
        parts = [combining.joined(kinds, row) for row in zip(*columns)]
        parts = parts or [combining.empty(kinds)] * rows.count
        shown: list[dict[str, object]] = [
            {**rows.told_of(row), **gathering.ends(kind, part, gathered.partial)}
            for row, part in enumerate(parts)]
        told: dict[str, object] = {
            "streams": pattern, "kind": kind, "unit": gathered.unit(), **rows.told,
            "matched": gathered.matched(), **gathered.told(), "rows": shown}
        return _table(request, gathered, told, shown)

    async def streams(self, request: web.Request) -> web.StreamResponse:
        """`GET /api/streams`: those of all shards, each with the name of its shard."""
        gathered = await self._gathered("/api/streams", [("match", request.query.get("match", "*"))])
        gathered.must_have_some()
        rows = [dict(row, shard=shard.name) for shard, row in _listed(gathered, "streams")
                if not _is_gone(shard, str(row.get("name")))]
        return _table(request, gathered, {"streams": rows, **gathered.told()}, rows)

    async def names(self, request: web.Request) -> web.StreamResponse:
        """`GET /api/names`."""
        gathered = await self._gathered("/api/names", [("match", request.query.get("match", "*"))])
        gathered.must_have_some()
        found = {shard.name: body.get("names") for shard, body in gathered.bodies.items()}
        rows = [{"name": name, "shard": shard} for shard, names in found.items()
                for name in (names if isinstance(names, list) else ())]
        told = {"matched": len(rows), "names": [row["name"] for row in rows],
                "shards": {shard: len(names) for shard, names in found.items() if isinstance(names, list)}}
        return _table(request, gathered, {**told, **gathered.told()}, rows)

    # ---- itself -------------------------------------------------------------------------

    def status(self) -> str:
        """`ok`, `stopping`, `partial` where a shard doesn't answer, and `no_shard` where none does."""
        if self.stopping:
            return "stopping"
        answering = [self.shards.answers(shard) for shard in self.shards.shards]
        return "ok" if all(answering) else "partial" if any(answering) else "no_shard"

    async def healthz(self, request: web.Request) -> web.StreamResponse:
        """`GET /healthz`. Who has no token to read is told the status alone."""
        status = self.status()
        told: dict[str, object] = {"status": status}
        if self.tokens.allow(Access.READ, request.headers, request.query):
            told["seconds"] = round(time.time() - self.started)
            told["shards"] = [{"name": shard.name, "names": self.directory.count(shard),
                               "replicas": [each.told() for each in self.shards.replicas[shard.name]]}
                              for shard in self.shards.shards]
        return json_answer(told, 200 if status in ("ok", "partial") else 503)


def endpoints(gateway: Gateway) -> Sequence[Endpoint]:
    """The addresses."""
    document = describing.document()

    async def openapi(request: web.Request) -> web.StreamResponse:
        return json_answer(document)

    return [Endpoint("GET", "/api/streams", gateway.streams), Endpoint("GET", "/api/names", gateway.names),
            Endpoint("GET", "/api/query", gateway.query), Endpoint("GET", "/api/series", gateway.series),
            Endpoint("GET", "/api/windows", gateway.one), Endpoint("GET", "/api/landmarks", gateway.one),
            Endpoint("GET", "/healthz", gateway.healthz, Access.OPEN),
            Endpoint("GET", "/openapi.json", openapi, Access.OPEN)]


def _ends(first: int | None, last: int | None) -> Words:
    """The ends of a range in seconds, exactly: no two shards are asked of different times."""
    return [(key, _text(seconds_of(each))) for key, each in (("from", first), ("to", last))
            if each is not None]


def _seconds(nanoseconds: int | None) -> object:
    return None if nanoseconds is None else seconds_of(nanoseconds)


def _listed(gathered: Gathered, key: str) -> Sequence[tuple[Shard, Mapping[str, object]]]:
    found = []
    for shard, body in gathered.bodies.items():
        rows = body.get(key)
        if isinstance(rows, list):
            found += [(shard, row) for row in rows if isinstance(row, dict)]
    return found


def _is_gone(shard: Shard, name: str) -> bool:
    """Whether a name of a shard isn't its own any more."""
    return any(matches(pattern, name) for pattern in shard.without)


def _table(request: web.Request, gathered: Gathered, whole: Mapping[str, object],
           rows: Sequence[Mapping[str, object]]) -> web.Response:
    """The whole as JSON, or its rows as CSV. That shards are missing stands in a header, too."""
    flat = [{key: each for key, each in row.items() if not isinstance(each, (dict, list))} for row in rows]
    answer = table_answer(request, whole, flat)
    answer.headers.update(gathered.headers())
    return answer
