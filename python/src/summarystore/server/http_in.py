"""Readings by HTTP: InfluxDB's line protocol and JSON. And landmarks."""

from __future__ import annotations

import asyncio
import time as clock
from collections.abc import Mapping, Sequence

from aiohttp import web

from . import asked, exactjson, linebody
from .answers import error_answer, json_answer
from .app import Service
from .bodies import body_of, text_of
from .column import are_stored, columns_of, in_order
from .endpoints import Access, ApiError, Endpoint
from .intake import Incoming, Outcome, Result
from .linebody import Body
from .lineprotocol import PRECISIONS, Mistake
from .meaning import seconds_of
from .outcomes import TOO_FAR, Word

READINGS = '{"stream": NAME, "time": TIME, "value": NUMBER}, or {"readings": [..]} with a list of these'
LANDMARK = '{"stream": NAME, "action": "open" or "close"}, and "time" where it isn\'t now'
SHOWN = 20
"""So many refusals are told one by one."""
VERSION = "1.8-summarystore"
KEYS = ("stream", "time", "value")
WORDS = "Summarystore-Not-Numbers"
"""The header that says how many fields were texts or truth values, and so aren't kept."""


class HttpIn:
    """The handlers."""

    def __init__(self, service: Service) -> None:
        self._service = service

    async def write(self, request: web.Request) -> web.StreamResponse:
        """`POST /write` and `POST /api/v2/write`: line protocol."""
        limits = self._service.configuration.limits
        precision = request.query.get("precision", "ns")
        if precision not in PRECISIONS:
            raise asked.bad(f"`precision`: {precision[:20]!r} isn't one of {', '.join(PRECISIONS)}")
        text = text_of(await body_of(request, limits))
        body = Body((), ())
        for found in linebody.read(text, PRECISIONS[precision], limits.line, limits.lines):
            if found is None:
                await asyncio.sleep(0)
            else:
                body = found
        if len(body.lines) + len(body.mistakes) > limits.lines:
            raise ApiError(413, "too_many", f"a body has at most {limits.lines} readings")
        columns = await self._service.intake.append_columns(body.columns)
        if not body.mistakes and are_stored(columns):
            return web.Response(status=204, headers={"X-Influxdb-Version": VERSION})
        lines, outcomes = body.lines, in_order(body.columns, columns)
        words = 0
        if not self._service.configuration.http.strict:
            told = [(line, outcome) for line, reading, outcome in zip(lines, body.readings(), outcomes)
                    if not _is_word(reading, outcome)]
            words = len(outcomes) - len(told)
            lines, outcomes = [line for line, _ in told], [outcome for _, outcome in told]
        answer = _written(lines, body.mistakes, outcomes)
        if words:
            answer.headers[WORDS] = str(words)
        return answer

    async def append(self, request: web.Request) -> web.StreamResponse:
        """`POST /api/append`: one reading, or a list of them."""
        limits = self._service.configuration.limits
        given = _object(await body_of(request, limits), READINGS)
        rows = given.get("readings", [given])
        if not isinstance(rows, list):
            raise asked.bad("`readings` is a list")
        if "readings" in given and len(given) > 1:
            raise asked.bad("beside `readings` there is nothing else")
        if len(rows) > limits.lines:
            raise ApiError(413, "too_many", f"a body has at most {limits.lines} readings")
        readings = [_reading(row, at) for at, row in enumerate(rows)]
        columns = columns_of(readings)
        found = await self._service.intake.append_columns(columns)
        if are_stored(found):
            return json_answer({"stored": len(readings), "there": 0, "refused": []})
        return _appended(in_order(columns, found))

    async def landmark(self, request: web.Request) -> web.StreamResponse:
        """`POST /api/landmark`: opens one, or closes the one that is open."""
        given = _object(await body_of(request, self._service.configuration.limits), LANDMARK)
        stream, action, time = given.get("stream"), given.get("action"), given.get("time")
        if not isinstance(stream, str) or not stream:
            raise asked.bad("`stream` is the name of a stream")
        if action not in ("open", "close"):
            raise asked.bad("`action` is `open` or `close`")
        at = None if time is None else asked.nanoseconds(time, "time")
        if at is not None and at > clock.time_ns() + self._service.configuration.limits.future:
            raise ApiError(400, "future", f"the time {seconds_of(at)} s lies too far ahead of the clock")
        told = await self._service.landmarks.mark(stream, action == "open", at)
        return json_answer({"stream": stream, "action": action, "time": told})

    async def ping(self, request: web.Request) -> web.StreamResponse:
        """`/ping`, by which clients of InfluxDB look whether there is one."""
        return web.Response(status=204, headers={"X-Influxdb-Version": VERSION, "X-Influxdb-Build": "OSS"})

    async def health(self, request: web.Request) -> web.StreamResponse:
        """`/health`, as InfluxDB 2 has it."""
        store = self._service.supervisor
        good = store.taking is not None
        # Whoever asks needs no token, so nothing of this machine is told.
        told = {"name": "summarystored", "status": "pass" if good else "fail",
                "message": "readings are taken" if good else f"the store is {store.state.value}",
                "version": VERSION}
        return json_answer(told, 200 if good else 503)

    async def query(self, request: web.Request) -> web.StreamResponse:
        """`/query` of InfluxDB 1: clients make their database by it, and nothing else is understood."""
        words = request.query.get("q", "")
        if not words and request.method == "POST":
            form = dict(_form(text_of(await body_of(request, self._service.configuration.limits))))
            words = form.get("q", "")
        if words.strip().upper().startswith("CREATE DATABASE "):
            return json_answer({"results": [{"statement_id": 0}]})
        raise ApiError(400, "no_influxql", "InfluxQL isn't understood here, but for CREATE DATABASE, which "
                       "changes nothing: ask /api/query or /api/series")


def endpoints(service: Service) -> Sequence[Endpoint]:
    """The addresses."""
    to = HttpIn(service)
    return [Endpoint("POST", "/write", to.write, Access.WRITE),
            Endpoint("POST", "/api/v2/write", to.write, Access.WRITE),
            Endpoint("POST", "/api/append", to.append, Access.WRITE),
            Endpoint("POST", "/api/landmark", to.landmark, Access.WRITE),
            Endpoint("GET", "/ping", to.ping, Access.OPEN),
            Endpoint("GET", "/health", to.health, Access.OPEN),
            Endpoint("GET", "/query", to.query, Access.WRITE),
            Endpoint("POST", "/query", to.query, Access.WRITE)]


def _form(text: str) -> Sequence[tuple[str, str]]:
    from urllib.parse import parse_qsl
    try:
        return parse_qsl(text, max_num_fields=20)
    except ValueError:
        raise asked.bad("the form has too many fields") from None


def _object(data: bytes, form: str) -> Mapping[str, object]:
    try:
        given = exactjson.loads(data)
    except ValueError as error:
        raise asked.bad(str(error)) from None
    if not isinstance(given, dict):
        raise asked.bad(f"an object is to stand in the body: {form}")
    return given


def _reading(row: object, at: int) -> Incoming:
    """A reading of the JSON. What can't be one refuses the whole body, before anything is taken."""
    if not isinstance(row, dict) or not isinstance(row.get("stream"), str) or "value" not in row:
        raise asked.bad(f"reading {at}: {{\"stream\", \"time\", \"value\"}} is to stand there")
    other = [key for key in row if key not in KEYS]
    if other:
        raise asked.bad(f"reading {at}: there is no {other[0][:40]!r}")
    time = row.get("time")
    value = row["value"]
    if isinstance(value, (dict, list)) or value is None:
        value = exactjson.dumps(value)[:40]     # no number, and shown as it came
    return Incoming(row["stream"], value, None if time is None else asked.nanoseconds(time, f"time of {at}"),
                    {}, "http")


def _appended(outcomes: Sequence[Outcome]) -> web.Response:
    """What became of the readings of a request in JSON."""
    wrong = [(at, outcome.code, outcome.reason) for at, outcome in enumerate(outcomes)
             if outcome.result is Result.REFUSED]
    told = _told(outcomes, wrong, "index")
    ignored = sum(outcome.result is Result.IGNORED for outcome in outcomes)
    if ignored:
        told["ignored"] = ignored
    open_ones = open_of(outcomes)
    if open_ones is not None:
        told["not_stored"] = [at for at, each in enumerate(outcomes) if each.result is Result.NOT_STORED]
        told["unknown"] = [at for at, each in enumerate(outcomes) if each.result is Result.UNKNOWN]
        return error_answer(open_ones, told)
    return _partial(told, wrong[0], len(wrong), "reading") if wrong else json_answer(told)


def _told(outcomes: Sequence[Outcome], wrong: Sequence[tuple[int, str, str]], place: str
          ) -> dict[str, object]:
    """How many readings are stored, how many stood there, and which are refused."""
    return {"stored": sum(outcome.result is Result.STORED for outcome in outcomes),
            "there": sum(outcome.result is Result.THERE for outcome in outcomes),
            "refused": [{place: at, "code": code, "reason": reason} for at, code, reason in wrong]}


def _partial(told: dict[str, object], first: tuple[int, str, str], dropped: int, what: str) -> web.Response:
    """That some readings are refused, as clients of InfluxDB understand it."""
    place, _, reason = first
    there = f" and {told['there']} stood there" if told["there"] else ""
    text = f"{told['stored']} readings are stored{there}; {what} {place}: {reason} dropped={dropped}"
    told.update(dropped=dropped, code="invalid", message=f"partial write: {text}")
    return error_answer(ApiError(400, "partial write", text), told)


def open_of(outcomes: Sequence[Outcome]) -> ApiError | None:
    """Where the fate of some isn't final: what is known of them."""
    not_stored = sum(outcome.result is Result.NOT_STORED for outcome in outcomes)
    unknown = [outcome for outcome in outcomes if outcome.result is Result.UNKNOWN]
    if not not_stored and not unknown:
        return None
    good = sum(outcome.good for outcome in outcomes)
    if TOO_FAR in outcomes:
        return ApiError(503, TOO_FAR.code, f"{good} readings are stored and {not_stored} aren't, which alone "
                        f"are to be sent again: {TOO_FAR.reason}", 1)
    return ApiError(503, "interrupted", f"the store's program ended: {good} are stored, {not_stored} surely "
                    f"aren't, and of {len(unknown)} it isn't known. Sent again, each is stored once", 1)


def _is_word(reading: Incoming, outcome: Outcome) -> bool:
    """Whether it is a field that is no number, so that it was never a reading. It is counted as refused."""
    return (outcome.result is Result.REFUSED and isinstance(reading.value, Word)
            and outcome.code in ("not_a_number", "unmatched"))


def _written(lines: Sequence[int], mistakes: Sequence[Mistake], outcomes: Sequence[Outcome]) -> web.Response:
    """What became of the lines, as clients of InfluxDB understand it."""
    open_ones = open_of(outcomes)
    wrong = [(mistake.line, "syntax", mistake.reason) for mistake in mistakes]
    wrong += [(line, outcome.code, outcome.reason) for line, outcome in zip(lines, outcomes)
              if outcome.result is Result.REFUSED]
    if not wrong and open_ones is None:
        return web.Response(status=204, headers={"X-Influxdb-Version": VERSION})
    wrong.sort()
    told = _told(outcomes, wrong[:SHOWN], "line")
    if open_ones is not None:
        told["dropped"] = len(wrong)
        told["not_stored"] = sum(outcome.result is Result.NOT_STORED for outcome in outcomes)
        told["unknown"] = sum(outcome.result is Result.UNKNOWN for outcome in outcomes)
        return error_answer(open_ones, told)
    return _partial(told, wrong[0], len(wrong), "line")
