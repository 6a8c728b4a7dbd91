"""`GET /openapi.json`: what can be asked, as a document of OpenAPI 3.1."""

from __future__ import annotations

from collections.abc import Sequence

from aiohttp import web

from . import openapi_connect, openapi_others
from .answers import json_answer
from .endpoints import Access, Endpoint
from .openapi_words import COUNT, TEXT, Json, operation, reference, word
from .settings import SHOWS

NUMBER: Json = {"type": ["number", "null"]}
TIME: Json = {"oneOf": [{"type": "number", "description": "seconds since 1970"},
                        {"type": "string", "description": "ISO 8601 with a zone, `now`, or `now-1h`"}]}
KINDS = ("count", "sum", "mean", "min", "max")
METERS = ("increase", "integral", "time_mean")
"""What counters and gauges alone are asked."""
TRUTH: Json = {"type": "boolean"}
ENDS: Json = {"lo": NUMBER, "hi": NUMBER, "mid": NUMBER, "exact": TRUTH, "none": TRUTH, "maybe_none": TRUTH}
READING: Json = {"type": "object", "required": ["stream", "value"], "additionalProperties": False,
                 "properties": {"stream": TEXT, "time": TIME, "value": {"type": ["number", "string"]}}}
STREAM = word("stream", TEXT, True, "the name of a stream")
NAME: Json = {**STREAM, "name": "name", "in": "path"}
ONE = word("stream", TEXT, False, "the name of a stream")
SEVERAL = word("streams", TEXT, False, "a pattern of names with `*` and `?`: the answer is over all of them")
WITHOUT = word("without", {"type": "array", "items": TEXT}, False, "patterns of names that are left out")
ZONE = word("zone", TEXT, False, "the zone of times without one, and of days, as Europe/Berlin")
RANGE = (word("from", TIME, False, "the first time; without it the first of all"),
         word("to", TIME, False, "the last time; without it the last of all"), ZONE)
LINES: Json = {"text/plain": {"schema": {"type": "string", "description": "InfluxDB's line protocol"}}}
PRECISION = word("precision", {"enum": ["n", "ns", "u", "us", "ms", "s", "m", "h"]}, False, "of the times")


def _in_json(schema: Json) -> Json:
    return {"application/json": {"schema": schema}}


def _paths() -> Json:
    write = operation("Takes readings in InfluxDB's line protocol, also packed by gzip. Answered after they "
                      "are on the disk.", (PRECISION,), None, LINES, Access.WRITE, status="204")
    return {
        "/api/streams": {"get": operation(
            "The streams, with their newest value",
            (word("match", TEXT, False, "a pattern with `*` and `?`"),),
            {"type": "object", "properties": {"streams": {"type": "array", "items": reference("Stream")}}}),
            "post": openapi_connect.made()},
        "/api/streams/{name}": {
            "delete": operation("Removes a stream with all that it holds", (NAME,), {"type": "object"}, None,
                                Access.ADMIN),
            "patch": operation(
                "Renames a stream, or has another take the readings of one that lies ahead of the clock",
                (NAME,), {"type": "object"},
                _in_json({"oneOf": [_object({"rename": TEXT}), _object({"restart": TEXT})]}), Access.ADMIN)},
        "/api/query": {"get": operation(
            "One answer about a range of times, both ends included. Over several streams it has `matched`, "
            "and of a mean its parts.",
            (ONE, SEVERAL, word("kind", {"enum": [*KINDS, *METERS, "value_at", "has"]}, True), *RANGE,
             word("value", NUMBER, False, "of `has`")), reference("Answer"))},
        "/api/series": {"get": operation(
            "Answers about one span of time after another. Over several streams `from` has to be given.",
            (ONE, SEVERAL, word("kind", {"enum": [*KINDS, *METERS]}), *RANGE,
             word("step", TEXT, False, "seconds, or a text such as 15min; with `zone` 1d, 1w, 1mon and 1y "
                  "are its days, weeks, months and years, from midnight to midnight"),
             word("rows", COUNT, False, "about so many rows, in the place of a step")), reference("Series"))},
        "/api/access": {"get": operation(
            "What the token that is sent may do", (),
            _object({"read": TRUTH, "write": TRUTH, "admin": TRUTH}), None, Access.OPEN)},
        "/api/names": {"get": operation(
            "The names of the streams, and a digest that tells sets of them apart",
            (word("match", TEXT, False, "a pattern with `*` and `?`"), WITHOUT,
             word("known", TEXT, False, "a digest: names that have it aren't sent")),
            {"type": "object", "properties": {"matched": {"type": "integer"}, "digest": TEXT,
                                              "names": {"type": "array", "items": TEXT}}})},
        "/api/windows": {"get": operation(
            "What the store keeps, the oldest first", (STREAM, word("limit", COUNT)),
            {"type": "object", "properties": {"stream": TEXT, "windows": {
                "type": "array", "items": reference("Window")}}})},
        "/api/landmarks": {"get": operation(
            "The landmarks, and their values one by one", (STREAM, *RANGE), reference("Landmarks"))},
        "/api/unmatched": {"get": operation(
            "The names that no mapping matches", (), {"type": "object"})},
        "/api/refused": {"get": operation(
            "The readings of Graphite and MQTT that were refused", (), {"type": "object"})},
        "/api/append": {"post": operation(
            "Takes readings. Answered after they are on the disk.", (), reference("Appended"),
            _in_json({"oneOf": [READING, {"type": "object", "properties": {
                "readings": {"type": "array", "items": READING}}}]}), Access.WRITE)},
        "/api/thresholds": {"get": operation(
            "The thresholds of the file, and whether each is crossed: yes, no, maybe or unknown", (),
            {"type": "object"})},
        "/api/landmark": {"post": operation(
            "Opens a landmark, or closes the open one", (), {"type": "object"},
            _in_json({"type": "object", "required": ["stream", "action"], "properties": {
                "stream": TEXT, "action": {"enum": ["open", "close"]}, "time": TIME}}), Access.WRITE)},
        "/api/events": {"get": operation(
            "What happens, as server-sent events: reading, landmark, threshold, health, lost",
            (word("stream", {"type": "array", "items": TEXT}, False, "those to listen to; none are all"),),
            TEXT, kind="text/event-stream")},
        "/api/v1/write": {"post": operation(
            "Takes samples of Prometheus' remote_write. Answered after they are on the disk.", (), None,
            {"application/x-protobuf": {"schema": {"type": "string", "format": "binary"}}}, Access.WRITE,
            status="204")},
        "/write": {"post": write},
        "/api/v2/write": {"post": write},
        "/healthz": {"get": operation("Whether the service can do its work", (), {"type": "object"}, None,
                                      Access.OPEN)},
        "/openapi.json": {"get": operation("This document", (), {"type": "object"}, None, Access.OPEN)},
        **openapi_connect.paths(),
        **openapi_others.paths(),
    }


def _object(properties: Json) -> Json:
    return {"type": "object", "properties": properties}


def document() -> Json:
    """The document."""
    row: dict[str, object] = {"time": NUMBER, "until": NUMBER}
    rows: Json = {"type": "array", "items": _object({**row, **ENDS})}
    newest = _object({"time": NUMBER, "lo": NUMBER, "hi": NUMBER})
    value = _object({"time": NUMBER, "value": NUMBER})
    words: dict[str, object] = {"stream": TEXT, "kind": TEXT, "from": NUMBER, "to": NUMBER,
                                "answer": {"enum": ["present", "absent", "maybe"]}}
    refused = _object({"index": {"type": "integer"}, "code": TEXT, "reason": TEXT})
    window = {name: NUMBER for name in ("first", "last", "count", "sum", "min", "max", "from", "to")}
    schemas = {
        "Error": _object({"error": {"type": "string", "description": "a word for the reason"},
                          "reason": TEXT}),
        "Stream": _object({
            "name": TEXT, "unit": {"type": ["string", "null"]}, "kind": {"enum": ["counter", "gauge", None]},
            "shows": {"enum": [*SHOWS, None]}, "words": {"type": "object"},
            "integrate": {"type": ["string", "null"]},
            "labels": {"type": "object"}, "target": TEXT,
            "within": {"type": ["integer", "null"]}, "within_seconds": NUMBER, "values": COUNT,
            "windows": COUNT, "landmarks": COUNT,
            "open_landmark": {"type": ["boolean", "null"]}, "last": NUMBER,
            "newest": {"oneOf": [{"type": "null"}, newest]}}),
        "Answer": _object({**words, **ENDS}),
        "Series": _object({"stream": TEXT, "kind": TEXT, "unit": {"type": ["string", "null"]},
                           "from": NUMBER, "to": NUMBER, "step": {"oneOf": [NUMBER, TEXT]}, "zone": TEXT,
                           "notice": {"type": ["string", "null"]}, "rows": rows}),
        "Window": _object(window),
        "Landmarks": _object({"stream": TEXT, "unknown": {"type": "integer"}, "landmarks": {
            "type": "array", "items": _object({"from": NUMBER, "to": NUMBER})},
            "values": {"type": "array", "items": value}}),
        "Appended": _object({"stored": {"type": "integer"}, "there": {"type": "integer"},
                             "refused": {"type": "array", "items": refused}}),
    }
    return {"openapi": "3.1.0",
            "info": {"title": "summarystored", "version": "1",
                     "description": "Each answer is an interval: the truth is at least `lo` and at most `hi`."
                                    " Times in answers are seconds since 1970, numbers exact decimals."},
            "paths": _paths(),
            "components": {"schemas": schemas,
                           "securitySchemes": {"bearer": {"type": "http", "scheme": "bearer"}}}}


def endpoints() -> Sequence[Endpoint]:
    """The address."""
    answer = document()

    async def openapi(request: web.Request) -> web.StreamResponse:
        return json_answer(answer)

    return [Endpoint("GET", "/openapi.json", openapi, Access.OPEN)]
