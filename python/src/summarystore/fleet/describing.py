"""What can be asked of the gateway, as a document of OpenAPI 3.1."""

from __future__ import annotations

from collections.abc import Mapping

from ..server import openapi
from ..server.openapi import ENDS, NUMBER
from ..server.openapi_words import TEXT, Json

READ = ("/api/streams", "/api/names", "/api/query", "/api/series", "/api/windows", "/api/landmarks",
        "/healthz", "/openapi.json")
INFO: Json = {"title": "summarystore-gateway", "version": "1", "description":
              "Each answer is an interval: the truth is at least `lo` and at most `hi`. Where a shard "
              "doesn't answer `partial` is true, `lo` and `hi` are null, and `answered` has what the others "
              "say."}
HEADERS: Json = {"Summarystore-Partial": {
    "description": "the shards that don't answer, or are too far behind", "schema": TEXT}}


def document() -> Json:
    """That of the service without what writes, and with what is told of shards."""
    found = dict(openapi.document())
    paths, components = _mapping(found["paths"]), dict(_mapping(found["components"]))
    schemas = dict(_mapping(components["schemas"]))
    answered: Json = {"type": "object", "properties": ENDS}
    more: Json = {"partial": {"type": "boolean"}, "missing": {"type": "array", "items": TEXT},
                  "behind": {"type": "array", "items": TEXT}, "as_of": NUMBER, "answered": answered}
    for name in ("Answer", "Series"):
        schemas[name] = _with(_mapping(schemas[name]), "properties", more)
    schemas["Stream"] = _with(_mapping(schemas["Stream"]), "properties", {"shard": TEXT})
    components["schemas"] = schemas
    found.update(info=INFO, components=components,
                 paths={path: _with_headers(_mapping(paths[path])) for path in READ})
    return found


def _with_headers(path: Json) -> Json:
    operation = dict(_mapping(path["get"]))
    responses = dict(_mapping(operation["responses"]))
    responses["200"] = _with(_mapping(responses["200"]), "headers", HEADERS)
    operation["responses"] = responses
    return {"get": operation}


def _with(found: Json, key: str, more: Json) -> Json:
    """An object whose object at a key has more."""
    made, inner = dict(found), dict(_mapping(found.get(key, {})))
    inner.update(more)
    made[key] = inner
    return made


def _mapping(found: object) -> Json:
    assert isinstance(found, Mapping)
    return found
