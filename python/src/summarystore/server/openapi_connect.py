"""What of the document is about the addresses that `summarystore.connect` asks."""

from __future__ import annotations

from .endpoints import Access
from .openapi_words import TEXT, Json, operation

ANSWER: Json = {"type": "object"}
TEXTS: Json = {"type": "object", "additionalProperties": TEXT}
DESCRIBED: Json = {"name": TEXT, "unit": TEXT, "labels": TEXTS, "rounding": TEXT}
MADE: Json = {**DESCRIBED, "target": TEXT, "within": {"type": "integer"}, "exist_ok": {"type": "boolean"},
              "scale": {"type": ["string", "number"]}, "overflow": {"type": ["string", "number"]},
              "time": TEXT, "since": TEXT, "kind": {"enum": ["counter", "gauge"]},
              "integrate": {"enum": ["s", "min", "h", "d"]}, "rule": {"enum": ["step", "trapezoid"]}}


def _body(properties: Json, *required: str) -> Json:
    return {"application/json": {"schema": {"type": "object", "required": list(required),
                                            "properties": properties}}}


def made() -> Json:
    """Makes a stream."""
    return operation("Makes a stream, with its target and its description", (), ANSWER,
                     _body(MADE, "name", "target"), Access.WRITE)


def paths() -> Json:
    """The other addresses."""
    lines: Json = {"lines": {"type": "array", "items": TEXT}}
    return {
        "/api/lines": {"post": operation("Asks questions as lines of the program", (), ANSWER,
                                         _body(lines, "lines"))},
        "/api/descriptions": {"get": operation("The names and the descriptions of all streams", (), ANSWER)},
        "/api/describe": {"post": operation("Changes the unit, the labels or the rounding of a stream", (),
                                            ANSWER, _body(DESCRIBED, "name"), Access.WRITE)},
    }
