"""What the document of OpenAPI is made of: types, words of an address, and operations."""

from __future__ import annotations

from collections.abc import Mapping, Sequence

from .endpoints import Access

Json = Mapping[str, object]
TEXT: Json = {"type": "string"}
COUNT: Json = {"type": "integer", "minimum": 1}


def word(name: str, schema: Json, needed: bool = False, told: str = "") -> Json:
    """A word of the address."""
    return {"name": name, "in": "query", "required": needed, "schema": schema, "description": told}


def reference(name: str) -> Json:
    """A schema by its name."""
    return {"$ref": f"#/components/schemas/{name}"}


def operation(told: str, words: Sequence[Json] = (), answer: Json | None = None, body: Json | None = None,
              access: Access = Access.READ, kind: str = "application/json", status: str = "200") -> Json:
    """What can be asked at an address by one method."""
    good: dict[str, object] = {"description": "what was asked"}
    if answer is not None:
        good["content"] = {kind: {"schema": answer}}
    found: dict[str, object] = {
        "summary": told, "parameters": words,
        "responses": {status: good, "default": {
            "description": "an error", "content": {"application/json": {"schema": reference("Error")}}}},
        "security": [] if access is Access.OPEN else [{"bearer": []}],
    }
    if body is not None:
        found["requestBody"] = {"required": True, "content": body}
    return found
