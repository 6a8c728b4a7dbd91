"""JSON whose numbers are exact: decimals are written and read as they are, without an exponent."""

from __future__ import annotations

import json
from collections.abc import Iterable, Mapping
from decimal import Decimal, InvalidOperation


def dumps(value: object) -> str:
    """A value as JSON."""
    if isinstance(value, str):
        return json.dumps(value, ensure_ascii=False)
    if value is None or isinstance(value, (bool, float)):
        return json.dumps(value)
    if isinstance(value, int):
        return str(value)
    if isinstance(value, Decimal):
        return f"{value:f}"
    if isinstance(value, Mapping):
        return "{" + ",".join([f"{dumps(str(key))}:{dumps(each)}" for key, each in value.items()]) + "}"
    if isinstance(value, Iterable):
        return "[" + ",".join([dumps(each) for each in value]) + "]"
    raise TypeError(f"{type(value).__name__} isn't JSON")


def loads(data: bytes) -> object:
    """What JSON says: its fractions are Decimals. Raises ValueError, with a reason, where it is none."""
    try:
        text = data.decode("utf-8")
    except UnicodeDecodeError as error:
        raise ValueError(f"byte {error.start} isn't UTF-8") from None
    try:
        found: object = json.loads(text, parse_float=Decimal, parse_constant=_no_constant)
    except json.JSONDecodeError as error:
        raise ValueError(f"not JSON: {error}") from None
    except InvalidOperation:
        raise ValueError("not JSON of this service: a number has too great an exponent") from None
    except RecursionError:
        raise ValueError("not JSON of this service: it is too deep") from None
    return found


def _no_constant(word: str) -> object:
    raise ValueError(f"not JSON: {word}")
