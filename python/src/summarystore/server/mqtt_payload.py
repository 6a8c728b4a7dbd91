"""What brokers carry, as decimal text: plain, or somewhere within JSON. No number is no 0."""

from __future__ import annotations

import json
import re
from collections.abc import Sequence
from decimal import Decimal
from typing import Union

from ..clock import moment_of
from ..decimals import EXACT, decimal_of
from ..errors import NotANumberError, SummaryStoreError, TimeError

LARGEST = 65536
SHOWN = 40
COUNTS = ((11, 10**9), (14, 10**6), (17, 10**3), (20, 1))
"""Counts since 1970 by how many digits they have: seconds until 5138, then ms, us and ns."""
_STEP = re.compile(r"([^.\[\]]+)|\[([0-9]{1,9})\]")
_INDEX = re.compile(r"[0-9]{1,9}")
Key = Union[str, int]


class NumberText(str):
    """A number of JSON as it is spelled, so that no digit of it is lost in a float."""


class PayloadError(SummaryStoreError, ValueError):
    """A payload has no reading where one is looked for. `code` says why in one word."""

    def __init__(self, code: str, reason: str) -> None:
        super().__init__(reason)
        self.code = code


def path_of(text: str) -> tuple[Key, ...]:
    """The keys of a path: `ENERGY.Power`, `list[0].value`, `list.0.value`, or a JSON pointer."""
    if text.startswith("/"):
        return tuple(part.replace("~1", "/").replace("~0", "~") for part in text[1:].split("/"))
    keys: list[Key] = []
    at = 0
    while at < len(text):
        found = _STEP.match(text, at)
        if not found:
            raise ValueError(f"not a path into JSON: {text[:SHOWN]!r}")
        keys.append(found[1] if found[1] is not None else int(found[2]))
        at = found.end()
        if text.startswith(".", at) and at + 1 < len(text):
            at += 1
        elif at < len(text) and text[at] != "[":
            raise ValueError(f"not a path into JSON: {text[:SHOWN]!r}")
    if not keys:
        raise ValueError("an empty path into JSON")
    return tuple(keys)


def text_of(payload: bytes) -> str:
    """The text of a payload, without blanks around it."""
    if len(payload) > LARGEST:
        raise PayloadError("too_large", f"a payload has more than {LARGEST} bytes")
    try:
        text = payload.decode("utf-8").strip()
    except UnicodeDecodeError:
        raise PayloadError("not_utf8", "a payload isn't UTF-8") from None
    if not text:
        raise PayloadError("empty", "a payload is empty")
    return text


def json_of(text: str) -> object:
    """A JSON text. Its numbers stay as they are spelled."""
    try:
        return json.loads(text, parse_int=NumberText, parse_float=NumberText,
                          parse_constant=_no_constant, object_pairs_hook=_object)
    except (ValueError, RecursionError):
        raise PayloadError("not_json", f"a payload isn't JSON: {text[:SHOWN]!r}") from None


def _no_constant(word: str) -> object:
    raise ValueError(word)


def _object(pairs: Sequence[tuple[str, object]]) -> dict[str, object]:
    """An object. One that gives a key twice says two things, and neither is taken."""
    made = dict(pairs)
    if len(made) != len(pairs):
        raise ValueError("a key stands twice")
    return made


def found_in(value: object, path: Sequence[Key]) -> object:
    """What stands at a path of JSON."""
    for key in path:
        if isinstance(value, dict) and str(key) in value:
            value = value[str(key)]
        elif isinstance(value, list) and _INDEX.fullmatch(str(key)) and int(key) < len(value):
            value = value[int(key)]
        else:
            raise PayloadError("nothing_there", f"nothing stands at {_shown(path)}")
    return value


def word_in(value: object, path: Sequence[Key]) -> str:
    """The number or the word at a path of JSON. Also `true`, `false` and `null` are words."""
    found = found_in(value, path)
    if isinstance(found, str):
        return found.strip()
    if found is None or isinstance(found, bool):
        return json.dumps(found)
    raise PayloadError("not_a_number", f"no number stands at {_shown(path)}, but "
                       f"{json.dumps(found)[:SHOWN]}")


def time_in(value: object, path: Sequence[Key]) -> int:
    """Nanoseconds since 1970 of the time at a path of JSON: ISO 8601 with a zone, or a count."""
    found = word_in(value, path)
    try:
        return _of_count(found)
    except NotANumberError:
        pass
    try:
        return moment_of(found, None)
    except (TimeError, OverflowError) as error:
        raise PayloadError("time", f"no time stands at {_shown(path)}: {str(error)[:80]}") from None


def _of_count(text: str) -> int:
    """Of seconds, milliseconds, microseconds or nanoseconds, by the number of digits."""
    count = decimal_of(text)
    for digits, each in COUNTS:
        if 0 <= count < 10**digits:
            return int(EXACT.multiply(count, Decimal(each)).to_integral_value(context=EXACT))
    raise PayloadError("time", f"not a time: {text[:SHOWN]}")


def _shown(path: Sequence[Key]) -> str:
    return ".".join(map(str, path))[:SHOWN] or "the top"
