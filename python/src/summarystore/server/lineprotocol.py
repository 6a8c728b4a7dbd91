"""InfluxDB's line protocol: `measurement,tag=value field=1.5,other=2i 1764410400000000000`.

Each field is a reading of its own, named `measurement/field`, with the tags of its line. What is
misspelt is told with the number of its line, and the other lines are read.
"""

from __future__ import annotations

import re
from collections.abc import Iterator
from dataclasses import dataclass

from .intake import Incoming
from .outcomes import Word

PRECISIONS = {"n": 1, "ns": 1, "u": 10**3, "us": 10**3, "µ": 10**3, "ms": 10**6, "s": 10**9,
              "m": 60 * 10**9, "h": 3600 * 10**9}
"""Nanoseconds of each precision that a request may name."""
SHOWN = 40

# Possessive, so that nothing is looked at twice. A backslash escapes what has a meaning there.
_MEASUREMENT = re.compile(r"(?:\\[, ]|[^, \n])++")
_KEY = re.compile(r"(?:\\[,= ]|[^,= \n])++")
_STRING = re.compile(r'"((?:\\["\\]|[^"\\]|\\)*+)"')
_PLAIN = re.compile(r'[^", \n]++')
_BLANKS = re.compile(r" *+")
_TIME = re.compile(r"-?[0-9]{1,20}(?= *\r?(?:\n|\Z))")
_END = re.compile(r" *+\r?(?:\n|\Z)")
_ESCAPED = re.compile(r"\\([,= ])")
_ESCAPED_IN_STRING = re.compile(r'\\(["\\])')
_NUMBER = re.compile(r"(-?[0-9]++(?:\.[0-9]*+)?(?:[eE][+-]?[0-9]++)?|-?\.[0-9]++)|(-?[0-9]++)i|([0-9]++)u")
_TRUTH = {"t": "true", "T": "true", "true": "true", "True": "true", "TRUE": "true",
          "f": "false", "F": "false", "false": "false", "False": "false", "FALSE": "false"}


@dataclass(frozen=True, slots=True)
class Mistake:
    """A line that isn't one, and why."""

    line: int
    reason: str


class _WrongError(Exception):
    """A line isn't one."""


def parse(text: str, precision: int, longest: int) -> Iterator[tuple[int, list[Incoming]] | Mistake]:
    """The readings of each line with its number, or its mistake."""
    at, number = 0, 0
    while at < len(text):
        number += 1
        stop = text.find("\n", at)
        stop = len(text) if stop < 0 else stop
        if text[at] == "#" or not text[at:stop].strip():
            at = stop + 1
            continue
        try:
            if stop - at > longest:
                raise _WrongError(f"a line has at most {longest} characters")
            readings, after = _Line(text, at, precision).read()
        except _WrongError as error:
            shown = text[at:min(stop, at + SHOWN)]
            yield Mistake(number, f"unable to parse {shown!r}: {error}")
            at = stop + 1
            continue
        yield number, readings
        number += text.count("\n", at, after - 1)      # of a text that has line ends
        at = after


class _Line:
    """One line, read from left to right."""

    def __init__(self, text: str, at: int, precision: int) -> None:
        self._text = text
        self._at = _BLANKS.match(text, at).end()    # type: ignore[union-attr]
        self._precision = precision

    def read(self) -> tuple[list[Incoming], int]:
        """Its readings, and the place after it."""
        measurement = self._take(_MEASUREMENT, "a measurement is missing")
        tags: dict[str, str] = {}
        while self._skip(","):
            key = self._take(_KEY, "the key of a tag is missing")
            if not self._skip("="):
                raise _WrongError(f"the tag {key!r} has no value")
            if key in tags:
                raise _WrongError(f"the tag {key!r} stands twice")
            tags[key] = self._take(_KEY, f"the tag {key!r} has no value")
        if not self._skip(" "):
            raise _WrongError("fields are missing")
        self._at = _BLANKS.match(self._text, self._at).end()    # type: ignore[union-attr]
        fields = [self._field()]
        while self._skip(","):
            fields.append(self._field())
        time = self._time()
        made = [Incoming(f"{measurement}/{key}", value, time, tags, "influx") for key, value in fields]
        return made, self._at

    def _skip(self, character: str) -> bool:
        if not self._text.startswith(character, self._at):
            return False
        self._at += 1
        return True

    def _take(self, pattern: re.Pattern[str], reason: str) -> str:
        found = pattern.match(self._text, self._at)
        if not found:
            raise _WrongError(reason)
        self._at = found.end()
        return _ESCAPED.sub(r"\1", found[0]) if "\\" in found[0] else found[0]

    def _field(self) -> tuple[str, str]:
        key = self._take(_KEY, "fields are missing")
        if not self._skip("="):
            raise _WrongError(f"the field {key!r} has no value")
        found = _STRING.match(self._text, self._at)
        if found:
            self._at = found.end()
            return key, Word(_ESCAPED_IN_STRING.sub(r"\1", found[1]))
        found = _PLAIN.match(self._text, self._at)
        if not found:
            raise _WrongError(f"the field {key!r} has no value")
        self._at = found.end()
        return key, _value(key, found[0].rstrip("\r"))

    def _time(self) -> int | None:
        time = None
        if self._skip(" "):
            self._at = _BLANKS.match(self._text, self._at).end()    # type: ignore[union-attr]
            found = _TIME.match(self._text, self._at)
            if found:
                time = int(found[0]) * self._precision
                self._at = found.end()
        end = _END.match(self._text, self._at)
        if not end:
            raise _WrongError("what stands behind the fields is no time")
        self._at = end.end()
        return time


def _value(key: str, word: str) -> str:
    """A number as the text of it, and a truth value as `true` or `false`."""
    found = _NUMBER.fullmatch(word)
    if found:
        return found[1] or found[2] or found[3]
    if word in _TRUTH:
        return Word(_TRUTH[word])
    raise _WrongError(f"the field {key!r} has an invalid value {word[:SHOWN]!r}")
