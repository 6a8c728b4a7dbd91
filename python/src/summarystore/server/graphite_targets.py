"""Targets of Graphite's render as they are written: calls of functions, with paths, numbers and texts."""

from __future__ import annotations

import re
from collections.abc import Sequence
from dataclasses import dataclass
from decimal import Decimal
from typing import Union

from ..errors import SummaryStoreError

LONGEST_TARGET = 2000
MOST_CALLS = 16
"""So many calls stand within each other at most."""
_NAME = re.compile(r"\s*([a-zA-Z]\w*)\s*\(", re.ASCII)
_TEXT = re.compile(r"\s*(?:\"([^\"]*)\"|'([^']*)')\s*")
# The commas of `{one,other}` part no arguments.
_BARE = re.compile(r"\s*((?:\{[^{}()]*\}|[^(){},\"'])+)")
_NUMBER = re.compile(r"[+-]?[0-9]{1,15}(\.[0-9]{0,15})?([eE][+-]?[0-9]{1,2})?")


class TargetError(SummaryStoreError, ValueError):
    """A target can't be understood."""


class Bare(str):
    """An argument without quotes: a path, a number, or a truth value."""


class Text(str):
    """An argument in quotes."""


@dataclass(frozen=True)
class Call:
    """A function and what it is given."""

    name: str
    arguments: Sequence[Argument]


Argument = Union[Call, Bare, Text]


def read(text: str) -> Call | Bare:
    """A target as it is written."""
    if len(text) > LONGEST_TARGET:
        raise TargetError(f"a target has more than {LONGEST_TARGET} characters")
    reader = _Reader(text)
    found = reader.argument(0)
    if reader.at < len(text) or isinstance(found, Text):
        raise reader.wrong()
    return found


class _Reader:
    """Reads a target from left to right."""

    def __init__(self, text: str) -> None:
        self._text = text
        self.at = 0

    def wrong(self) -> TargetError:
        """What stands there can't be understood."""
        return TargetError(f"not a target from character {self.at} on: {self._text[self.at:self.at + 60]!r}")

    def argument(self, depth: int) -> Argument:
        """One argument, and the blanks behind it."""
        if depth > MOST_CALLS:
            raise TargetError(f"more than {MOST_CALLS} functions stand within each other")
        call = _NAME.match(self._text, self.at)
        if call:
            self.at = call.end()
            return Call(call[1], self._arguments(depth + 1))
        found = _TEXT.match(self._text, self.at)
        if found:
            self.at = found.end()
            return Text(found[1] or found[2] or "")
        found = _BARE.match(self._text, self.at)
        if not found:
            raise self.wrong()
        self.at = found.end()
        return Bare(found[1].strip())

    def _arguments(self, depth: int) -> Sequence[Argument]:
        found = []
        while True:
            found.append(self.argument(depth))
            end = re.compile(r"\s*([,)])\s*").match(self._text, self.at)
            if not end:
                raise self.wrong()
            self.at = end.end()
            if end[1] == ")":
                return found


class Arguments:
    """The arguments of one call, taken one after another."""

    def __init__(self, call: Call) -> None:
        self._call = call
        self._left = list(call.arguments)

    def wrong(self, wanted: str) -> TargetError:
        """Something else was to be given."""
        return TargetError(f"{self._call.name[:40]} takes {wanted}")

    def __len__(self) -> int:
        return len(self._left)

    def series(self, wanted: str) -> Call | Bare:
        """An argument that says which series."""
        found = self._left.pop(0) if self._left else None
        if found is None or isinstance(found, Text):
            raise self.wrong(wanted)
        return found

    def text(self, wanted: str) -> str:
        """An argument in quotes."""
        found = self._left.pop(0) if self._left else None
        if not isinstance(found, Text):
            raise self.wrong(wanted)
        return found

    def number(self, wanted: str) -> Decimal:
        """A number."""
        found = self._left.pop(0) if self._left else None
        if not isinstance(found, Bare) or not _NUMBER.fullmatch(found):
            raise self.wrong(wanted)
        return Decimal(found)

    def bare_number(self, wanted: str) -> str:
        """A number as it is written."""
        text = self._left[0] if self._left else None
        self.number(wanted)
        return str(text)

    def number_or_none(self, wanted: str) -> Decimal | None:
        """A number. None where nothing is left, or `None` stands there."""
        if not self._left:
            return None
        if self._left[0] == "None":
            self._left.pop(0)
            return None
        return self.number(wanted)

    def whole(self, wanted: str, least: int, most: int) -> int:
        """A whole number."""
        found = self.number(wanted)
        if found != int(found) or not least <= found <= most:
            raise self.wrong(wanted)
        return int(found)

    def truth(self, wanted: str) -> bool:
        """`true` or `false`."""
        found = self._left.pop(0) if self._left else None
        if not isinstance(found, Bare) or found.lower() not in ("true", "false"):
            raise self.wrong(wanted)
        return found.lower() == "true"

    def is_text(self) -> bool:
        """Whether a text in quotes is next."""
        return bool(self._left) and isinstance(self._left[0], Text)

    def end(self, wanted: str) -> None:
        """Nothing is left over."""
        if self._left:
            raise self.wrong(wanted)
