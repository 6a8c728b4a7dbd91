"""Patterns of names, with the places that their stars stood for. All of it takes linear time.

A name has levels, parted by `/`, or by `.` where the pattern has no `/`. `*` is any text within a
level, `?` one character of it, and `**` as a level of its own stands for one level or more.
"""

from __future__ import annotations

import re
from collections.abc import Sequence

MOST_CAPTURES = 16
LONGEST = 512
_STARS = re.compile(r"(\*+)")


class GlobError(ValueError):
    """A pattern that says nothing."""


class Glob:
    """One pattern."""

    def __init__(self, pattern: str) -> None:
        if not pattern or len(pattern) > LONGEST:
            raise GlobError(f"a pattern has 1 to {LONGEST} characters")
        self.pattern = pattern
        self._separator = "/" if "/" in pattern else "."
        levels = pattern.split(self._separator)
        deep = [number for number, level in enumerate(levels) if level == "**"]
        if len(deep) > 1:
            raise GlobError(f"`**` stands at most once: {pattern!r}")
        if any("**" in level for level in levels if level != "**"):
            raise GlobError(f"`**` is a level of its own: {pattern!r}")
        if sum(level.count("*") for level in levels if level != "**") + len(deep) > MOST_CAPTURES:
            raise GlobError(f"a pattern has at most {MOST_CAPTURES} stars: {pattern!r}")
        self._deep = deep[0] if deep else None
        self._levels = [_Level(level) for level in levels]

    def __repr__(self) -> str:
        return f"Glob({self.pattern!r})"

    def __eq__(self, other: object) -> bool:
        return isinstance(other, Glob) and self.pattern == other.pattern

    def __hash__(self) -> int:
        return hash(self.pattern)

    @property
    def captures(self) -> int:
        """How many places it has."""
        return sum(level.captures for level in self._levels)

    def match(self, name: str) -> Sequence[str] | None:
        """What its stars stand for in a name, in order. None where it doesn't match."""
        levels = name.split(self._separator)
        if self._deep is not None:
            after = len(self._levels) - self._deep - 1
            last = len(levels) - after
            if last <= self._deep:
                return None
            levels[self._deep:last] = [self._separator.join(levels[self._deep:last])]
        if len(levels) != len(self._levels):
            return None
        found: list[str] = []
        for pattern, level in zip(self._levels, levels):
            captured = pattern.match(level)
            if captured is None:
                return None
            found += captured
        return found


class _Level:
    """One level of a pattern: pieces with a star between two."""

    def __init__(self, pattern: str) -> None:
        whole = pattern == "**"
        pieces = ["", ""] if whole else pattern.split("*")
        self.captures = len(pieces) - 1
        self._pieces = [(re.compile(re.escape(piece).replace(r"\?", "."), re.S), len(piece))
                        for piece in pieces]
        self._least = sum(size for _, size in self._pieces)

    def match(self, level: str) -> list[str] | None:
        """What its stars stand for: each as little as can be, but for the last."""
        first, size = self._pieces[0]
        last, last_size = self._pieces[-1]
        if len(level) < self._least or not first.match(level):
            return None
        if len(self._pieces) == 1:
            return [] if len(level) == size else None
        end = len(level) - last_size
        if not last.fullmatch(level, end):
            return None
        found: list[str] = []
        at = size
        for piece, _ in self._pieces[1:-1]:
            here = piece.search(level, at, end)
            if here is None:
                return None
            found.append(level[at:here.start()])
            at = here.end()
        return [*found, level[at:end]] if at <= end else None


def matches(pattern: str, text: str) -> bool:
    """Whether a text is one of a pattern whose `*` is any text at all, as a client asks for names."""
    level = _Level(re.sub(r"\*+", "*", pattern) if pattern != "**" else "*")
    return level.match(text) is not None
