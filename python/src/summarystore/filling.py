"""Streams that an import fills: how their rows are read, and what became of them."""

from __future__ import annotations

from collections.abc import Callable, Sequence
from dataclasses import dataclass, field
from typing import cast

from . import wire
from .codec import Codec, PlainCodec
from .folding import Order
from .late import ReorderBuffer
from .scale import Scale
from .sending import Sending

Numbers = tuple[int, int, int]
"""A time, a value, and the line of the table that has them."""


class NumberedCodec(PlainCodec):
    """Whole numbers, and behind them the line of the table."""

    def rows(self, given: Sequence[tuple[object, object]]) -> Sequence[tuple[int, int]]:
        """Without the lines."""
        return [row[:2] for row in cast("Sequence[Numbers]", given)]


@dataclass
class Into:
    """A stream that is being filled: how it is read, and what was made of its rows.

    What is as old as `before_that`, its last time at the begin, is there. `newest` is that of a dry run.
    A time after `latest` lies too far ahead of the clock.
    """

    name: str
    codec: Codec
    exists: bool
    times_of: Callable[[Sequence[str]], Sequence[int]]
    scale: Scale
    sending: Sending
    latest: int | None = None
    before_that: int = -1
    newest: int = -1
    span: tuple[int, int] = (wire.LAST_TIME, 0)
    buffer: ReorderBuffer[Numbers] | None = None
    waiting: list[tuple[int, str, str]] = field(default_factory=list)
    stored: int = 0
    before: int = 0
    refused: int = 0
    passed: int = 0
    empty: int = 0
    order: Order | None = None
    risen: int = -1
    """The latest time so far of rows that are there before: what isn't later came out of order."""

    def said(self, dry: bool) -> str:
        """What became of the rows."""
        stored = f"{self.stored} rows {'to store' if dry else 'stored'}"
        empty = f", {self.empty} without a value" if self.empty else ""
        passed = f", {self.passed} passed over" if self.passed else ""
        return f"{self.name}: {stored}, {self.before} there before, {self.refused} refused{passed}{empty}"

    @property
    def left(self) -> int:
        """How many rows aren't in the store."""
        return self.refused + self.passed
