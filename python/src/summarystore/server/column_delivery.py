"""A column on its way to the store: as a delivery of single readings, but for what all have in common."""

from __future__ import annotations

from collections.abc import Sequence

from ..wire import LAST_TIME
from .column import Column
from .delivery import Delivery, Given, Row
from .meaning import Meaning
from .outcomes import STORED
from .recent import Recent


def delivery_of(column: Column, stream: str, meaning: Meaning, newest: int, recent: Recent, now: int,
                values: int | None) -> Delivery:
    """A plain column on its way to a stream."""
    times = [time for time in column.times if time is not None]
    counts = [(time - meaning.origin) // meaning.step for time in times]
    # A value of a stream without a description may be no whole number.
    if meaning.description is None or not 0 <= counts[0] <= counts[-1] <= LAST_TIME:
        given = [Given(time, value) for time, value in zip(times, column.values)]
        return Delivery(stream, meaning, {}, given, newest, recent, now, values)
    texts = [each if type(each) is str else str(each) for each in column.values]
    return ColumnDelivery(stream, meaning, list(zip(counts, texts)), newest, recent, now, values)


class _Places(dict[int, int]):
    """Where rows stand by their identity: looked up only where one of them is refused."""

    def __init__(self, rows: Sequence[Row]) -> None:
        super().__init__()
        self._rows = rows

    def __missing__(self, key: int) -> int:
        if self:
            raise KeyError(key)
        self.update((id(row), at) for at, row in enumerate(self._rows))
        return self[key]


class ColumnDelivery(Delivery):
    """Rows of one stream whose times are their own."""

    def __init__(self, stream: str, meaning: Meaning, rows: list[Row], newest: int, recent: Recent, now: int,
                 values: int | None) -> None:
        super().__init__(stream, meaning, {}, (), newest, recent, now, values)
        self.rows = rows
        self._given = [Given(0, None)] * len(rows)
        self._found = [None] * len(rows)
        self._places = _Places(rows)

    def _give_fates(self) -> None:
        """Where all were acknowledged there is one fate."""
        if self._acknowledged < len(self.rows):
            super()._give_fates()
            return
        self._found = [STORED] * len(self.rows)
        self.newest = max(self.newest, self.rows[-1][0])
        self._stored = self.rows
