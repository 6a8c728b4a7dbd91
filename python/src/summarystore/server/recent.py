"""The readings that were taken last, so that one that is sent again is known for sure.

What is kept lies in a file, too (`journal.py`), so that it is known after a kill. The rows of a stream are
written there before they go to the store. Whether they were stored is told afterwards, and where a kill
comes before that it is seen by the store: the rows of one stream are taken in order, and nobody else writes
to it. So how many values it has had, and its last time, say which of them stand.
"""

from __future__ import annotations

from collections import deque
from collections.abc import Sequence
from dataclasses import dataclass

from .journal import Entry, Journal

MOST = 50_000
Row = tuple[int, object]


@dataclass
class _Batch:
    """Rows of a stream, in order, and where it stood before: its values, and its last time."""

    values: int | None
    last: int
    rows: Sequence[Row]

    def taken(self, values: int | None, last: int) -> Sequence[Row] | None:
        """Which of them stand in a stream that has so many values. None where that isn't known."""
        if self.values is None or values is None or not 0 <= values - self.values <= len(self.rows):
            return None
        count = values - self.values
        newest = self.rows[count - 1][0] if count else self.last
        return self.rows[:count] if newest == last else None


class Recent:
    """Some thousand readings: the value of each by its stream and its count."""

    def __init__(self, journal: Journal | None = None, most: int = MOST) -> None:
        self._most = most
        self._journal = journal
        self._values: dict[str, dict[int, object]] = {}
        self._order: deque[tuple[str, Sequence[Row]]] = deque()
        self._count = 0
        self._open: dict[str, _Batch] = {}
        self._stood: dict[str, tuple[int | None, int]] = {}
        for entry in () if journal is None else journal.read():
            self._read(entry)

    def __len__(self) -> int:
        return self._count

    def _read(self, entry: Entry) -> None:
        """An entry of the file. What a run wrote after a batch says that all of it was stored."""
        stream, rows = entry.stream, entry.rows
        before, stood = self._open.pop(stream, None), self._stood.pop(stream, None)
        if rows is None or entry.values == 0 and not entry.done:        # it was dropped, or made anew
            self._drop(stream)
        elif entry.done:
            self._add(stream, rows)
        elif before is not None and entry.follows:
            self._add(stream, before.rows)
        elif before is not None:
            self._resolve(stream, before, entry.values, entry.last)
        elif not entry.follows and stood not in (None, (entry.values, entry.last)):
            self._drop(stream)
        if entry.done and rows is not None:
            self._stood[stream] = entry.values, entry.last
        elif rows is not None:
            self._open[stream] = _Batch(entry.values, entry.last, rows)

    def settle(self, stream: str, values: int | None, last: int) -> None:
        """So many values a stream has had, and this is its last time: what isn't known yet is now. Where it
        stands otherwise than it did, it is another one, and nothing is known of it."""
        before, stood = self._open.pop(stream, None), self._stood.pop(stream, None)
        if before is not None:
            self._write(Entry(stream, values, last, self._resolve(stream, before, values, last), True))
        elif stood not in (None, (values, last)):
            self.forget(stream)

    def _resolve(self, stream: str, batch: _Batch, values: int | None, last: int) -> Sequence[Row] | None:
        """Takes what stands of a batch. Where that can't be told nothing is known of its stream any more."""
        taken = batch.taken(values, last)
        if taken is None:
            self._drop(stream)
        else:
            self._add(stream, taken)
        return taken

    def begin(self, stream: str, values: int | None, last: int, rows: Sequence[Row]) -> None:
        """Rows are about to go to the store. Those are told that it may take: each later than all before."""
        if values is None:
            return      # what becomes of them is told afterwards
        kept: list[Row] = []
        newest = last
        for row in rows:
            if row[0] > newest:
                newest = row[0]
                kept.append(row)
        if kept:
            self._open[stream] = _Batch(values, last, kept)
            self._write(Entry(stream, values, last, kept))

    def stored(self, stream: str, rows: Sequence[Row], values: int | None, last: int) -> None:
        """Of the rows that were begun last these were stored, and the stream stands so."""
        begun = self._open.pop(stream, None)
        if rows and begun is None or begun is not None and len(begun.rows) != len(rows):
            self._write(Entry(stream, values, last, rows, True))
        self._add(stream, rows)

    def forget(self, stream: str) -> None:
        """A stream was dropped, or has another name."""
        if stream in self._open or stream in self._values:
            self._drop(stream)
            self._write(Entry(stream))

    def _drop(self, stream: str) -> None:
        self._open.pop(stream, None)
        self._stood.pop(stream, None)
        self._values.pop(stream, None)

    def value(self, stream: str, count: int) -> object | None:
        """The value of one that was stored, as it came. None where it isn't known any more."""
        found = self._values.get(stream)
        return None if found is None else found.get(count)

    def _add(self, stream: str, rows: Sequence[Row]) -> None:
        if not rows:
            return
        self._values.setdefault(stream, {}).update(rows)
        self._order.append((stream, rows))
        self._count += len(rows)
        while self._count > self._most and len(self._order) > 1:
            self._forget_oldest()

    def _forget_oldest(self) -> None:
        stream, rows = self._order.popleft()
        self._count -= len(rows)
        known = self._values.get(stream)
        if known is not None:
            for count, _ in rows:
                known.pop(count, None)
            if not known:
                del self._values[stream]

    def _write(self, entry: Entry) -> None:
        if self._journal is not None:
            self._journal.write(entry)

    def close(self) -> None:
        """Nothing more is taken."""
        if self._journal is not None:
            self._journal.close()
