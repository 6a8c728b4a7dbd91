"""The windows of a stream as an iterator, read in pieces over a cursor."""

from __future__ import annotations

from collections.abc import Iterator, Sequence
from types import TracebackType
from typing import Self

from .channel import Channel
from .codec import Codec
from .records import Window
from .wire import MOST_ROWS


class Windows(Iterator[Window]):
    """The windows of a stream, over a cursor. It may be closed before its end."""

    def __init__(self, store: Channel, codec: Codec) -> None:
        self._store = store
        self._codec = codec
        self._session, self._connection = store.open_cursor(codec)
        self._rows: Sequence[Window] = ()
        self._at = 0
        self._open = True

    def __next__(self) -> Window:
        if self._at == len(self._rows):
            self._rows, self._at = self._more(), 0
        window = self._rows[self._at]
        self._at += 1
        return window

    def _more(self) -> Sequence[Window]:
        if not self._open:
            raise StopIteration
        rows = self._store.read_cursor(self._codec, self._session, self._connection)
        if len(rows) < MOST_ROWS:
            self.close()
        if not rows:
            raise StopIteration
        return rows

    def close(self) -> None:
        """Ends the cursor. Twice does no harm."""
        if self._open:
            self._open = False
            self._store.close_cursor(self._session, self._connection)

    def __enter__(self) -> Self:
        return self

    def __exit__(self, kind: type[BaseException] | None, error: BaseException | None,
                 trace: TracebackType | None) -> None:
        self.close()

    def __del__(self) -> None:
        if getattr(self, "_open", False):
            self._store.let_go(self._session, self._connection)
