"""Readings that come late: a bounded buffer that holds them back and sorts them."""

from __future__ import annotations

import heapq
from collections import deque
from collections.abc import Callable, Iterable, Iterator, Sequence
from typing import Generic, TypeVar

T = TypeVar("T")
MOST_HELD = 100_000


class ReorderBuffer(Generic[T]):
    """Gives what it was given in the order of the times.

    An item leaves when one comes that is `lateness` later, or when more than `most` are held. One that
    comes later still leaves at once, out of order, for the store to refuse.
    """

    def __init__(self, lateness: int, most: int = MOST_HELD) -> None:
        if lateness < 0 or most < 1:
            raise ValueError("a buffer needs a lateness of at least 0 and room for one reading")
        self._lateness = lateness
        self._most = most
        self._held: list[tuple[int, int, T]] = []
        self._left = -1
        self._newest = -1
        self._count = 0

    def __len__(self) -> int:
        return len(self._held)

    @property
    def held(self) -> Sequence[T]:
        """What is held, in the order of the times."""
        return [item for _, _, item in sorted(self._held, key=lambda entry: entry[:2])]

    def put(self, time: int, item: T) -> list[T]:
        """Takes an item, and gives those that leave."""
        if time <= self._left:
            return [item]
        self._count += 1
        heapq.heappush(self._held, (time, self._count, item))
        self._newest = max(self._newest, time)
        found: list[T] = []
        while self._held and (self._held[0][0] <= self._newest - self._lateness
                              or len(self._held) > self._most):
            found.append(self._leave())
        return found

    def flush(self) -> list[T]:
        """Gives all that is held."""
        return [self._leave() for _ in range(len(self._held))]

    def _leave(self) -> T:
        time, _, item = heapq.heappop(self._held)
        self._left = time
        return item


class InOrder(Iterator[T]):
    """Rows in the order of their times, as far as none is more than `lateness` late.

    A row whose time can't be told goes through as it is.
    """

    def __init__(self, rows: Iterable[T], time_of: Callable[[T], int], lateness: int,
                 most: int = MOST_HELD) -> None:
        self._rows = iter(rows)
        self._time_of = time_of
        self._buffer: ReorderBuffer[T] = ReorderBuffer(lateness, most)
        self._ready: deque[T] = deque()

    def __next__(self) -> T:
        while not self._ready:
            self._take()
        return self._ready.popleft()

    def _take(self) -> None:
        """Takes a row. At the end all that are held are ready."""
        try:
            row = next(self._rows)
        except StopIteration:
            self._ready += self._buffer.flush()
            if self._ready:
                return
            raise
        try:
            time = self._time_of(row)
        except Exception:
            self._ready.append(row)     # it is refused, with this reason, where it is sent
        else:
            self._ready += self._buffer.put(time, row)

    @property
    def held(self) -> Sequence[T]:
        """The rows that were taken and not given, in the order of their times."""
        return [*self._ready, *self._buffer.held]
