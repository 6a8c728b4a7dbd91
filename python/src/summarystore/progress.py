"""How far an import is, on standard error, by tqdm where it is installed."""

from __future__ import annotations

import sys
from collections.abc import Callable
from types import TracebackType
from typing import Protocol, Self


class Bar(Protocol):
    """What is used of a progress bar of tqdm."""

    n: float

    def refresh(self) -> object:
        """Shows it anew."""

    def close(self) -> object:
        """Ends it."""


class Progress:
    """A bar of the bytes read, or of the rows. Nothing where standard error is no terminal."""

    def __init__(self, size: int | None, read: Callable[[], int] | None, quiet: bool) -> None:
        self._read = read
        self._rows = 0
        self._bar = None if quiet or not sys.stderr.isatty() else _bar(size if read else None)

    def rows(self, count: int) -> None:
        """So many more rows were taken."""
        self._rows += count
        if self._bar is not None:
            self._bar.n = self._rows if self._read is None else self._read()
            self._bar.refresh()

    def __enter__(self) -> Self:
        return self

    def __exit__(self, kind: type[BaseException] | None, error: BaseException | None,
                 trace: TracebackType | None) -> None:
        if self._bar is not None:
            self._bar.close()


def _bar(size: int | None) -> Bar | None:
    try:
        from tqdm import tqdm
    except ImportError:
        return None
    bar: Bar = tqdm(total=size, unit="B" if size else "row", unit_scale=True, leave=False)
    return bar
