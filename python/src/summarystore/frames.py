"""A pandas DataFrame as rows of several streams: its index has the times, each column is a stream."""

from __future__ import annotations

from collections.abc import Iterable, Iterator, Sequence
from typing import Protocol, cast

Row = tuple[object, object]


class Column(Protocol):
    """A column of a frame, as pandas has them."""

    def notna(self) -> Iterable[object]:
        """Of each cell whether there is something in it."""

    def items(self) -> Iterable[Row]:
        """The times with the cells."""


class Frame(Protocol):
    """A pandas DataFrame, as far as it is needed here."""

    columns: Sequence[object]

    def __getitem__(self, name: object) -> Column:
        """A column."""


def frame_of(given: object) -> Frame | None:
    """A frame. None of anything else."""
    return cast(Frame, given) if hasattr(given, "columns") and hasattr(given, "iterrows") else None


def columns_of(frame: Frame) -> Sequence[tuple[str, Iterator[Row]]]:
    """The streams of a frame with their rows. A cell without a value is no reading."""
    names = list(frame.columns)
    if len(set(names)) < len(names) or not all(isinstance(name, str) for name in names):
        raise TypeError(f"the columns of a frame are names of streams, each once: {names!r:.200}")
    return [(str(name), _readings(frame[name])) for name in names]


def _readings(column: Column) -> Iterator[Row]:
    return (row for row, there in zip(column.items(), column.notna()) if there)


def rows_of(rows: object) -> object:
    """Rows for one stream: a frame with one column has those of it."""
    frame = frame_of(rows)
    if frame is None:
        return rows
    if len(frame.columns) != 1:
        raise TypeError(f"a frame of {len(frame.columns)} columns isn't one stream: without a name each "
                        "column is one")
    return _readings(frame[frame.columns[0]])


def names_left(error: BaseException, names: Sequence[str], at: int) -> None:
    """Says with an exception of one column what became of the others."""
    error.add_note(f"columns stored before: {list(names[:at])}; not sent: {list(names[at + 1:])}")
