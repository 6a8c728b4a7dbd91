"""The readings of a body of line protocol as columns: of each name with its tags the times and the values.

A body whose lines are plain, without quotes, escapes and blanks in a row, is cut at its separators, and each
column is looked at as a whole. Any other body is read line by line (`lineprotocol.py`): both give the same.
"""

from __future__ import annotations

import re
from collections.abc import Callable, Iterator, Mapping, Sequence
from dataclasses import dataclass

from . import lineprotocol
from .column import FEW, Column
from .lanes import Incoming
from .lineprotocol import Mistake

SOURCE = "influx"
SLICE = 500
"""After so many lines others have their turn."""
MANY = 8
"""A plain body has at most so many times as many commas as it may have readings."""
_TIMES = re.compile(r"(?:-?[0-9]{1,20}\n)+")
_DECIMALS = re.compile(r"(?:-?[0-9]++(?:\.[0-9]*+)?\n)+")
_WHOLE = re.compile(r"(?:-?[0-9]++i\n)+")


@dataclass(slots=True)
class Body:
    """What stands in a body: its columns, the lines of its readings, and its mistakes."""

    columns: Sequence[Column]
    lines: Sequence[int]
    mistakes: Sequence[Mistake] = ()

    def readings(self) -> Sequence[Incoming]:
        """Its readings one by one, in order."""
        placed = [each for column in self.columns for each in column.readings()]
        placed.sort(key=lambda each: each[0])
        return [reading for _, reading in placed]


Add = Callable[[str], None]
_Texts = tuple[list[str], list[str], list[int]]
"""Of one field the times, the values, and which readings of the body they are."""


class _OtherwiseError(Exception):
    """A body isn't plain."""


def read(text: str, precision: int, longest: int, most: int) -> Iterator[Body | None]:
    """The body, after a None each time that others may have their turn. Of one with more readings and
    mistakes than `most` only some are read."""
    try:
        body = _plain(text, precision, longest, most)
    except _OtherwiseError:
        yield from _by_lines(text, precision, longest, most)
    else:
        yield body


def _by_lines(text: str, precision: int, longest: int, most: int) -> Iterator[Body | None]:
    columns: dict[tuple[str, tuple[tuple[str, str], ...]], Column] = {}
    lines: list[int] = []
    mistakes: list[Mistake] = []
    for count, found in enumerate(lineprotocol.parse(text, precision, longest)):
        number, readings = (0, ()) if isinstance(found, Mistake) else found
        if isinstance(found, Mistake):
            mistakes.append(found)
        for reading in readings:
            key = reading.name, tuple(sorted(reading.tags.items()))
            column = columns.get(key)
            if column is None:
                column = columns[key] = Column(reading.name, reading.tags, SOURCE)
            column.times.append(reading.time)
            column.values.append(reading.value)
            column.places.append(len(lines))
            lines.append(number)
        if len(lines) + len(mistakes) > most:
            break
        if count % SLICE == SLICE - 1:
            yield None
    yield Body(list(columns.values()), lines, mistakes)


def _plain(text: str, precision: int, longest: int, most: int) -> Body:
    """The body of plain lines."""
    if '"' in text or "\\" in text or "\r" in text:
        raise _OtherwiseError
    rows = text.split("\n")
    if max(map(len, rows)) > longest or len(rows) > most + 1 or text.count(",") > MANY * most:
        raise _OtherwiseError
    heads: dict[str, dict[str, _Texts]] = {}
    alone: dict[str, tuple[Add, Add, Callable[[int], None]]] = {}
    lines: list[int] = []
    for number, row in enumerate(rows, 1):
        begin, _, rest = row.rpartition("=")
        adds = alone.get(begin)
        if adds is not None:    # the one field of a line, as in one before
            value, _, stamp = rest.partition(" ")
            adds[0](stamp)
            adds[1](value)
            adds[2](len(lines))
            lines.append(number)
        elif row and row[0] != "#":
            texts = _line(row, number, heads, lines)
            if texts is not None:
                alone[begin] = texts[0].append, texts[1].append, texts[2].append
    if len(heads) > SLICE and len(lines) < FEW * len(heads):
        raise _OtherwiseError       # so many names take long
    return Body(_columns(heads, precision), lines)


def _line(row: str, number: int, heads: dict[str, dict[str, _Texts]], lines: list[int]) -> _Texts | None:
    """Takes one line. Gives where its field went, where it has only one."""
    head, _, rest = row.partition(" ")
    fields, _, stamp = rest.partition(" ")
    known = heads.setdefault(head, {})
    texts = None
    for each in fields.split(","):
        key, _, value = each.partition("=")
        texts = known.get(key)
        if texts is None:
            texts = known[key] = [], [], []
        texts[0].append(stamp)
        texts[1].append(value)
        texts[2].append(len(lines))
        lines.append(number)
    return None if "," in fields or "=" in stamp else texts


def _columns(heads: Mapping[str, Mapping[str, _Texts]], precision: int) -> Sequence[Column]:
    """The columns, where all of them are plain."""
    found: dict[tuple[str, tuple[tuple[str, str], ...]], Column] = {}
    for head, known in heads.items():
        measurement, tags = _head(head)
        for key, (stamps, values, places) in known.items():
            made = Column(f"{measurement}/{key}", tags, SOURCE, _times(stamps, precision), _values(values),
                          places)
            other = made.name, tuple(sorted(tags.items()))
            if not key or other in found:       # the same tags in another order
                raise _OtherwiseError
            found[other] = made
    return list(found.values())


def _head(head: str) -> tuple[str, Mapping[str, str]]:
    """A measurement and its tags."""
    found = next(lineprotocol.parse(f"{head} a=1", 1, len(head) + 4), None)
    if not isinstance(found, tuple):
        raise _OtherwiseError
    (reading,) = found[1]
    return reading.name[:-2], reading.tags


def _times(stamps: Sequence[str], precision: int) -> list[int | None]:
    if _TIMES.fullmatch("\n".join(stamps) + "\n"):
        return [int(stamp) * precision for stamp in stamps] if precision != 1 else list(map(int, stamps))
    if any(stamps):
        raise _OtherwiseError
    return [None] * len(stamps)


def _values(values: list[str]) -> list[object]:
    """Numbers as texts."""
    together = "\n".join(values) + "\n"
    if _DECIMALS.fullmatch(together):
        return list(values)
    if _WHOLE.fullmatch(together):
        return [*together.replace("i", "").split()]
    raise _OtherwiseError
