"""Tables of text with a time and values: CSV files, SQLite queries, RRD and Whisper files."""

from __future__ import annotations

import csv
import io
import re
import sqlite3
import sys
import time
from collections.abc import Callable, Iterable, Iterator, Sequence
from dataclasses import dataclass
from itertools import chain, islice
from pathlib import Path
from typing import BinaryIO

from . import rrd
from .decimals import NUMBER
from .errors import SourceError
from .records import Record

SAMPLE = 1000
THOUSANDS = re.compile(r"[+-]?[1-9][0-9]{0,2},[0-9]{3}")
DELIMITERS = (",", ";", "\t", "|", " ")


@dataclass
class Table:
    """A table: its heads, where there are some, its first records, and all of them."""

    heads: Sequence[str]
    sample: Sequence[Record]
    records: Iterator[Record]
    shown: str
    decimal_comma: bool = False
    size: int | None = None
    read: Callable[[], int] | None = None
    width: int | None = None
    """The most cells of a line, where it is known. What stands behind them isn't cut off in silence."""


def is_number(text: str, comma: bool = False) -> bool:
    """Whether a text is a number."""
    return bool(NUMBER.fullmatch(text.replace(",", ".", 1) if comma else text))


def _table(heads: Sequence[str], records: Iterable[Record], shown: str) -> Table:
    every = iter(records)
    sample = list(islice(every, SAMPLE))
    return Table(heads, sample, chain(sample, every), shown)


# ---- CSV --------------------------------------------------------------------------------


def csv_table(path: str, delimiter: str | None, decimal: str | None) -> Table:
    """A CSV file, or standard input where the path is `-`. What isn't given is guessed."""
    if path == "-":
        raw: BinaryIO = sys.stdin.buffer
        size = None
    else:
        raw = open(path, "rb")
        size = Path(path).stat().st_size
    text = io.TextIOWrapper(raw, encoding="utf-8-sig", newline="")
    try:
        head = list(islice(text, SAMPLE))
    except UnicodeDecodeError as error:
        raise SourceError(f"{path} isn't UTF-8 text: {error}") from None
    delimiter = delimiter or guess_delimiter(head)
    # Strict, so that a quote without its second one is told, and doesn't take in the rest of the file.
    reader = csv.reader(chain(head, text), delimiter=delimiter, strict=True)

    def lines() -> Iterator[Record]:
        try:
            for cells in reader:
                if cells:
                    yield reader.line_num, cells
        except csv.Error as error:
            raise SourceError(f"{path}, line {reader.line_num}: {error}; quotes come in pairs") from None
    table = _table((), lines(), "")
    comma = decimal == "," if decimal else delimiter != "," and _has_commas(table.sample)
    heads: Sequence[str] = ()
    if table.sample and not any(is_number(cell, comma) for cell in table.sample[0][1]):
        heads = [cell.strip() for cell in next(table.records)[1]]
        table.sample = table.sample[1:]
    shown = f"delimiter {delimiter!r}, decimal {'comma' if comma else 'point'}"
    tell = raw.tell if size is not None else None
    return Table(heads, table.sample, table.records, shown, comma, size, tell, len(heads) or None)


def guess_delimiter(lines: Sequence[str]) -> str:
    """The delimiter that gives the same number of cells on most lines, at least two.

    Where two do, as of `10:00;21,5`, it is the one that leaves fewer cells to be cut by another.
    """
    best, most = ",", (0, 0)
    for delimiter in DELIMITERS:
        rows = [cells for cells in csv.reader(lines[:100], delimiter=delimiter) if cells]
        counts = list(map(len, rows))
        width = max(set(counts), key=counts.count, default=0)
        fits = counts.count(width), -sum(_is_mixed(cell, delimiter) for cells in rows for cell in cells)
        if width > 1 and fits > most:
            best, most = delimiter, fits
    return best


def _is_mixed(cell: str, delimiter: str) -> bool:
    """Whether another delimiter stands in a cell, and not as the comma of a number."""
    others = set(DELIMITERS) - {delimiter, " "}
    return not others.isdisjoint(cell) and not is_number(cell.strip(), True)


def _has_commas(sample: Sequence[Record]) -> bool:
    """Whether numbers with a decimal comma stand there, and none with a point."""
    cells = [cell.strip() for _, cells in sample for cell in cells]
    with_comma = [cell for cell in cells if "," in cell and is_number(cell, True)]
    if any("." in cell and is_number(cell) for cell in cells):
        return False
    if with_comma and all(THOUSANDS.fullmatch(cell) for cell in with_comma):
        raise SourceError(f"numbers such as {with_comma[0]!r}: the comma may be one of decimals or of "
                          "thousands; give --decimal")
    return bool(with_comma)


# ---- others -----------------------------------------------------------------------------


def sqlite_table(path: str, query: str) -> Table:
    """The rows of a query over an SQLite file, which is opened to be read."""
    try:
        connection = sqlite3.connect(f"{Path(path).absolute().as_uri()}?mode=ro", uri=True)
        cursor = connection.execute(query)
        heads = [column[0] for column in cursor.description or ()]
        rows = ((at, [_text(cell) for cell in row]) for at, row in enumerate(cursor, 1))
        return _table(heads, rows, "SQLite")
    except sqlite3.Error as error:
        raise SourceError(f"{path}: {error}") from None


def _text(cell: object) -> str:
    return "" if cell is None else str(cell)


def whisper_table(path: str) -> Table:
    """A Whisper file: what its archives hold, the finest first, in the order of their times."""
    try:
        import whisper
    except ImportError:
        raise SourceError("python3-whisper isn't installed") from None
    found: dict[int, object] = {}
    try:
        info = whisper.info(path)
        now = int(time.time())
        for archive in info["archives"] if info else ():
            span, values = whisper.fetch(path, now - archive["retention"], now, now,
                                         archive["secondsPerPoint"])
            oldest = min(found, default=span[1])
            found.update({at: value for at, value in zip(range(*span), values)
                          if value is not None and at < oldest})
    except (whisper.WhisperException, OSError) as error:
        raise SourceError(f"{path}: {error}") from None
    rows = [(at, [str(moment), _text(found[moment])])
            for at, moment in enumerate(sorted(found), 1)]
    return _table(["time", Path(path).stem], rows, "Whisper")


def table_of(path: str, query: str | None, delimiter: str | None, decimal: str | None,
             function: str, start: str | None, end: str | None) -> Table:
    """The table of a file, by what the file is."""
    if path != "-":
        try:
            with open(path, "rb") as file:
                magic = file.read(200)
        except OSError as error:
            raise SourceError(f"{path}: {error.strerror}") from None
        if magic.startswith(b"SQLite format 3\0"):
            if query is None:
                raise SourceError("an SQLite file needs --query 'select time, value from .. order by time'")
            return sqlite_table(path, query)
        if magic.startswith(b"RRD\0"):
            return _table(*rrd.fetched(path, function, start, end), f"rrdtool fetch {function}")
        if rrd.is_xport(magic):
            return _table(*rrd.exported(path), "rrdtool xport")
        if path.endswith(".wsp"):
            return whisper_table(path)
    return csv_table(path, delimiter, decimal)
