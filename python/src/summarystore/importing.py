"""The command `summarystore-import`: tables of readings into streams, to be run again after a kill."""

from __future__ import annotations

import argparse
import csv
import datetime
import gc
import os
import sqlite3
import sys
from collections.abc import Iterator, Sequence
from contextlib import contextmanager
from itertools import islice
from operator import itemgetter
from pathlib import Path
from typing import cast

from . import clock, import_arguments, proposals, tables, timeforms, wire
from .codec import Codec
from .description import Description, description_of
from .errors import LateError, NotANumberError, SourceError, SummaryStoreError, TimeError
from .filling import Into, NumberedCodec, Numbers
from .folding import Order, PassedOverError
from .late import ReorderBuffer
from .meters import must_not_count
from .names import DescribedCodec, Names, short_name
from .progress import Progress
from .records import Record
from .scale import Scale, decimal_places
from .sending import Sending
from .store import Store
from .tables import Table
from .timeforms import TimeForm

BATCH = 5000
MOST_WAITING = 100_000
SHOWN = 20


class Import:
    """One run: a table, a store or none, and the streams that were met."""

    def __init__(self, words: argparse.Namespace, table: Table) -> None:
        self._words = words
        self._table = table
        self._zone = clock.zone_of(words.zone)
        self._store: Store | None = None
        self._streams: dict[tuple[int, str], Into] = {}
        self._standing: set[str] = set()
        self._shown = 0
        self._waiting = 0
        self._time_column = _column(table, words.time, 0)
        self._name_column = None if words.stream is None else _column(table, words.stream, None)
        self._values = self._value_columns()
        self._form = self._time_form()
        self._is_by_minutes = self._form.is_by_minutes(self._times())
        self._target = words.target or proposals.DEFAULT_TARGET
        self._is_proposed = words.quiet and not words.dry_run
        self._lateness = words.lateness
        self._until = _ahead(words.future)
        for column in self._values:
            self._description(column)       # what can't be is told before a store is made
        columns = self._values if self._name_column is None else ()
        names = [self._name(column, "") for column in columns]
        if len(names) != len(set(names)):
            both = max(names, key=names.count)
            raise SourceError(f"two columns are the stream {both}: give --value")

    # ---- what is guessed ------------------------------------------------------------------

    def _value_columns(self) -> Sequence[int]:
        table, words = self._table, self._words
        if words.value:
            return [_column(table, value, None) for value in words.value]
        width = max((len(cells) for _, cells in table.sample), default=0)
        width = width if table.width is None else table.width
        found = [at for at in range(width) if at not in (self._time_column, self._name_column)
                 and any(tables.is_number(_cell(record, at), table.decimal_comma)
                         for record in table.sample)]
        if not found:
            raise SourceError("no column holds numbers: give --value")
        return found

    def _times(self) -> Sequence[str]:
        return [_cell(record, self._time_column) for record in self._table.sample]

    def _time_form(self) -> TimeForm:
        texts = self._times()
        if self._words.time_unit:
            described = description_of(time=self._words.time_unit, since=self._words.since)
            assert described is not None
            return TimeForm(timeforms.WHOLE, described.time, described.since)
        if self._words.time_format:
            return timeforms.of_form(self._words.time_format, texts, self._zone)
        return timeforms.guess(texts, self._zone)

    def _scale(self, column: int) -> str:
        if self._words.scale:
            return str(self._words.scale)
        cells = [_cell(record, column) for record in self._table.sample]
        if self._table.decimal_comma:
            cells = [_number(cell) for cell in cells if "." not in cell]
        places = max((_places(cell) for cell in cells if tables.is_number(cell)), default=0)
        return "0." + "0" * (places - 1) + "1" if places else "1"

    def _within(self) -> str:
        return "" if self._words.within is None else f" within {self._words.within}"

    def guessed(self) -> list[str]:
        """The lines that show what is guessed."""
        lines = [f"{self._words.source}: {self._table.shown}, times as {self._form}"]
        for column in self._values if self._name_column is None else ():
            lines.append(f"{self._name(column, '')}: from column {column + 1}, scale {self._scale(column)}, "
                         f"time {self._resolution()}, target {self._target}{self._within()}")
        used = {self._time_column, self._name_column, *self._values}
        others = [head or f"column {at + 1}" for at, head in enumerate(self._table.heads) if at not in used]
        if others:
            lines.append(f"not read: {', '.join(others)}; --stream takes a column that names streams")
        return lines

    def _description(self, column: int) -> Description:
        """How a stream that this column makes is read."""
        words = self._words
        found = description_of(scale=self._scale(column), time=self._resolution(), unit=words.unit,
                               since=words.since or self._form.since, rounding=words.rounding)
        assert found is not None
        return found

    def _resolution(self) -> str:
        return str(self._words.resolution or ("minute" if self._is_by_minutes else self._form.resolution))

    def _propose(self) -> None:
        """Says of streams that are made, once, how more of them would be known exactly."""
        if not self._is_proposed:
            words, resolution = self._words, self._resolution()
            told = proposals.of_times(self._is_by_minutes, resolution, words.resolution is not None)
            if words.target is None and words.within is None:
                told += proposals.of_targets(self._form, self._times(), resolution)
            print("".join(f"{line}\n" for line in told), end="")
        self._is_proposed = True

    def _name(self, column: int, cell: str) -> str:
        """The name of a stream: that of its column, or of the cell that names it."""
        heads = self._table.heads
        own = cell or (heads[column] if column < len(heads) else "")
        given = str(self._words.name or "")
        if not cell and len(self._values) == 1:
            return given or own or Path(self._words.source).stem
        own = own or f"column-{column + 1}"
        if cell and len(self._values) > 1 and column < len(heads):
            own = f"{cell}/{heads[column]}"
        return f"{given}/{own}" if given else own

    # ---- the rows -------------------------------------------------------------------------

    def run(self, store: Store | None) -> bool:
        """Takes all rows. Without a store they are only looked at. Whether none was refused."""
        self._store = store
        if store is not None:
            self._standing = {stream.name for stream in store.list()}
        with Progress(self._table.size, self._table.read, self._words.quiet) as progress, _many_rows():
            while chunk := list(islice(self._table.records, BATCH)):
                self._take(chunk)
                progress.rows(len(chunk))
            for into in self._streams.values():
                self._send(into)
                self._flush(into)
                self._finish(into)
        for into in self._streams.values():
            print(into.said(self._words.dry_run))
        missing = [into for into in self._streams.values() if into.before and not self._is_there(into)]
        return not missing and not any(into.left for into in self._streams.values())

    def _is_there(self, into: Into) -> bool:
        """Whether what is taken to be there can be: the stream may have newer readings of elsewhere."""
        if self._store is None:
            return True
        most = self._store.codec_query(into.codec, "count", *into.span).hi
        if most < into.before:
            print(f"{into.name}: {into.before} rows aren't later than its last time, and at most {most} of "
                  "them are there: the others came too late", file=sys.stderr)
        return most >= into.before

    def _take(self, chunk: Sequence[Record]) -> None:
        """Takes some lines: of each column, or of each stream that a cell names, the rows."""
        if self._name_column is None:
            for column in self._values:
                self._take_column(self._stream(column, ""), chunk, column)
            return
        for record in chunk:
            for column in self._values:
                self._take_column(self._stream(column, _cell(record, self._name_column)), [record], column)

    def _take_column(self, into: Into, chunk: Sequence[Record], column: int) -> None:
        """Takes the rows of one stream. Empty cells are no readings."""
        chunk = self._not_wider(into, chunk)
        if not chunk:
            return
        time, most = self._time_column, max(self._time_column, column)
        if min(_widths(chunk)) > most:
            rows = [(line, cells[time].strip(), cells[column].strip()) for line, cells in chunk]
        else:
            rows = [(record[0], _cell(record, time), _cell(record, column)) for record in chunk]
        kept = [row for row in rows if row[2]]
        into.empty += len(rows) - len(kept)
        into.waiting += kept
        self._waiting += len(kept)
        if len(into.waiting) >= BATCH:
            self._send(into)
        elif self._waiting >= MOST_WAITING:     # of many streams, each of which has few
            for each in self._streams.values():
                self._send(each)

    def _not_wider(self, into: Into, chunk: Sequence[Record]) -> Sequence[Record]:
        """Lines without those that have more cells than there are heads: of 21,5 the 21 is no reading."""
        width = self._table.width
        if width is None or max(_widths(chunk)) <= width:
            return chunk
        kept = []
        for line, cells in chunk:
            if any(cell.strip() for cell in cells[width:]):
                self._refuse(into, line, SourceError(f"{len(cells)} cells, and {width} heads"))
            else:
                kept.append((line, cells))
        return kept

    def _stream(self, column: int, names: str) -> Into:
        return self._streams.get((column, names)) or self._opened(column, names)

    def _opened(self, column: int, names: str) -> Into:
        """The stream of a column or of a cell. One that doesn't stand is made."""
        name = self._name(column, names)
        codec = self._codec(name, column)
        scale = codec.scale if isinstance(codec, DescribedCodec) else Scale(1, self._words.rounding)

        def refused(row: tuple[object, object], error: Exception) -> None:
            self._refuse(into, cast(Numbers, row)[2], error)
        sending = Sending(NumberedCodec(codec.short), (), refused, None)
        order = Order() if self._words.fold else None
        times_of = self._form.column(codec, None if order is None else order.moment)
        into = Into(name, codec, name in self._standing, times_of, scale, sending, order=order)
        if self._store is not None and into.exists:
            found = self._store.last_count(name)
            into.newest = into.before_that = -1 if found is None else found
        if isinstance(codec, DescribedCodec) and self._until is not None:
            into.latest = codec.end(self._until)
        if self._lateness is not None:
            into.buffer = ReorderBuffer(codec.step(self._lateness))
        self._streams[column, names] = into
        return into

    def _codec(self, name: str, column: int) -> Codec:
        words = self._words
        if self._store is not None and name in self._standing:
            codec = self._store.codec(name)
            must_not_count(codec, "its table goes by append_many")
            return codec
        description = self._description(column)
        self._propose()
        if self._store is None or words.dry_run:
            return DescribedCodec(short_name(name, description), description, self._zone)
        self._store.create(name, self._target, words.within, scale=description.scale,
                           time=description.time, since=description.since, unit=description.unit,
                           rounding=description.rounding)
        self._standing.add(name)
        return self._store.codec(name)

    def _send(self, into: Into) -> None:
        """Makes numbers of the rows that wait, and sends those that aren't there."""
        waiting, into.waiting = into.waiting, []
        self._waiting -= len(waiting)
        rows = self._numbers(into, waiting)
        if into.buffer is not None:
            rows = [ready for row in rows for ready in into.buffer.put(row[0], row)]
        self._store_rows(into, rows)

    def _numbers(self, into: Into, waiting: Sequence[tuple[int, str, str]]) -> Sequence[Numbers]:
        """Rows as numbers: all at once, or one by one where one of them is none."""
        try:
            return self._in_order(into, waiting)
        except SummaryStoreError:
            pass
        rows: list[Numbers] = []
        for row in waiting:
            try:
                rows += self._in_order(into, [row])
            except SummaryStoreError as error:
                self._refuse(into, row[0], error)
        return rows

    def _in_order(self, into: Into, waiting: Sequence[tuple[int, str, str]]) -> Sequence[Numbers]:
        """Rows as numbers. Those that are none have no part in the order of the table."""
        newest = None if into.order is None else into.order.newest
        try:
            return self._as_numbers(into, waiting)
        except SummaryStoreError:
            if into.order is not None:
                into.order.newest = newest
            raise

    def _as_numbers(self, into: Into, waiting: Sequence[tuple[int, str, str]]) -> Sequence[Numbers]:
        texts = [text for _, _, text in waiting]
        if self._table.decimal_comma:
            texts = list(map(_number, texts))
        times = into.times_of([time for _, time, _ in waiting])
        if into.latest is not None and times and max(times) > into.latest:
            raise TimeError(f"more than {self._words.future} ahead of the clock: --future says how far a "
                            "time may be")
        return list(zip(times, into.scale.numbers(texts), [line for line, _, _ in waiting]))

    def _flush(self, into: Into) -> None:
        if into.buffer is not None:
            self._store_rows(into, into.buffer.flush())

    def _finish(self, into: Into) -> None:
        if self._store is not None and not self._words.dry_run:
            into.stored = self._store.send_rest(into.sending)

    def _store_rows(self, into: Into, rows: Sequence[Numbers]) -> None:
        if any(row[0] <= into.before_that for row in rows):
            rows = [row for row in rows if self._is_new(into, row)]
        if self._store is None or self._words.dry_run:
            self._only_look(into, rows)
        elif rows:
            into.sending.more(rows)
            self._store.send_some(into.sending)

    def _is_new(self, into: Into, row: Numbers) -> bool:
        """Whether a row is later than the stream's last time. One that isn't is there before where it is
        later than those of the table which are, and else it is passed over."""
        time, _, line = row
        if time > into.before_that:
            return True
        rises, into.risen = time > into.risen, max(into.risen, time)
        if not rises:
            self._refuse(into, line, PassedOverError("it isn't later than the rows before it: passed over"))
        elif into.order is not None and self._may_be_second(into, into.order, time):
            self._refuse(into, line, PassedOverError("the table begins in an hour that comes twice, and the "
                                                     "stream has passed the first: passed over"))
        else:
            into.span = min(into.span[0], time), max(into.span[1], time)
            into.before += 1
        return False

    def _may_be_second(self, into: Into, order: Order, time: int) -> bool:
        """Whether a time may be of the second of two hours, and its reading isn't surely there."""
        if self._store is None or not order.is_unsure(into.codec.counting().moment(time)):
            return False
        return self._store.codec_query(into.codec, "count", time, time).lo < 1

    def _only_look(self, into: Into, rows: Sequence[Numbers]) -> None:
        """Counts what would be stored, and shows what would be refused as late."""
        for time, value, line in rows:
            if time > into.newest:
                into.newest = time
                into.stored += 1
            else:
                self._refuse(into, line, LateError("TIME", wire.append(into.codec.short, time, value)))

    def _refuse(self, into: Into, line: int, error: Exception) -> None:
        if isinstance(error, PassedOverError):
            into.passed += 1
        else:
            into.refused += 1
        self._shown += 1
        if self._shown <= SHOWN:
            print(f"line {line}: {into.name}: {clock.for_commands(error)}", file=sys.stderr)
        elif self._shown == SHOWN + 1:
            print("further rows that are refused are only counted", file=sys.stderr)


def _ahead(span: str) -> datetime.datetime | None:
    """The time that lies so far ahead of the clock. None where there is none."""
    try:
        return datetime.datetime.now(clock.UTC) + datetime.timedelta(microseconds=clock.span_of(span) // 1000)
    except OverflowError:
        return None


def _number(text: str) -> str:
    """A number with a decimal comma, with a point. A point is no part of one then."""
    if "." in text:
        raise NotANumberError(f"not a number: {text[:40]!r}")
    return text.replace(",", ".", 1)


def _places(cell: str) -> int:
    """How many decimals a cell has. One that is too large for any stream says nothing of the others."""
    try:
        return decimal_places(cell)
    except NotANumberError:
        return 0


@contextmanager
def _many_rows() -> Iterator[None]:
    """Thousands of rows come and go, and none is part of a cycle: so cycles are looked for seldom."""
    usual = gc.get_threshold()
    gc.set_threshold(100 * BATCH, *usual[1:])
    try:
        yield
    finally:
        gc.set_threshold(*usual)


def _widths(chunk: Sequence[Record]) -> set[int]:
    """How many cells the lines have."""
    return set(map(len, map(itemgetter(1), chunk)))


def _cell(record: Record, column: int) -> str:
    return record[1][column].strip() if column < len(record[1]) else ""


def _column(table: Table, word: str | None, otherwise: int | None) -> int:
    """A column by its head, or by its number from 1 on."""
    if word is None:
        assert otherwise is not None
        return otherwise
    if word in table.heads:
        return list(table.heads).index(word)
    if word.isdecimal() and int(word) >= 1:
        return int(word) - 1
    raise SourceError(f"no column {word}; there are {', '.join(table.heads) or 'no heads'}")


def main(given: Sequence[str] | None = None) -> int:
    """Runs the command. 0 where all rows were stored, 1 where some were refused, 3 otherwise."""
    parser = import_arguments.arguments()
    words = parser.parse_args(given)
    if words.fold and words.lateness:
        parser.error("--fold goes by the order of the table, and --lateness says that there is none")
    try:
        table = tables.table_of(words.source, words.query, words.delimiter, words.decimal, words.function,
                                words.start, words.end)
        work = Import(words, table)
        if words.dry_run or not words.quiet:
            print("\n".join(work.guessed()))
        if words.dry_run and not os.path.exists(words.store):
            return 0 if work.run(None) else 1
        with Store(words.store, program=words.program, translator=Names(words.store, words.zone),
                   existing=words.dry_run, checked=words.checked) as store:
            return 0 if work.run(store) else 1
    except (SummaryStoreError, OSError, UnicodeError, csv.Error, sqlite3.Error) as error:
        print(f"summarystore-import: {clock.for_commands(error)}", file=sys.stderr)
        return 3
    except KeyboardInterrupt:
        print("summarystore-import: interrupted; the same command goes on from here", file=sys.stderr)
        return 130


if __name__ == "__main__":
    sys.exit(main())
