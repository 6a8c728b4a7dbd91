"""The command `summarystore-export`: windows or series of a stream as CSV, JSON lines, Parquet."""

from __future__ import annotations

import argparse
import csv
import datetime
import json
import sys
import warnings
from collections.abc import Iterable, Iterator, Sequence
from decimal import Decimal
from typing import TextIO

from .clock import COUNT, for_commands
from .errors import StepWarning, SummaryStoreError
from .names import Names
from .series import Series, index_of
from .store import Store

WINDOWS = ("first", "last", "count", "sum", "least", "greatest", "start", "end")
ROWS = ("start", "lo", "mid", "hi", "maybe_none")
Cells = Sequence[object]


def window_cells(store: Store, name: str) -> Iterator[Cells]:
    """The windows of a stream as rows."""
    for window in store.windows(name):
        yield [getattr(window, head) for head in WINDOWS]


def series_cells(series: Series) -> Iterator[Cells]:
    """The rows of a series. One that surely has no value has empty cells."""
    for row in series:
        interval = row.interval
        ends = (None, None, None) if interval.none else (interval.lo, interval.mid, interval.hi)
        yield [row.start, *ends, interval.maybe_none]


def text_of(cell: object) -> str:
    """A cell as text: times as ISO 8601, numbers with all their digits."""
    if cell is None:
        return ""
    if isinstance(cell, datetime.datetime):
        return cell.isoformat()
    if isinstance(cell, Decimal):
        return f"{cell:f}"
    return str(cell).lower() if isinstance(cell, bool) else str(cell)


def write_csv(out: TextIO, heads: Cells, rows: Iterable[Cells]) -> int:
    """CSV with a head line."""
    writer = csv.writer(out, lineterminator="\n")
    writer.writerow(heads)
    count = 0
    for count, row in enumerate(rows, 1):
        writer.writerow([text_of(cell) for cell in row])
    return count


def write_json_lines(out: TextIO, heads: Sequence[str], rows: Iterable[Cells]) -> int:
    """A JSON object a line. Decimals are text, so that no reader rounds them."""
    count = 0
    for count, row in enumerate(rows, 1):
        cells = [cell if isinstance(cell, (int, type(None))) else text_of(cell) for cell in row]
        out.write(json.dumps(dict(zip(heads, cells))) + "\n")
    return count


def write_parquet(path: str, heads: Sequence[str], rows: Iterable[Cells]) -> int:
    """Parquet, by pandas. Numbers are text where 64 bits don't hold them."""
    import pandas
    # As they are: pandas would make floats of whole numbers where some are missing.
    frame = pandas.DataFrame(list(rows), columns=list(heads), dtype=object)
    for head in heads:
        found = [cell for cell in frame[head] if cell is not None]
        if head in ("start", "end"):
            frame[head] = index_of(found)
        elif all(isinstance(cell, bool) for cell in found):
            frame[head] = frame[head].infer_objects()
        elif all(isinstance(cell, int) and abs(cell) < 2**63 for cell in found):
            frame[head] = frame[head].astype("Int64")
        else:
            frame[head] = [None if cell is None else text_of(cell) for cell in frame[head]]
    try:
        frame.to_parquet(path)
    except ImportError as error:
        raise SummaryStoreError(f"pandas has no engine for Parquet: {error}") from None
    return len(frame)


def arguments() -> argparse.ArgumentParser:
    """The arguments of the command."""
    parser = argparse.ArgumentParser(prog="summarystore-export",
                                     description="Writes the windows or a series of a stream.")
    add = parser.add_argument
    add("store", metavar="STORE")
    add("name", metavar="NAME")
    what = parser.add_mutually_exclusive_group(required=True)
    what.add_argument("--windows", action="store_true", help="all windows")
    what.add_argument("--series", choices=["count", "sum", "min", "max", "mean"], help="a series")
    add("--from", dest="first", help="the first time (default: that of the stream)")
    add("--to", dest="last", help="the last time (default: that of the stream)")
    add("--step", help="of a series, as 1h or 365d (default: about 200 rows); with --zone 1d, 1w, 1mon and "
        "1y are its days, weeks, months and years, from midnight to midnight")
    add("--format", choices=["csv", "jsonl", "parquet"], default="csv")
    add("--output", "-o", help="a file (default: standard output)")
    add("--plot", metavar="FILE", help="draws the series into this file instead, as .svg or .png")
    add("--zone", help="of times without one, of those that are written, and of days")
    add("--program", help="the path of the program summarystore")
    return parser


def main(given: Sequence[str] | None = None) -> int:
    """Runs the command. 0 where all was written, 3 otherwise."""
    parser = arguments()
    words = parser.parse_args(given)
    if words.plot and not words.series:
        parser.error("--plot draws a --series")
    if words.format == "parquet" and not words.output:
        parser.error("Parquet goes to a file: --output")
    try:
        with Store(words.store, program=words.program, translator=Names(words.store, words.zone),
                   existing=True) as store:
            return export(store, words)
    except BrokenPipeError:
        return 3
    except (SummaryStoreError, OSError, ValueError) as error:      # of a kind of picture that isn't known
        print(f"summarystore-export: {for_commands(error)}", file=sys.stderr)
        return 3


def as_told(store: Store, name: str, word: str | None) -> object:
    """A time or a span of the command line. For a stream of whole numbers digits are one."""
    if word is not None and store.description(name) is None and COUNT.fullmatch(word):
        return int(word)
    return word


def export(store: Store, words: argparse.Namespace) -> int:
    """Writes what was asked for."""
    if words.windows:
        write(words, WINDOWS, window_cells(store, words.name))
        return 0
    told = [as_told(store, words.name, word) for word in (words.first, words.last, words.step)]
    with warnings.catch_warnings(record=True) as told_of_steps:
        warnings.simplefilter("always", StepWarning)
        series, last = store.whole_series(words.name, words.series, *told)
    for warning in told_of_steps:
        print(f"summarystore-export: {warning.message}", file=sys.stderr)
    if words.plot:
        from .plotting import draw
        draw(series, store.ends(words.name, last)).figure.savefig(words.plot)
        print(f"{words.plot}: {len(series)} rows")
        return 0
    write(words, ROWS, series_cells(series))
    return 0


def write(words: argparse.Namespace, heads: Sequence[str], rows: Iterable[Cells]) -> None:
    """Writes rows in the format that was asked for."""
    if words.format == "parquet":
        write_parquet(words.output, heads, rows)
        return
    writer = write_csv if words.format == "csv" else write_json_lines
    if words.output is None:
        writer(sys.stdout, heads, rows)
    else:
        with open(words.output, "w", encoding="utf-8") as out:
            writer(out, heads, rows)


if __name__ == "__main__":
    sys.exit(main())
