"""The arguments of the command `summarystore-import`."""

from __future__ import annotations

import argparse

from .description import NANOSECONDS, ROUNDINGS
from .proposals import DEFAULT_TARGET


def _character(word: str) -> str:
    """A delimiter, as an argument."""
    if len(word) != 1 or word in "\r\n\"":
        raise argparse.ArgumentTypeError("one character is needed")
    return word


def arguments() -> argparse.ArgumentParser:
    """The arguments of the command."""
    parser = argparse.ArgumentParser(
        prog="summarystore-import", description="Stores the readings of a CSV, SQLite, RRD or Whisper file. "
        "What isn't given is guessed and shown. After a kill, run it again: what is stored isn't sent again.")
    add = parser.add_argument
    add("store", metavar="STORE")
    add("source", metavar="FILE", help="a file, or - for CSV on standard input")
    add("--name", help="the stream, or what stands before the names of several")
    add("--target", help=f"of new streams (default: {DEFAULT_TARGET})")
    add("--within", type=int, metavar="E", help="of new streams: no window crosses a multiple of E")
    add("--time", metavar="COLUMN", help="the column of times, by its head or number (default: the first)")
    add("--value", metavar="COLUMN", action="append", help="a column of values (default: all with numbers)")
    add("--stream", metavar="COLUMN", help="the column that names the stream of a row")
    add("--scale", help="what one step of a value is worth (default: by the decimals of the first rows)")
    add("--rounding", choices=list(ROUNDINGS), help="how values that don't fit the scale are rounded")
    add("--unit", help="of the values")
    add("--resolution", choices=list(NANOSECONDS),
        help="of the times that are stored (default: as in the table; minute where rows stand 60 s apart)")
    add("--since", metavar="DAY", help="the day from which times count (default: 1970-01-01)")
    add("--zone", help="of times without one, as Europe/Berlin")
    add("--fold", choices=["order"], help="of an hour that a clock shows twice the first run of rising times "
        "is the first (default: such times are refused)")
    add("--time-format", metavar="FORMAT", help="as of strptime, or 'ISO 8601'")
    add("--time-unit", choices=list(NANOSECONDS), help="what times that are whole numbers count")
    add("--delimiter", type=_character, help="of CSV: one character")
    add("--decimal", choices=[".", ","], help="of CSV")
    add("--query", metavar="SQL", help="of an SQLite file: time, value, and perhaps a name")
    add("--function", default="AVERAGE", help="of an RRD file (default: AVERAGE)")
    add("--start", help="of an RRD file")
    add("--end", help="of an RRD file")
    add("--lateness", help="sorts rows that are late by at most so much, as 15min")
    add("--future", default="1h", metavar="SPAN",
        help="refuses times that lie further ahead of the clock (default: 1h)")
    add("--dry-run", action="store_true", help="shows what is guessed, and stores nothing")
    add("--quiet", action="store_true", help="shows no progress")
    add("--checked", action=argparse.BooleanOptionalAction,
        help="whether a new store is checked (it is); with --checked one that stands has to be")
    add("--program", help="the path of the program summarystore")
    return parser
