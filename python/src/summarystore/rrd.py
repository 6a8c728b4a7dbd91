"""What RRDtool keeps: its files, by `rrdtool fetch`, and what `rrdtool xport` has written."""

from __future__ import annotations

import json
import os
import subprocess
from collections.abc import Iterable, Iterator, Sequence
from pathlib import Path
from xml.etree import ElementTree

from .errors import SourceError
from .records import Record


def fetched(path: str, function: str, start: str | None, end: str | None
            ) -> tuple[Sequence[str], Iterable[Record]]:
    """The heads and the records of a file. A value that isn't known is an empty cell."""
    start = start or _run("first", path).strip()
    end = end or _run("last", path).strip()
    lines = _run("fetch", path, function, "--start", start, "--end", end).splitlines()
    heads = ["time", *lines[0].split()] if lines else []
    return heads, _fetched_records(lines[1:])


def _fetched_records(lines: Sequence[str]) -> Iterator[Record]:
    for at, line in enumerate(lines, 2):
        moment, colon, values = line.partition(":")
        if colon:
            yield at, [moment.strip(), *map(_cell, values.split())]


def _cell(text: str | None) -> str:
    """A value. In some languages it has a decimal comma."""
    return "" if text is None or "nan" in text.lower() else text.replace(",", ".", 1)


def _run(*words: str) -> str:
    try:
        # In its own words and with points, whatever the language is here.
        done = subprocess.run(["rrdtool", *words], capture_output=True, text=True, check=False,
                              env={**os.environ, "LC_ALL": "C"})
    except FileNotFoundError:
        raise SourceError("rrdtool isn't installed") from None
    if done.returncode != 0:
        raise SourceError(f"rrdtool {' '.join(words)}: {done.stderr.strip()}")
    return done.stdout


def is_xport(begin: bytes) -> bool:
    """Whether a file that begins so is what `rrdtool xport` writes, as XML or with --json."""
    return b"<xport>" in begin or begin.lstrip().startswith(b'{ "about": "RRDtool')


def exported(path: str) -> tuple[Sequence[str], Iterable[Record]]:
    """The heads and the records of what `rrdtool xport` has written."""
    data = Path(path).read_bytes()
    try:
        legend, start, step, rows = _of_json(data) if data.lstrip().startswith(b"{") else _of_xml(data)
    except (ValueError, KeyError, TypeError, AttributeError, ElementTree.ParseError) as error:
        raise SourceError(f"{path} isn't what rrdtool xport writes: {error}") from None
    return ["time", *legend], _exported_records(path, len(legend), start, step, rows)


def _exported_records(path: str, width: int, start: int, step: int,
                      rows: Iterable[Sequence[str | None]]) -> Iterator[Record]:
    """Rows with their times: with --showtime they stand there, and otherwise they are reckoned."""
    for at, row in enumerate(rows):
        cells = [_cell(cell) for cell in row]
        if len(cells) == width:
            cells = [str(start + at * step), *cells]
        if len(cells) != width + 1:
            raise SourceError(f"{path}: row {at + 1} has other columns than its legend")
        yield at + 1, cells


Exported = tuple[Sequence[str], int, int, Iterable[Sequence["str | None"]]]


def _of_json(data: bytes) -> Exported:
    # Numbers stay text, so that none becomes a float.
    found = json.loads(data, parse_float=str, parse_int=str, parse_constant=str)
    meta = found["meta"]
    return list(meta["legend"]), int(meta["start"]), int(meta["step"]), list(found["data"])


def _of_xml(data: bytes) -> Exported:
    root = ElementTree.fromstring(data)
    legend = [entry.text or "" for entry in root.iterfind("meta/legend/entry")]
    start, step = (int(root.findtext(f"meta/{word}") or "") for word in ("start", "step"))
    return legend, start, step, ([cell.text for cell in row] for row in root.iterfind("data/row"))
