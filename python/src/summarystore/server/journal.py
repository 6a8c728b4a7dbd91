"""The file STORE.taken: which readings were handed to the store last, a line of JSON for each batch.

It is written without a sync, since it is for kills of the service and of the program: the system has what
was written. After a loss of power its end may be missing, and what stood there isn't known.

When the file has become long it is put aside as STORE.taken.old, in the place of the one before.
"""

from __future__ import annotations

import json
import logging
import os
import stat
from collections.abc import Iterator, Sequence
from contextlib import suppress
from typing import NamedTuple

Row = tuple[int, object]
log = logging.getLogger("summarystored")


class Entry(NamedTuple):
    """Rows of a stream that has had so many values and has this last time, before they go to the store.

    With `done` they are what was stored of those before, and the stream stands so after them. Without rows
    nothing is known of it any more.
    """

    stream: str
    values: int | None = None
    last: int = 0
    rows: Sequence[Row] | None = None
    done: bool = False
    follows: bool = False
    """Whether it was written by the same run as the one before it of its stream."""


class Journal:
    """The two files of one store."""

    def __init__(self, store: str, most: int) -> None:
        self._store = store
        self._file, self._old = f"{store}.taken", f"{store}.taken.old"
        self._most = most
        self._run = os.urandom(4).hex()
        self._rows = 0
        self._out: int | None = None
        self._failed = False

    def read(self) -> Iterator[Entry]:
        """What stands there, the oldest first. A line that a kill has cut off was never handed over."""
        runs: dict[str, str] = {}
        for file in (self._old, self._file):
            self._rows = 0
            for line in _lines(file):
                found = _entry(line, runs)
                if found is not None:
                    self._rows += len(found.rows or ())
                    yield found

    def write(self, entry: Entry) -> None:
        """Adds an entry. Where that fails no more are added, and the readings are stored anyway."""
        if self._failed:
            return
        said = json.dumps([self._run, entry.stream, entry.values, entry.last, entry.rows, entry.done],
                          separators=(",", ":"), default=str)
        data = f"{said}\n".encode("ascii")
        try:
            if self._rows > self._most:
                self.close()
                os.replace(self._file, self._old)
                self._rows = 0
            if self._out is None:
                self._out = self._opened()
            if os.write(self._out, data) != len(data):
                raise OSError("the disk has no room")
            self._rows += len(entry.rows or ())
        except OSError as error:
            self._failed = True
            log.warning("what was taken isn't kept any more: file=%r reason=%s", self._file, error)

    def _opened(self) -> int:
        """The file, to be added to. Whoever may read the store may read it. Its last line may be cut off."""
        out = os.open(self._file, os.O_WRONLY | os.O_APPEND | os.O_CREAT | os.O_NOFOLLOW, 0o600)
        with suppress(OSError):
            os.fchmod(out, stat.S_IMODE(os.stat(self._store).st_mode))
        os.write(out, b"\n")
        return out

    def close(self) -> None:
        """Closes the file."""
        if self._out is not None:
            os.close(self._out)
            self._out = None


def _lines(file: str) -> Iterator[bytes]:
    """The lines of a file, as far as it can be read."""
    try:
        with open(file, "rb") as lines:
            yield from lines
    except FileNotFoundError:
        pass
    except OSError as error:
        log.warning("what was taken isn't known: file=%r reason=%s", file, error)


def _entry(line: bytes, runs: dict[str, str]) -> Entry | None:
    """An entry of a line. None where it is blank or cut off."""
    with suppress(ValueError, TypeError, KeyError):
        run, stream, values, last, rows, done = json.loads(line)
        if isinstance(run, str) and isinstance(stream, str) and isinstance(last, int):
            follows = runs.get(stream) == run
            runs[stream] = run
            kept = rows and [(int(count), value) for count, value in rows]
            return Entry(stream, values, last, kept, done is True, follows)
    return None
