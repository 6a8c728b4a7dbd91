"""Many appends of one stream: rows into requests, and what became of them. Without any I/O.

An interrupt may come between any two calls. So whatever moves rows from one place to another is
assigned at once, and at any moment a row that was drawn stands in exactly one place.
"""

from __future__ import annotations

from collections.abc import Callable, Iterable, Iterator, Sequence
from itertools import islice

from . import wire
from .codec import Codec, pairs
from .connection import Connection
from .errors import LateError, Outcome, ProcessEndedError, RowsRefusedError
from .gauges import GaugeCodec
from .late import InOrder
from .outcome import tell
from .pipeline import Appends, PairedAppends

Row = tuple[object, object]
OnRefused = Callable[[Row, Exception], None]
CHUNK = 1000
OPEN = 4
"""How many chunks are under way together."""


class Sending:
    """The rows of one `append_many`.

    Who drives it sends each of `requests`, and waits for those that are `due` after each of them, and
    at the end. `connection` is the process that has what was sent.
    """

    def __init__(self, codec: Codec, rows: object, refused: OnRefused | None,
                 lateness: object | None) -> None:
        self.codec = codec
        self.connection: Connection | None = None
        self._on_refused = refused
        self._refused: list[tuple[Row, Exception]] = []
        self._ended: ProcessEndedError | None = None
        self._done = Outcome(0, (), ())
        self.under_way: Sequence[Appends[Row]] = ()
        self._drawn: list[Row] = []
        found: Iterable[Row] = pairs(rows)
        self._sorted = None if lateness is None else InOrder(
            found, lambda row: codec.time(row[0]), codec.step(lateness))
        self._rows = iter(found if self._sorted is None else self._sorted)

    @property
    def stopped(self) -> bool:
        """Whether no more rows are to be sent."""
        return bool(self._refused) or self._ended is not None

    def more(self, rows: object) -> None:
        """Further rows, where those that were given have been drawn."""
        self._rows = iter(pairs(rows))

    def requests(self, session: int) -> Iterator[Appends[Row]]:
        """The requests, one after the other."""
        while not self.stopped and self._draw():
            rows, readings, rest = self._coded(self._drawn)
            if readings is not None:
                made = PairedAppends if isinstance(self.codec, GaugeCodec) else Appends
                request: Appends[Row] = made(session, readings, rows)
                self.under_way, self._drawn = [*self.under_way, request], rest
                yield request
            else:
                self._drawn = rest

    def due(self, most: int = OPEN - 1) -> Iterator[Appends[Row]]:
        """The oldest requests, each to be waited for, until no more than so many are under way."""
        while len(self.under_way) > most:
            yield self.under_way[0]
            self._answered(self.under_way[0])

    def settle(self) -> None:
        """Takes what became of all that is under way, which has its answers."""
        while self.under_way:
            self._answered(self.under_way[0])

    def _draw(self) -> bool:
        drawn: list[Row] = []
        self._drawn = drawn
        drawn.extend(islice(self._rows, CHUNK))     # what comes before an exception stays in it
        return bool(drawn)

    def _coded(self, chunk: list[Row]) -> tuple[Sequence[Row], wire.Lines | None, list[Row]]:
        """The rows of a chunk that are readings of the stream, these readings, and the rows after a stop."""
        try:
            return chunk, self._readings(chunk), []
        except Exception:
            pass    # one of them isn't: they are gone through one by one
        rows: list[Row] = []
        found: list[wire.Lines] = []
        for at, row in enumerate(chunk, 1):
            try:
                found.append(self._readings([row]))
                rows.append(row)
            except Exception as error:
                self._refuse(row, error)
                if self.stopped:
                    return rows, _together(found), chunk[at:]
        return rows, _together(found), []

    def _readings(self, rows: Sequence[Row]) -> wire.Lines:
        if str in set(map(type, rows)):     # two characters would be taken for a time and a value
            raise TypeError("a row is a time and a value, and not a text")
        if isinstance(self.codec, GaugeCodec):
            return self.codec.readings(rows)
        return wire.readings(self.codec.short, self.codec.rows(rows))

    def _refuse(self, row: Row, error: Exception) -> None:
        if self._on_refused is None:
            self._refused.append((row, error))
        else:
            self._on_refused(row, error)

    def _answered(self, request: Appends[Row]) -> None:
        """Takes what became of the oldest request."""
        for row, error in request.refused:
            self._refuse(row, error)
        if self._ended is None and isinstance(request.error, ProcessEndedError):
            self._ended = request.error
        done = _with(self._done, request)
        self._done, self.under_way = done, self.under_way[1:]

    def outcome(self) -> Outcome:
        """What became of the rows that were drawn, as far as it is known by now."""
        found = self._done
        for request in self.under_way:
            found = _with(found, request)
        held = [] if self._sorted is None else self._sorted.held
        return found._replace(not_stored=[*found.not_stored, *self._drawn, *held])

    def end(self) -> int:
        """How many rows were stored. Raises where the program ended or rows were refused."""
        outcome = self.outcome()
        if self._ended is not None:
            tell(self._ended, outcome)
            raise self._ended
        if self._refused:
            raise RowsRefusedError(outcome.acknowledged, self._refused, outcome.not_stored)
        return outcome.acknowledged

    def late(self) -> list[LateError]:
        """The refusals that are to be told the newest time."""
        return [error for _, error in self._refused if isinstance(error, LateError)]


def _together(found: Sequence[wire.Lines]) -> wire.Lines | None:
    return found[0].and_more(found[1:]) if found else None


def _with(outcome: Outcome, request: Appends[Row]) -> Outcome:
    """What became of some rows, and of those of a request."""
    rows, answered, written = request.rows, request.known, request.sent
    if answered == len(rows):
        return outcome._replace(acknowledged=outcome.acknowledged + request.stored)
    return Outcome(outcome.acknowledged + request.stored,
                   [*outcome.unknown, *rows[answered:written]],
                   [*outcome.not_stored, *rows[written:]])
