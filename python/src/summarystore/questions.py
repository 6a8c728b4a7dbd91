"""Questions to a store, for threads: each call waits for its answer."""

from __future__ import annotations

import datetime
from collections.abc import Sequence
from typing import TYPE_CHECKING, TypeVar

from . import calls, integrals, row_calls
from .calls import Call
from .certificate import Certificate
from .codec import Codec, Translator, codec_of
from .combining import Part
from .errors import NoValueError
from .gauges import must_be_gauge
from .interval import Interval, Presence
from .kinds import End, Estimated, Kind
from .records import Estimate, EstimateRow, Last, Reading, Stream, Time
from .series import Series

if TYPE_CHECKING:
    from matplotlib.axes import Axes

T = TypeVar("T")
ROWS = 200


class Questions:
    """What can be asked, whatever brings the lines to the program."""

    _translator: Translator

    def _do(self, call: Call[T]) -> T:
        """Sends the lines of a call, and gives what their replies mean."""
        raise NotImplementedError

    def span(self, name: str) -> tuple[int, int] | None:
        """The first time that a stream shows and its last one, as whole numbers."""
        raise NotImplementedError

    def query(self, name: str, kind: Kind, t1: object | None = None, t2: object | None = None
              ) -> Interval:
        """`count`, `sum`, `min`, `max` or `mean` of the values from t1 to t2, both included; of a meter also
        `increase`, `integral` or `time_mean`."""
        codec = self._translator.codec(name)
        return self._do(integrals.query(codec, kind, t1, t2, self._begun(codec, kind)))

    def _begun(self, codec: Codec, kind: str) -> int | None:
        """When the increments of a gauge begin, where a mean by time is asked."""
        if kind != "time_mean":
            return None
        span = self.span(self._translator.name_of(must_be_gauge(codec)[2]))
        return None if span is None else span[0]

    def integral(self, name: str, t1: object | None = None, t2: object | None = None) -> Interval:
        """What the readings of a gauge add up to over time, from t1 until t2."""
        return self.query(name, "integral", t1, t2)

    def time_mean(self, name: str, t1: object | None = None, t2: object | None = None) -> Interval:
        """The mean of a gauge by the time that each value stood, from t1 until t2."""
        return self.query(name, "time_mean", t1, t2)

    def codec_query(self, codec: Codec, kind: str, first: int, last: int) -> Interval:
        """`query` for whoever has made the codec of the stream, by whole numbers."""
        return self._do(calls.query(codec, kind, first, last))

    def increase(self, name: str, t1: object | None = None, t2: object | None = None) -> Interval:
        """By how much a counter rose from t1 until t2."""
        return self._do(calls.increase(self._translator.codec(name), t1, t2))

    def value_at(self, name: str, time: object) -> Interval:
        """What a counter has at a time, with its resets and overflows joined."""
        return self._do(calls.value_at(self._translator.codec(name), time))

    def mean(self, name: str, t1: object | None = None, t2: object | None = None) -> Interval:
        """The mean of the values from t1 to t2: by the figures of its windows no end can be narrower.

        It has at most 12 digits more than the scale. What doesn't end there is rounded outwards.
        """
        return self._do(calls.query(self._translator.codec(name), "mean", t1, t2))

    def has(self, name: str, value: object, t1: object | None = None, t2: object | None = None
            ) -> Presence:
        """Whether one of the values from t1 to t2 is this one."""
        return self._do(calls.has(self._translator.codec(name), value, t1, t2))

    def series(self, name: str, kind: Kind, t1: object | None, t2: object | None, step: object,
               zone: str | datetime.tzinfo | None = None) -> Series:
        """The answers to `query` for each step from t1 to t2: at most 100,000 rows.

        With a zone, here or of the store, `1d`, `1w`, `1mon` and `1y` are its days, weeks, months and years,
        from midnight to midnight: from the one that t1 is in to that of t2, each of them whole.
        """
        codec = codec_of(self._translator, name, zone)
        return self._do(integrals.series(name, codec, kind, t1, t2, step, self._begun(codec, kind)))

    def rows(self, name: str, kind: Kind, edges: Sequence[int]) -> Series:
        """The answers to `query` from each of some times until before the next, by whole numbers."""
        codec = self._translator.codec(name)
        return self._do(integrals.rows(name, codec, kind, edges, self._begun(codec, kind)))

    def estimate(self, name: str, kind: Estimated, t1: object | None = None, t2: object | None = None
                 ) -> Estimate:
        """`count`, `sum` or `mean` of the values from t1 to t2, and the likeliest number in its interval."""
        return self._do(calls.estimate(self._translator.codec(name), kind, t1, t2))

    def estimates(self, name: str, kind: Estimated, t1: object | None, t2: object | None, step: object
                  ) -> Sequence[EstimateRow]:
        """The answers to `estimate` for each step from t1 to t2: at most 100,000 rows."""
        return self._do(row_calls.estimates(name, self._translator.codec(name), kind, t1, t2, step))

    def figures(self, name: str, kinds: Sequence[str], t1: object | None = None,
                t2: object | None = None, step: object | None = None) -> Sequence[Part]:
        """The answers to `query` of several kinds, all of one moment; with a step, one for each row."""
        return self._do(calls.figures(self._translator.codec(name), kinds, t1, t2, step))

    def last(self, name: str) -> Last | None:
        """The last time and the newest value. None where the stream took nothing yet."""
        return self._do(calls.last(self._translator.codec(name)))

    def values(self, name: str, t1: object | None = None, t2: object | None = None
               ) -> Sequence[Reading]:
        """The values of landmarks from t1 to t2, which are kept one by one."""
        return self._do(calls.values(self._translator.codec(name), t1, t2))

    def certify(self, name: str, kind: Estimated, end: End, t1: object | None = None,
                t2: object | None = None,
                landmarks: Sequence[tuple[object, object]] = ()) -> Certificate:
        """Why the end `lo` or `hi` of a count, a sum or a mean can't be narrower: `.check()` checks it.

        The check has to be told when the landmarks of the stream began and ended, the oldest first; the
        end of one that is open is None.
        """
        return self._do(calls.certify(self._translator.codec(name), kind, end, t1, t2, landmarks))

    def list(self) -> Sequence[Stream]:
        """All streams, in the order in which they were made."""
        return self._do(calls.listed(self._translator))

    def plot(self, name: str, kind: Kind = "mean", t1: object | None = None, t2: object | None = None,
             step: object | None = None, ax: Axes | None = None) -> Axes:
        """Draws a series as a band, with its middle line and its exact parts, by matplotlib.

        Without a range it is that of the stream, and without a step there are about 200 rows.
        """
        from .plotting import plot_store
        return plot_store(self, name, kind, t1, t2, step, ax)

    def last_count(self, name: str) -> int | None:
        """The last time of a stream as a whole number."""
        found = self._do(calls.last_numbers(self._translator.codec(name)))
        return found[0] if found else None

    def whole_series(self, name: str, kind: Kind, t1: object | None = None, t2: object | None = None,
                     step: object | None = None) -> tuple[Series, object]:
        """A series, and its last time. What isn't given is that of the stream, in about 200 rows."""
        codec = self._translator.codec(name)
        if t1 is None or t2 is None:
            span = self.span(name)
            if span is None:
                raise NoValueError(f"{name} has no values yet")
            t1, t2 = (span[0] if t1 is None else t1), (span[1] if t2 is None else t2)
        begin, end = codec.range_of(t1, t2)
        if step is None:
            step = max(1, (end - begin) // ROWS + 1)
        return self.series(name, kind, begin, end, step), end

    def ends(self, name: str, last: object) -> Time:
        """A last time, as it is shown."""
        codec = self._translator.codec(name)
        return codec.time_back(codec.end(last))
