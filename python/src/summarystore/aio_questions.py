"""Questions to a store, for asyncio: the calls of `Questions` as coroutines."""

from __future__ import annotations

import datetime
from collections.abc import Sequence
from typing import TypeVar

from . import calls, integrals, row_calls
from .calls import Call
from .certificate import Certificate
from .codec import Codec, Translator, codec_of
from .combining import Part
from .gauges import must_be_gauge
from .interval import Interval, Presence
from .kinds import End, Estimated, Kind
from .records import Estimate, EstimateRow, Last, Reading, Stream, Time
from .series import Series
from .wire import Reply

T = TypeVar("T")


class Questions:
    """What can be asked, whatever brings the lines to the program."""

    _translator: Translator

    async def _do(self, call: Call[T]) -> T:
        """Sends the lines of a call, and gives what their replies mean."""
        raise NotImplementedError

    async def query(self, name: str, kind: Kind, t1: object | None = None, t2: object | None = None
                    ) -> Interval:
        """`count`, `sum`, `min`, `max` or `mean` of the values from t1 to t2, both included; of a meter also
        `increase`, `integral` or `time_mean`."""
        codec = self._translator.codec(name)
        return await self._do(integrals.query(codec, kind, t1, t2, await self._begun(codec, kind)))

    async def first(self, name: str) -> Time | None:
        """When the oldest window begins. None where none stands."""
        raise NotImplementedError

    async def _begun(self, codec: Codec, kind: str) -> int | None:
        """When the increments of a gauge begin, where a mean by time is asked."""
        if kind != "time_mean":
            return None
        found = await self.first(self._translator.name_of(must_be_gauge(codec)[2]))
        return None if found is None else codec.time(found)

    async def integral(self, name: str, t1: object | None = None, t2: object | None = None) -> Interval:
        """What the readings of a gauge add up to over time, from t1 until t2."""
        return await self.query(name, "integral", t1, t2)

    async def time_mean(self, name: str, t1: object | None = None, t2: object | None = None) -> Interval:
        """The mean of a gauge by the time that each value stood, from t1 until t2."""
        return await self.query(name, "time_mean", t1, t2)

    async def replies(self, lines: Sequence[str]) -> Sequence[Reply]:
        """What the program replies to lines, refusals too."""
        return await self._do(calls.Lines(lines, list))

    async def increase(self, name: str, t1: object | None = None, t2: object | None = None) -> Interval:
        """By how much a counter rose from t1 until t2."""
        return await self._do(calls.increase(self._translator.codec(name), t1, t2))

    async def value_at(self, name: str, time: object) -> Interval:
        """What a counter has at a time, with its resets and overflows joined."""
        return await self._do(calls.value_at(self._translator.codec(name), time))

    async def mean(self, name: str, t1: object | None = None, t2: object | None = None) -> Interval:
        """The mean of the values from t1 to t2, as `Store.mean`."""
        return await self._do(calls.query(self._translator.codec(name), "mean", t1, t2))

    async def has(self, name: str, value: object, t1: object | None = None, t2: object | None = None
                  ) -> Presence:
        """Whether one of the values from t1 to t2 is this one."""
        return await self._do(calls.has(self._translator.codec(name), value, t1, t2))

    async def series(self, name: str, kind: Kind, t1: object | None, t2: object | None, step: object,
                     zone: str | datetime.tzinfo | None = None) -> Series:
        """The answers to `query` for each step from t1 to t2: at most 100,000 rows.

        With a zone, here or of the store, `1d`, `1w`, `1mon` and `1y` are its days, weeks, months and years,
        from midnight to midnight: from the one that t1 is in to that of t2, each of them whole.
        """
        codec = codec_of(self._translator, name, zone)
        begun = await self._begun(codec, kind)
        return await self._do(integrals.series(name, codec, kind, t1, t2, step, begun))

    async def rows(self, name: str, kind: Kind, edges: Sequence[int]) -> Series:
        """The answers to `query` from each of some times until before the next, by whole numbers."""
        codec = self._translator.codec(name)
        begun = await self._begun(codec, kind)
        return await self._do(integrals.rows(name, codec, kind, edges, begun))

    async def estimate(self, name: str, kind: Estimated, t1: object | None = None, t2: object | None = None
                       ) -> Estimate:
        """`count`, `sum` or `mean` of the values from t1 to t2, and the likeliest number in its interval."""
        return await self._do(calls.estimate(self._translator.codec(name), kind, t1, t2))

    async def estimates(self, name: str, kind: Estimated, t1: object | None, t2: object | None, step: object
                        ) -> Sequence[EstimateRow]:
        """The answers to `estimate` for each step from t1 to t2: at most 100,000 rows."""
        codec = self._translator.codec(name)
        return await self._do(row_calls.estimates(name, codec, kind, t1, t2, step))

    async def figures(self, name: str, kinds: Sequence[str], t1: object | None = None,
                      t2: object | None = None, step: object | None = None) -> Sequence[Part]:
        """The answers to `query` of several kinds, all of one moment; with a step, one for each row."""
        return await self._do(calls.figures(self._translator.codec(name), kinds, t1, t2, step))

    async def last(self, name: str) -> Last | None:
        """The last time and the newest value. None where the stream took nothing yet."""
        return await self._do(calls.last(self._translator.codec(name)))

    async def values(self, name: str, t1: object | None = None, t2: object | None = None
                     ) -> Sequence[Reading]:
        """The values of landmarks from t1 to t2, which are kept one by one."""
        return await self._do(calls.values(self._translator.codec(name), t1, t2))

    async def certify(self, name: str, kind: Estimated, end: End, t1: object | None = None,
                      t2: object | None = None,
                      landmarks: Sequence[tuple[object, object]] = ()) -> Certificate:
        """Why the end `lo` or `hi` of a count, a sum or a mean can't be narrower, as `Store.certify`."""
        return await self._do(calls.certify(self._translator.codec(name), kind, end, t1, t2, landmarks))

    async def list(self) -> Sequence[Stream]:
        """All streams, in the order in which they were made."""
        return await self._do(calls.listed(self._translator))
