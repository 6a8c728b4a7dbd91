"""A series: answers about one span of time after another."""

from __future__ import annotations

import datetime
from collections.abc import Iterator, Sequence
from contextlib import suppress
from typing import TYPE_CHECKING, overload

from .interval import Interval, outward
from .records import Row, Time

if TYPE_CHECKING:
    import pandas

NAN = float("nan")


class Series(Sequence[Row]):
    """The rows of a series, each with the time at which it begins and its interval."""

    def __init__(self, name: str, kind: str, unit: str | None, rows: Sequence[Row]) -> None:
        self.name = name
        self.kind = kind
        self.unit = unit
        self._rows = rows

    def __len__(self) -> int:
        return len(self._rows)

    @overload
    def __getitem__(self, at: int) -> Row: ...

    @overload
    def __getitem__(self, at: slice) -> Sequence[Row]: ...

    def __getitem__(self, at: int | slice) -> Row | Sequence[Row]:
        return self._rows[at]

    def __iter__(self) -> Iterator[Row]:
        return iter(self._rows)

    def __repr__(self) -> str:
        return f"<series {self.kind} of {self.name}: {len(self)} rows>"

    def to_frame(self, exact: bool = False) -> pandas.DataFrame:
        """A pandas frame with the columns lo, mid, hi and maybe_none, indexed by where rows begin.

        The ends are floats, rounded outwards, so they hold the truth too. With `exact` they are the
        numbers as they are, int or Decimal. A row without a value has NaN, or None.
        """
        import pandas
        ends = [_exact(row.interval) if exact else _floats(row.interval) for row in self._rows]
        index = index_of([row.start for row in self._rows]).rename("start")
        frame = pandas.DataFrame(ends, index=index, columns=["lo", "mid", "hi"],
                                 dtype=object if exact else float)
        frame["maybe_none"] = [row.interval.maybe_none for row in self._rows]
        return frame


def index_of(times: Sequence[Time]) -> pandas.Index:
    """Times as pandas has them, in their zone where all are datetimes that it can hold.

    They go there as UTC: of an hour that a clock shows twice pandas 1.5 makes the first one.
    """
    import pandas
    moments = [time for time in times if isinstance(time, datetime.datetime)]
    if not moments or len(moments) < len(times):
        return pandas.Index(times)
    try:
        index = pandas.DatetimeIndex([moment.astimezone(datetime.timezone.utc) for moment in moments])
    except pandas.errors.OutOfBoundsDatetime:
        return pandas.Index(times, dtype=object)
    zone = moments[0].tzinfo
    with suppress(LookupError):     # by its name, so that it is a zone that this pandas shows right
        return index.tz_convert(str(getattr(zone, "key", None) or zone))
    return index.tz_convert(zone)


def _exact(interval: Interval) -> tuple[object, object, object]:
    return (None, None, None) if interval.none else (interval.lo, interval.mid, interval.hi)


def _floats(interval: Interval) -> tuple[float, float, float]:
    if interval.none:
        return NAN, NAN, NAN
    return outward(interval.lo, False), float(interval.mid), outward(interval.hi, True)
