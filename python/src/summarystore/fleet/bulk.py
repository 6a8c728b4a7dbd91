"""Questions over a whole fleet, by Dask distributed: one task for each shard and range of time.

A task asks a replica of its shard by HTTP, and gives rows with exact numbers. Here they are joined as
intervals, and become a frame at the end.
"""

from __future__ import annotations

import datetime
import urllib.error
import urllib.parse
import urllib.request
from collections.abc import Mapping, Sequence
from dataclasses import dataclass
from typing import TYPE_CHECKING, Any, NamedTuple

from .. import combining
from ..clock import moment_of, nanoseconds, span_of
from ..combining import Part
from ..errors import SummaryStoreError
from ..interval import Interval, outward
from ..server import exactjson
from ..server.endpoints import ApiError
from ..server.meaning import SECOND, seconds_of
from ..wire import whole
from .directory import must_be_apart
from .gathering import MisspeltError, interval_of, part_of
from .layout import Shard, read

if TYPE_CHECKING:
    import pandas
    from distributed import Client

Shards = Mapping[str, Sequence[str]] | Sequence[Shard]
NAN = float("nan")
ROWS = 1000
"""The most rows of one task, unless the range is cut otherwise."""
RETRIES = 2


class BulkError(SummaryStoreError):
    """A shard doesn't answer, or refuses the question."""


@dataclass(frozen=True)
class Asked:
    """What one task asks: rows of a step each, from one nanosecond to another."""

    shard: Shard
    kind: str
    pattern: str
    first: int
    last: int
    step: int
    token: str | None
    seconds: float

    @property
    def count(self) -> int:
        """How many rows there are."""
        return -(-(self.last - self.first + 1) // self.step)

    def words(self) -> list[tuple[str, str]]:
        """The range as words of the service."""
        return [("kind", self.kind), *((key, f"{seconds_of(each)}") for key, each in
                (("from", self.first), ("to", self.last), ("step", self.step)))]


class Found(NamedTuple):
    """What one task found: rows of the shard, or of each of its streams; or why it didn't."""

    rows: Sequence[Part] = ()
    each: Mapping[str, Sequence[Interval]] = {}
    names: frozenset[str] = frozenset()
    reason: str | None = None


def shards_of(file: str) -> Sequence[Shard]:
    """The shards that the configuration of a gateway has."""
    return read(file).shards


def series(client: Client, shards: Shards, kind: str, first: object, last: object, step: object, *,
           streams: str = "*", rows: int = ROWS, token: str | None = None, seconds: float = 60
           ) -> pandas.DataFrame:
    """Answers over all streams of a pattern, for each step from `first` to `last`.

    A row that lacks a shard has no numbers, and `missing` has the shards. A name that stands in two
    shards raises BulkError.
    """
    import pandas
    asked = _asked(shards, kind, streams, first, last, step, token, seconds)
    pieces = [piece for each in asked for piece in _cut(each, rows)]
    found = dict(zip(pieces, _done(client, _whole, pieces)))
    _must_be_apart(found)
    starts, ends, missing = [], [], []
    for at in sorted({piece.first for piece in pieces}):
        here = [piece for piece in pieces if piece.first == at]
        gone = ", ".join(sorted(piece.shard.name for piece in here if found[piece].reason is not None))
        told = [found[piece].rows for piece in here if found[piece].reason is None]
        starts += [at + row * here[0].step for row in range(here[0].count)]
        ends += [_joined(kind, [rows_[row] for rows_ in told], gone) for row in range(here[0].count)]
        missing += [gone] * here[0].count
    frame = _frame(ends, pandas.Index(pandas.to_datetime(starts, utc=True), name="start"))
    frame["missing"] = missing
    return frame


def each_stream(client: Client, shards: Shards, kind: str, first: object, last: object, step: object, *,
                streams: str = "*", rows: int = ROWS, token: str | None = None, seconds: float = 60
                ) -> pandas.DataFrame:
    """Answers for each stream of a pattern and each step from `first` to `last`.

    The shards that lack, at least for a part of the range, stand in `frame.attrs["missing"]`, and none
    of their rows of that part is there.
    """
    import pandas
    asked = _asked(shards, kind, streams, first, last, step, token, seconds)
    pieces = [piece for each in asked for piece in _cut(each, rows)]
    found = dict(zip(pieces, _done(client, _each, pieces)))
    _must_be_apart(found)
    rows_ = {(name, piece.first + row * piece.step): interval for piece in pieces
             for name, told in found[piece].each.items() for row, interval in enumerate(told)}
    keys = sorted(rows_)
    index = pandas.MultiIndex.from_arrays(
        [[name for name, _ in keys], pandas.to_datetime([at for _, at in keys], utc=True)],
        names=["stream", "start"])
    frame = _frame([rows_[key] for key in keys], index)
    frame.attrs["missing"] = {piece.shard.name: each.reason for piece, each in found.items()
                              if each.reason is not None}
    return frame


# ---- tasks ------------------------------------------------------------------------------


def _done(client: Client, work: Any, pieces: Sequence[Asked]) -> Sequence[Found]:
    """What the tasks found, in their order. One whose worker ends is done by another."""
    dask: Any = client      # some of its versions have types, and others none
    found: Sequence[Found] = dask.gather(dask.map(work, pieces, pure=False, retries=RETRIES))
    return found


def _whole(asked: Asked) -> Found:
    """The rows of one shard, over all of its streams of the pattern."""
    try:
        names = _names(asked)
        if not names:
            return Found([combining.empty(combining.needed(asked.kind))] * asked.count)
        body = _get(asked, "/api/series", [("streams", asked.pattern), *asked.words(), *_without(asked)])
        return Found([part_of(asked.kind, row) for row in _rows(asked, body)], names=names)
    except (BulkError, MisspeltError) as error:
        return Found(reason=str(error))


def _each(asked: Asked) -> Found:
    """The rows of each stream of one shard."""
    try:
        names = _names(asked)
        each = {name: _of_stream(asked, name) for name in sorted(names)}
        return Found(each=each, names=names)
    except (BulkError, MisspeltError) as error:
        return Found(reason=str(error))


def _of_stream(asked: Asked, name: str) -> Sequence[Interval]:
    """The rows of one stream. They begin where all do: the pattern is its name alone, if it has no star."""
    plain = not any(mark in name for mark in "*?")
    words = [("streams" if plain else "stream", name), *asked.words()]
    rows = _rows(asked, _get(asked, "/api/series", words))
    return [interval_of(row) for row in rows]


def _names(asked: Asked) -> frozenset[str]:
    found = _get(asked, "/api/names", [("match", asked.pattern), *_without(asked)]).get("names")
    if not isinstance(found, list):
        raise MisspeltError("no names")
    return frozenset(map(str, found))


def _without(asked: Asked) -> list[tuple[str, str]]:
    return [("without", pattern) for pattern in asked.shard.without]


def _rows(asked: Asked, body: Mapping[str, object]) -> Sequence[object]:
    rows = body.get("rows")
    if not isinstance(rows, list) or len(rows) != asked.count or body.get("partial"):
        raise MisspeltError("other rows than were asked for")
    return rows


def _get(asked: Asked, path: str, words: Sequence[tuple[str, str]]) -> Mapping[str, object]:
    """The answer of the first replica that has one."""
    reasons = []
    for base in asked.shard.replicas:
        request = urllib.request.Request(f"{base}{path}?{urllib.parse.urlencode(words)}")
        if asked.token is not None:
            request.add_header("Authorization", f"Bearer {asked.token}")
        opener = urllib.request.build_opener(urllib.request.ProxyHandler({}))
        try:
            with opener.open(request, timeout=asked.seconds) as answer:
                found = exactjson.loads(answer.read())
            if isinstance(found, dict):
                return found
            reasons.append(f"{base}: no object of JSON")
        except urllib.error.HTTPError as error:
            with error:
                reasons.append(f"{base}: {error.code} {error.read(300).decode('utf-8', 'replace')}")
        except (OSError, ValueError) as error:
            reasons.append(f"{base}: {error}")
    raise BulkError("; ".join(reasons))


# ---- what is asked, and what comes of it ------------------------------------------------


def _asked(shards: Shards, kind: str, pattern: str, first: object, last: object, step: object,
           token: str | None, seconds: float) -> Sequence[Asked]:
    listed = [Shard(name, tuple(each.rstrip("/") for each in replicas))
              for name, replicas in shards.items()] if isinstance(shards, Mapping) else shards
    begin, end, span = _moment(first), _moment(last), span_of(step)
    if end < begin or span <= 0 or kind not in ("count", "sum", "mean", "min", "max"):
        raise ValueError(f"no question: {kind} from {first} to {last} by {step}")
    return [Asked(shard, kind, pattern, begin, end, span, token, seconds) for shard in listed]


def _moment(given: object) -> int:
    """Nanoseconds since 1970: of whole seconds, a datetime with a zone, or ISO 8601 text with one."""
    if isinstance(given, datetime.datetime):
        return nanoseconds(given, None)
    return moment_of(given, None) if isinstance(given, str) else whole(given) * SECOND


def _cut(asked: Asked, rows: int) -> Sequence[Asked]:
    """The same in pieces of so many rows at most."""
    length = rows * asked.step
    return [Asked(asked.shard, asked.kind, asked.pattern, at, min(asked.last, at + length - 1), asked.step,
                  asked.token, asked.seconds) for at in range(asked.first, asked.last + 1, length)]


def _must_be_apart(found: Mapping[Asked, Found]) -> None:
    names: dict[str, frozenset[str]] = {}
    for piece, told in found.items():
        names[piece.shard.name] = names.get(piece.shard.name, frozenset()) | told.names
    try:
        must_be_apart(names)
    except ApiError as error:
        raise BulkError(error.reason) from None


def _joined(kind: str, parts: Sequence[Part], gone: str) -> Interval | None:
    return None if gone else combining.answer(kind, combining.joined(combining.needed(kind), parts))


def _frame(ends: Sequence[Interval | None], index: pandas.Index) -> pandas.DataFrame:
    """A frame of floats that are rounded outwards. A row without a value has NaN."""
    import pandas
    rows = [(NAN, NAN, NAN) if each is None or each.none else
            (outward(each.lo, False), float(each.mid), outward(each.hi, True)) for each in ends]
    frame = pandas.DataFrame(rows, index=index, columns=["lo", "mid", "hi"], dtype=float)
    frame["maybe_none"] = [each is not None and each.maybe_none for each in ends]
    return frame
