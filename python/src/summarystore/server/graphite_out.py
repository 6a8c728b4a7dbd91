"""What Graphite's own interface answers, so that Grafana's source for it draws the streams.

`/metrics/find` shows the tree of streams (`graphite_names.py`), and `/render` their means: of each
step the middle by the path of the stream, and the ends of what is known with `.lo` and `.hi` behind
it. `graphite_calls.py` lists the functions, and `graphite_functions.py` says what they draw.
"""

from __future__ import annotations

import asyncio
import datetime
import json
from collections.abc import Mapping, Sequence
from dataclasses import replace
from urllib.parse import parse_qs

from aiohttp import web

from .. import aio
from ..clock import UTC, zone_of
from ..errors import TimeError
from ..interval import Interval, outward
from ..kinds import KINDS, one_of
from .app import Service
from .bodies import body_of, text_of
from .endpoints import Access, ApiError, Endpoint
from .graphite_calls import Constant, target_of
from .graphite_functions import Drawn, Wish
from .graphite_names import Leaf, PatternError, Tree
from .graphite_points import NOTHING
from .graphite_targets import TargetError
from .graphite_times import time_of
from .meaning import SECOND, Meaning

Words = Mapping[str, Sequence[str]]
Point = tuple[float | None, int]
POINTS = 1000
"""So many points a series has at most, where a client doesn't say."""
MOST_POINTS = 500_000
"""So many points one answer has at most, over all its series."""
MOST_OF_ONE = 100_000
"""And so many each series, as the store answers at most."""
MOST_TARGETS = 200
MOST_FIELDS = 1000


def bad(reason: str) -> ApiError:
    """What a client asked can't be answered."""
    return ApiError(400, "bad_request", reason)


class Range:
    """From when to when, in seconds, and how many points are wanted."""

    def __init__(self, words: Words, most: int) -> None:
        zone = zone_of(_one(words, "tz")) or UTC
        now = datetime.datetime.now(zone)
        self.first = time_of(_one(words, "from") or "-24h", now)
        self.last = time_of(_one(words, "until") or "now", now)
        if self.first >= self.last:
            raise bad("`from` is to be before `until`")
        wanted = _one(words, "maxDataPoints") or str(min(POINTS, most))
        if not wanted.isdecimal() or not wanted.isascii() or len(wanted) > 9 or int(wanted) < 1:
            raise bad(f"`maxDataPoints` is a whole number from 1 on, and not {wanted[:40]!r}")
        self.points = min(int(wanted), most)


class Graphite:
    """Answers over one service."""

    def __init__(self, service: Service) -> None:
        self._service = service
        self._names: Sequence[str] = ()
        self._tree = Tree(())

    async def tree(self, store: aio.Store) -> Tree:
        """The tree of the streams that stand now."""
        names = [stream.name for stream in await store.list()]
        if names != self._names:
            self._names, self._tree = names, Tree(names)
        return self._tree

    # ---- /metrics ----------------------------------------------------------------------

    async def find(self, words: Words) -> object:
        """The nodes that a pattern names, with whether they are series and whether others are below."""
        form = _one(words, "format") or "treejson"
        if form not in ("treejson", "json"):
            raise bad(f"`format` is treejson, and not {form[:40]!r}")
        tree = await self.tree(self._service.store())
        return [{"text": path.rpartition(".")[2], "id": path, "leaf": int(node.leaf is not None),
                 "expandable": int(bool(node.below)), "allowChildren": int(bool(node.below)), "context": {}}
                for path, node in tree.found(_one(words, "query") or "*")]

    async def expand(self, words: Words) -> object:
        """The paths that patterns name."""
        tree = await self.tree(self._service.store())
        leaves_only = _one(words, "leavesOnly") == "1"
        found = {path for query in words.get("query", ())[:MOST_TARGETS] for path, node in tree.found(query)
                 if node.leaf is not None or not leaves_only}
        return {"results": sorted(found)}

    async def index(self, _words: Words) -> object:
        """All series."""
        return sorted((await self.tree(self._service.store())).all_leaves())

    async def no_tags(self, _words: Words) -> object:
        """Paths have no tags."""
        return []

    # ---- /render -----------------------------------------------------------------------

    async def render(self, words: Words) -> object:
        """The points of the series that targets name."""
        form = _one(words, "format") or "json"
        if form != "json":
            raise bad(f"`format` is json, and not {form[:40]!r}")
        asked = Range(words, self._service.configuration.limits.rows)
        given = [text for text in words.get("target", ()) if text.strip()]
        if len(given) > MOST_TARGETS:
            raise bad(f"there are at most {MOST_TARGETS} targets")
        targets = [target_of(text) for text in given]
        store = self._service.store()
        streams = _Streams(self._service, store, await self.tree(store))
        wish = Wish(asked.first, asked.last, asked.last - asked.first, asked.points)
        shown: list[object] = []
        for target in targets:
            if isinstance(target, Constant):
                shown.append(_series(target.value, [(float(target.value), at)
                                                    for at in (asked.first, asked.last)]))
            else:
                shown += [_shown(each) for each in await target.drawn(streams, wish)]
        return shown


class _Streams:
    """The streams of a store, for one answer: with as many points as one may have."""

    def __init__(self, service: Service, store: aio.Store, tree: Tree) -> None:
        self._service = service
        self._store = store
        self._tree = tree
        self._left = MOST_POINTS
        self._rows: dict[tuple[str, Wish], Sequence[Interval]] = {}

    def _meaning(self, stream: str) -> Meaning:
        return self._service.intake.streams.meaning(self._store, stream)

    def resolution(self, pattern: str) -> int:
        """The coarsest resolution of those that a pattern names, in seconds."""
        leaves = self._tree.leaves(pattern)
        return max((_resolution(self._meaning(leaf.stream)) for _, leaf in leaves), default=1)

    async def drawn(self, pattern: str, wish: Wish) -> Sequence[Drawn]:
        """Those that a pattern names, each as a series."""
        leaves = self._tree.leaves(pattern)
        steps = [wish.step_for(_resolution(self._meaning(leaf.stream))) for _, leaf in leaves]
        counts = [(wish.last - wish.begin(step)) // step + 1 for step in steps]
        self._left -= sum(counts)
        if self._left < 0 or max(counts, default=0) > MOST_OF_ONE:
            raise bad(f"an answer has at most {MOST_POINTS} points and a series {MOST_OF_ONE}, and "
                      f"{pattern[:60]!r} names {len(leaves)} series: ask for fewer, or for fewer points")
        return [await self._series(path, leaf, pattern, replace(wish, step=step))
                for (path, leaf), step in zip(leaves, steps)]

    async def _series(self, path: str, leaf: Leaf, pattern: str, wish: Wish) -> Drawn:
        assert wish.step is not None
        key = leaf.stream, wish
        if key not in self._rows:
            self._rows[key] = await self._asked(leaf.stream, wish.kind or "mean", wish.begin(wish.step),
                                                wish.last, wish.step)
        return Drawn(path, path, pattern, leaf.part, wish.begin(wish.step), wish.step, self._rows[key])

    async def _asked(self, stream: str, kind: str, begin: int, last: int, step: int) -> Sequence[Interval]:
        """The answers of a stream step by step, from one second to another.

        Steps begin at whole numbers of themselves since 1970, so that they stay where they are while
        time goes on. Those before the first time that the stream can have hold nothing.
        """
        meaning = self._meaning(stream)
        count = (last - begin) // step + 1
        first, end = meaning.first(begin * SECOND), meaning.last(last * SECOND)
        before = max(0, (meaning.nanoseconds(first) // SECOND - begin) // step)
        nothing = NOTHING if kind in ("mean", "min", "max", "increase") else Interval(0)
        if end < first:
            return [nothing] * count
        found: list[Interval] = []
        counts = step * SECOND // meaning.step
        whole = meaning.first((begin + before * step) * SECOND)
        if meaning.nanoseconds(whole) > (begin + before * step) * SECOND:     # a row begins before its stream
            next_ = min(meaning.first((begin + (before + 1) * step) * SECOND), end + 1)
            found.append(await self._store.query(stream, one_of(kind, KINDS), whole, next_ - 1))
            whole = next_
        if whole <= end:
            answers = await self._store.series(stream, one_of(kind, KINDS), whole, end, counts)
            found += [row.interval for row in answers]
        return [*[nothing] * before, *found, *[nothing] * (count - before - len(found))]


def _resolution(meaning: Meaning) -> int:
    return max(1, meaning.step // SECOND)


def _shown(drawn: Drawn) -> object:
    return _series(drawn.name, [(_part(point, drawn.part), drawn.begin + at * drawn.step)
                                for at, point in enumerate(drawn.points)])


def _part(interval: Interval, part: str) -> float | None:
    """One end or the middle, as a float: ends are rounded outwards, so they hold the truth too."""
    if interval.none:
        return None
    if part == "mid":
        return float(interval.mid)
    return outward(interval.hi if part == "hi" else interval.lo, part == "hi")


def _series(name: str, points: Sequence[Point]) -> object:
    return {"target": name, "tags": {"name": name}, "datapoints": points}


def _one(words: Words, key: str) -> str | None:
    """The last word of a key, as Graphite takes it."""
    found = words.get(key)
    return found[-1] if found else None


async def words_of(request: web.Request, service: Service) -> Words:
    """The words of a request: those of its address and of a body that is a form."""
    words = {key: request.query.getall(key) for key in request.query}
    if request.method != "POST":
        return words
    body = text_of(await body_of(request, service.configuration.limits))
    try:
        form = parse_qs(body, keep_blank_values=True, max_num_fields=MOST_FIELDS)
    except ValueError as error:
        raise bad(f"the body is no form: {error}") from None
    return {key: [*words.get(key, ()), *form.get(key, ())] for key in {**words, **form}}


def endpoints(service: Service) -> Sequence[Endpoint]:
    """The addresses of Graphite's interface."""
    graphite = Graphite(service)
    answers = {"/render": graphite.render, "/metrics/find": graphite.find, "/metrics/expand": graphite.expand,
               "/metrics/index.json": graphite.index, "/tags/autoComplete/tags": graphite.no_tags,
               "/tags/autoComplete/values": graphite.no_tags}

    def made(method: str, path: str) -> Endpoint:
        async def answer(request: web.Request) -> web.StreamResponse:
            words = await words_of(request, service)
            try:
                async with asyncio.timeout(service.configuration.limits.answer_seconds):
                    found = await answers[path](words)
            except (PatternError, TargetError, TimeError) as error:
                raise bad(str(error)) from None
            return web.json_response(text=json.dumps(found))
        return Endpoint(method, path, answer, Access.READ)
    return [made(method, path) for path in answers for method in ("GET", "POST")]
