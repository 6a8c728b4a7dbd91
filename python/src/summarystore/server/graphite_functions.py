"""What Graphite's functions draw of the streams of a store, each computed on intervals.

A stream has one point for each step: its mean there, or what `consolidateBy` says. Of what a function gives
the middle is shown, or by `.lo` and `.hi` behind the paths one end: so the band of a result holds the truth.
`summarize` asks the store for whole spans where that comes to the same, and else takes points together.
"""

from __future__ import annotations

import asyncio
import math
from collections.abc import Callable, Iterator, Mapping, Sequence
from dataclasses import dataclass, replace
from decimal import Decimal
from functools import partial
from typing import NamedTuple, Protocol

from . import graphite_points as points_of
from .graphite_points import Points
from .graphite_targets import TargetError

ASKED = ("count", "sum", "mean", "min", "max")
"""What the store answers of a span. `last` is told by points alone."""
STEPS = (1, 2, 5, 10, 15, 30, 60, 120, 300, 600, 900, 1800, 3600, 7200, 10800, 21600, 43200)
DAY = 86400


def step_of(seconds: int, points: int, least: int) -> int:
    """The least step in seconds, of those that people expect, that makes no more points than these.

    It is a whole number of `least`, the resolution of the stream in seconds.
    """
    wanted = max(1, -(-seconds // points))
    for step in STEPS:
        if step >= wanted and step % least == 0:
            return step
    unit = max(DAY, least)
    return -(-wanted // unit) * unit


@dataclass(frozen=True)
class Wish:
    """From when to when points are wanted, in seconds, and of which kind and step where that is given.

    Rows begin at whole numbers of their step from `aligned` on, and `seconds` are those that are shown.
    """

    first: int
    last: int
    seconds: int
    points: int
    kind: str | None = None
    step: int | None = None
    least: int = 1
    aligned: int = 0

    def step_for(self, resolution: int) -> int:
        """The step for streams of this resolution."""
        if self.step is not None and self.step % resolution:
            raise TargetError(f"a stream that is kept by steps of {resolution} s has none of {self.step} s")
        return self.step or step_of(self.seconds, self.points, max(self.least, resolution))

    def begin(self, step: int) -> int:
        """Where the first row of such a step begins."""
        return self.first - (self.first - self.aligned) % step


class Drawn(NamedTuple):
    """A series: its name, the path and the expression that it is of, and which part of it is shown."""

    name: str
    path: str
    source: str
    part: str
    begin: int
    step: int
    points: Points


class Streams(Protocol):
    """The streams of a store."""

    def resolution(self, pattern: str) -> int:
        """The coarsest resolution of those that a pattern names, in seconds."""

    async def drawn(self, pattern: str, wish: Wish) -> Sequence[Drawn]:
        """Those that a pattern names, each as a series."""


class Expression:
    """What a target asks for."""

    below: Sequence[Expression] = ()

    def patterns(self) -> Iterator[str]:
        """The patterns of all paths in it."""
        for each in self.below:
            yield from each.patterns()

    def step(self, streams: Streams, wish: Wish) -> int:
        """The step of its points."""
        return max(each.step(streams, wish) for each in self.below)

    def takes(self, kind: str) -> bool:
        """Whether what its streams say by `kind` of a span comes to the same as its points together."""
        return False

    async def drawn(self, streams: Streams, wish: Wish) -> Sequence[Drawn]:
        """Its series."""
        raise NotImplementedError


class Paths(Expression):
    """The streams that a pattern names."""

    def __init__(self, pattern: str) -> None:
        self._pattern = pattern

    def patterns(self) -> Iterator[str]:
        yield self._pattern

    def step(self, streams: Streams, wish: Wish) -> int:
        return wish.step_for(streams.resolution(self._pattern))

    def takes(self, kind: str) -> bool:
        return kind in ASKED

    async def drawn(self, streams: Streams, wish: Wish) -> Sequence[Drawn]:
        return await streams.drawn(self._pattern, wish)


class Consolidated(Expression):
    """Series whose streams have points of this kind. Of two that say so the outer is right."""

    def __init__(self, of: Expression, kind: str) -> None:
        self.below = (of,)
        self._kind = kind

    def takes(self, kind: str) -> bool:
        return self.below[0].takes(kind)

    async def drawn(self, streams: Streams, wish: Wish) -> Sequence[Drawn]:
        return await self.below[0].drawn(streams, replace(wish, kind=wish.kind or self._kind))


class Renamed(Expression):
    """The same series by other names."""

    def __init__(self, of: Expression, name: Callable[[Drawn], str]) -> None:
        self.below = (of,)
        self._name = name

    def takes(self, kind: str) -> bool:
        return self.below[0].takes(kind)

    async def drawn(self, streams: Streams, wish: Wish) -> Sequence[Drawn]:
        return [each._replace(name=self._name(each)) for each in await self.below[0].drawn(streams, wish)]


Change = Callable[[Points], Points]


def _named(drawn: Drawn, form: str) -> Drawn:
    """A series as a function of it is named by Graphite."""
    name = form.format(drawn.name)
    return drawn._replace(name=name, source=name)


class Each(Expression):
    """A function of one series after another. `kinds` are what its streams are asked for each kind."""

    def __init__(self, of: Expression, form: str, change: Change, kinds: Mapping[str, str] | None = None
                 ) -> None:
        self.below = (of,)
        self._form = form
        self._change = change
        self._kinds = kinds or {}

    def takes(self, kind: str) -> bool:
        return kind in self._kinds and self.below[0].takes(self._kinds[kind])

    async def drawn(self, streams: Streams, wish: Wish) -> Sequence[Drawn]:
        asked = replace(wish, kind=self._kinds.get(wish.kind, wish.kind) if wish.kind else None)
        return [_named(each, self._form)._replace(points=await asyncio.to_thread(self._change, each.points))
                for each in await self.below[0].drawn(streams, asked)]


class Moving(Expression):
    """The means of so many points before each: of a number of them, or of a span in seconds."""

    def __init__(self, of: Expression, form: str, count: int | None, seconds: int) -> None:
        self.below = (of,)
        self._form = form
        self._count = count
        self._seconds = seconds

    async def drawn(self, streams: Streams, wish: Wish) -> Sequence[Drawn]:
        step = self.step(streams, wish)
        window = self._count or self._seconds // step
        if not window:
            raise TargetError(f"{self._form.format('..')}: the points are {step} s apart")
        before = replace(wish, first=wish.first - window * step)
        return [await self._of(each, window) for each in await self.below[0].drawn(streams, before)]

    async def _of(self, drawn: Drawn, window: int) -> Drawn:
        means = await asyncio.to_thread(points_of.moving_mean, drawn.points, window)
        return _named(drawn, self._form)._replace(points=means, begin=drawn.begin + window * drawn.step)


class Summarized(Expression):
    """Spans of so many seconds, of each what `kind` says. Where it `begins` they begin with the range."""

    def __init__(self, of: Expression, form: str, seconds: int, kind: str, begins: bool) -> None:
        self.below = (of,)
        self._form = form
        self._seconds = seconds
        self._kind = kind
        self._begins = begins

    def step(self, streams: Streams, wish: Wish) -> int:
        return self._seconds

    async def drawn(self, streams: Streams, wish: Wish) -> Sequence[Drawn]:
        of, kind = self.below[0], self._kind
        asked = replace(wish, kind=None, step=self._seconds, aligned=wish.first if self._begins else 0)
        if of.takes(kind):
            return [_named(each, self._form) for each in await of.drawn(streams, replace(asked, kind=kind))]
        begin = asked.begin(self._seconds)
        fine = math.gcd(self._seconds, of.step(streams, replace(asked, step=None)))
        found = await of.drawn(streams, replace(asked, first=begin, step=fine))
        return [await self._together(each, begin) for each in found]

    async def _together(self, drawn: Drawn, begin: int) -> Drawn:
        if self._seconds % drawn.step or drawn.begin != begin:
            raise TargetError(f"{self._form.format('..')}: its points are {drawn.step} s apart")
        count = self._seconds // drawn.step
        together = points_of.TOGETHER[self._kind]
        points = await asyncio.to_thread(lambda: [together(drawn.points[at:at + count])
                                                  for at in range(0, len(drawn.points), count)])
        return _named(drawn, self._form)._replace(step=self._seconds, points=points)


class Combined(Expression):
    """One series of all: at each time what `kind` makes of their points."""

    def __init__(self, of: Sequence[Expression], name: str, kind: str) -> None:
        self.below = of
        self._name = name
        self._kind = kind

    def takes(self, kind: str) -> bool:
        return kind == self._kind == "sum" and all(each.takes(kind) for each in self.below)

    def _asked(self, streams: Streams, wish: Wish) -> Wish:
        """All of them by the steps that the coarsest stream has."""
        return replace(wish, least=max(wish.least, *map(streams.resolution, self.patterns())))

    def step(self, streams: Streams, wish: Wish) -> int:
        return super().step(streams, self._asked(streams, wish))

    async def drawn(self, streams: Streams, wish: Wish) -> Sequence[Drawn]:
        asked = self._asked(streams, wish)
        found = [drawn for each in self.below for drawn in await each.drawn(streams, asked)]
        if not found:
            return ()
        if len({(each.begin, each.step, len(each.points)) for each in found}) > 1:
            raise TargetError(f"{self._name} takes series of one step: summarize each of them")
        if len({each.part for each in found}) > 1:
            raise TargetError(f"{self._name} takes either ends .lo, or ends .hi, or neither of them")
        together = points_of.TOGETHER[self._kind]
        rows = zip(*(each.points for each in found))
        points = await asyncio.to_thread(lambda: [together(row) for row in rows])
        name = f"{self._name}({','.join(dict.fromkeys(each.source for each in found))})"
        first = next(self.patterns())
        return [found[0]._replace(name=name, path=first, source=name, points=points)]


def scale(of: Expression, form: str, factor: Decimal) -> Expression:
    """Series times a factor. Of one below 0 the least is that of the greatest."""
    kinds = {"sum": "sum", "mean": "mean", "min": "min", "max": "max"}
    if factor < 0:
        kinds.update(min="max", max="min")
    return Each(of, form, partial(points_of.scaled, factor=factor), kinds)


def offset(of: Expression, form: str, amount: Decimal) -> Expression:
    """Series and an amount."""
    kinds = {"mean": "mean", "min": "min", "max": "max"}
    return Each(of, form, partial(points_of.moved, amount=amount), kinds)
