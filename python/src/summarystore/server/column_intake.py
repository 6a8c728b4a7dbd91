"""The intake, which takes columns of readings, too: each that can be goes to the store as a whole."""

from __future__ import annotations

import asyncio
import time as clock
from collections import Counter
from collections.abc import Sequence
from typing import Any

from .column import Column
from .intake import BATCH, Intake
from .lanes import Lane
from .mapping import MOST_KEPT, Mappings, Route, full_name
from .outcomes import STORED, Outcome, Result


class ColumnIntake(Intake):
    """Takes readings, one by one or in columns, and brings them into the store by streams."""

    def __init__(self, *given: Any, **more: Any) -> None:
        super().__init__(*given, **more)
        self._known: dict[tuple[str, tuple[tuple[str, str], ...], str], Route] = {}

    def remap(self, mappings: Mappings) -> None:
        super().remap(mappings)
        self._known.clear()

    async def append_columns(self, columns: Sequence[Column]) -> Sequence[Sequence[Outcome]]:
        """Takes columns, and says what became of the readings of each. A stream that has one column, and
        nothing else under way, gets it as a whole."""
        self._must_have_room(sum(map(len, columns)))
        latest = clock.time_ns() + self._future
        routes = [self._known_route(column) for column in columns]
        streams = Counter(route.stream for route in routes if route is not None)
        works: dict[int, asyncio.Task[Sequence[Outcome]]] = {}
        for at, (column, route) in enumerate(zip(columns, routes)):
            if (route is not None and streams[route.stream] == 1 and route.stream not in self._lanes
                    and column.is_plain(route, latest)):
                works[at] = task = asyncio.get_running_loop().create_task(self._whole(column, route))
                self._tasks.add(task)
                task.add_done_callback(self._tasks.discard)
                self.queued += len(column)
        others = [at for at in range(len(columns)) if at not in works]
        singly = await self._one_by_one([columns[at] for at in others])
        if works:
            await asyncio.wait(works.values())
        found = dict(zip(others, singly))
        return [found[at] if at in found else works[at].result() for at in range(len(columns))]

    async def _one_by_one(self, columns: Sequence[Column]) -> Sequence[Sequence[Outcome]]:
        """Takes the readings of columns in the order in which they came."""
        placed = sorted(((place, at, reading) for at, column in enumerate(columns)
                         for place, reading in column.readings()), key=lambda each: each[0])
        outcomes = await self.append_many([reading for _, _, reading in placed])
        found: list[list[Outcome]] = [[] for _ in columns]
        for (_, at, _), outcome in zip(placed, outcomes):
            found[at].append(outcome)
        return found

    def _known_route(self, column: Column) -> Route | None:
        """Where the readings of a column go. None where each of them has to be told that they don't."""
        key = column.name, tuple(sorted(column.tags.items())), column.source
        route = self._known.get(key)
        if route is None:
            name = full_name(column.name, column.tags)
            if self.mistake_of(name) is not None:
                return None
            route = self.mappings.route(column.name, column.tags, column.source)
            if route is None:
                return self._current(Route(name)) if self.streams.stands(name) else None
            if route.mapping is not None and route.mapping.ignore:
                return None
            if len(self._known) >= MOST_KEPT:
                self._known.clear()
            self._known[key] = route
        return self._current(route)

    async def _whole(self, column: Column, route: Route) -> Sequence[Outcome]:
        """Brings a column to the store."""
        came = clock.monotonic()
        found: list[Outcome] = []
        while not found:
            async with self.streams.alone(route.stream):
                before, route = route, self._current(route)
                if route.stream == before.stream and not await self._moves(route):
                    for at in range(0, len(column), BATCH):
                        found += await self._outcomes(Lane(route), column.part(at, at + BATCH))
        self.counters.took("append", clock.monotonic() - came)
        self._settle_column(column.source, found)
        return found

    def _settle_column(self, source: str, found: Sequence[Outcome]) -> None:
        """The readings of a column have their fate."""
        stored = found.count(STORED)
        counted: Counter[tuple[str, Result, str]] = Counter()
        if stored == len(found):
            counted[source, Result.STORED, ""] = stored
        else:
            counted.update((source, outcome.result, outcome.code) for outcome in found)
        self._count(counted)
