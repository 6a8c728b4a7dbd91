"""Readings of one name that came together: their times and their values, each as a list of its own.

What is the same for all of them is done once. Where nothing stands against it they go to the store
together, and else one by one, as any others.
"""

from __future__ import annotations

from collections.abc import Iterable, Iterator, Mapping, Sequence
from dataclasses import dataclass, field
from decimal import Decimal

from .lanes import Incoming
from .mapping import Route
from .outcomes import STORED, Outcome

FEW = 4
"""So many readings of one name are worth to be taken together."""
PLAIN = frozenset((str, int, Decimal))
"""What the values of a column may be. Of another class is what may be no number."""


@dataclass(slots=True)
class Column:
    """The readings of one name with its tags: a time (None is that of arrival) and a value each, and which
    readings of those that came with it they are."""

    name: str
    tags: Mapping[str, str]
    source: str
    times: list[int | None] = field(default_factory=list)
    values: list[object] = field(default_factory=list)
    places: list[int] = field(default_factory=list)

    def __len__(self) -> int:
        return len(self.times)

    @property
    def first(self) -> Incoming:
        """The first of them."""
        return Incoming(self.name, self.values[0], self.times[0], self.tags, self.source)

    def readings(self) -> Iterator[tuple[int, Incoming]]:
        """Each of them by itself, with its place."""
        for place, time, value in zip(self.places, self.times, self.values):
            yield place, Incoming(self.name, value, time, self.tags, self.source)

    def part(self, begin: int, end: int) -> Column:
        """Some of them."""
        return Column(self.name, self.tags, self.source, self.times[begin:end], self.values[begin:end],
                      self.places[begin:end])

    def is_plain(self, route: Route, latest: int) -> bool:
        """Whether they needn't be looked at one by one: enough numbers, each with a time that isn't later
        than this nor earlier than the one before, of a stream without words and lateness."""
        times = [time for time in self.times if time is not None]
        mapping = route.mapping
        return (FEW <= len(times) == len(self)
                and (mapping is None or not (mapping.words or mapping.lateness))
                and times == sorted(times) and times[-1] <= latest
                and PLAIN.issuperset(map(type, self.values)))


def columns_of(readings: Iterable[Incoming]) -> Sequence[Column]:
    """Readings as columns."""
    found: dict[tuple[str, tuple[tuple[str, str], ...], str], Column] = {}
    for place, reading in enumerate(readings):
        tags = reading.tags
        key = reading.name, tuple(sorted(tags.items())) if tags else (), reading.source
        column = found.get(key)
        if column is None:
            column = found[key] = Column(reading.name, reading.tags, reading.source)
        column.times.append(reading.time)
        column.values.append(reading.value)
        column.places.append(place)
    return list(found.values())


def are_stored(found: Sequence[Sequence[Outcome]]) -> bool:
    """Whether all readings of all columns are stored."""
    return all(each.count(STORED) == len(each) for each in found)


def in_order(columns: Sequence[Column], found: Sequence[Sequence[Outcome]]) -> Sequence[Outcome]:
    """What became of each reading, from what became of those of each column."""
    placed = [(place, outcome) for column, outcomes in zip(columns, found)
              for place, outcome in zip(column.places, outcomes)]
    placed.sort(key=lambda each: each[0])
    return [outcome for _, outcome in placed]
