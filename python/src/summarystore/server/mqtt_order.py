"""The order of messages, where a broker let a newer one overtake older ones.

MQTT promises the order of a topic's messages. But mosquitto 2.0.11, when a session is taken up again,
may send one that has just come before those that waited, and the store takes no time before its last.
So a message is held back while what came after it on its topic has an earlier time: until one with a
later time comes, or for `PATIENCE` seconds. Then it is also acknowledged after these, and not in the
order in which it came.
"""

from __future__ import annotations

from collections.abc import Iterable, Sequence
from typing import Generic, NamedTuple, TypeVar

T = TypeVar("T")
PATIENCE = 2.0
MOST_HELD = 1000


class Timed(NamedTuple, Generic[T]):
    """A message, with its topic and its time. Without a time it waits for nothing."""

    topic: str
    time: int | None
    message: T


class _Held(NamedTuple, Generic[T]):
    """One that is held back, and since when."""

    item: Timed[T]
    since: float


class Order(Generic[T]):
    """Messages that are held back, by topic."""

    def __init__(self) -> None:
        self._held: dict[str, list[_Held[T]]] = {}

    def __len__(self) -> int:
        return sum(map(len, self._held.values()))

    def take(self, arrived: Iterable[Timed[T]], now: float) -> Sequence[Timed[T]]:
        """Those that may be stored now, each topic's in the order of their times."""
        ready: list[Timed[T]] = []
        came: dict[str, list[_Held[T]]] = {}
        for item in arrived:
            if item.time is None:
                ready.append(item)
            else:
                came.setdefault(item.topic, []).append(_Held(item, now))
        for topic, items in came.items():
            ready += self._up_to(topic, items, items[-1].item.time or 0)
        if len(self) > MOST_HELD:
            ready += self.all()
        return ready

    def _up_to(self, topic: str, more: Sequence[_Held[T]], time: int) -> Sequence[Timed[T]]:
        """Those of a topic that aren't later than this. The others stay."""
        known = sorted([*self._held.pop(topic, ()), *more], key=lambda held: held.item.time or 0)
        later = [held for held in known if (held.item.time or 0) > time]
        if later:
            self._held[topic] = later
        return [held.item for held in known[:len(known) - len(later)]]

    def overdue(self, now: float) -> Sequence[Timed[T]]:
        """Those that were held back for long enough, and what is earlier than they."""
        found: list[Timed[T]] = []
        for topic, held in list(self._held.items()):
            times = [each.item.time or 0 for each in held if each.since + PATIENCE <= now]
            if times:
                found += self._up_to(topic, (), max(times))
        return found

    def all(self) -> Sequence[Timed[T]]:
        """All that are held back."""
        return [held.item for topic in list(self._held) for held in self._held.pop(topic)]
