"""What happens, told to those who listen: readings that were stored, landmarks, the health.

A subscriber that is slower than the events loses the oldest of them, and is told how many.
"""

from __future__ import annotations

import asyncio
from collections import deque
from collections.abc import Mapping
from dataclasses import dataclass

from .counters import Counters

MOST_HELD = 1000


@dataclass(frozen=True, slots=True)
class Event:
    """One event: `reading`, `landmark`, `threshold`, `health` or `lost`, with what belongs to it."""

    kind: str
    data: Mapping[str, object]


class Subscriber:
    """One who listens to some streams, or to all of them."""

    def __init__(self, streams: frozenset[str]) -> None:
        self.streams = streams
        self._held: deque[Event] = deque()
        self._came = asyncio.Event()
        self.lost = 0
        self.closed = False

    def put(self, event: Event) -> bool:
        """Hands an event over. Whether none was lost for it."""
        full = len(self._held) >= MOST_HELD
        if full:
            self._held.popleft()
            self.lost += 1
        self._held.append(event)
        self._came.set()
        return not full

    def close(self) -> None:
        """Ends it after what it holds."""
        self.closed = True
        self._came.set()

    async def take(self, seconds: float) -> list[Event]:
        """The events that came, after at most so long. None came where the list is empty."""
        if not self._held and not self.closed:
            try:
                await asyncio.wait_for(self._came.wait(), seconds)
            except asyncio.TimeoutError:
                return []
        self._came.clear()
        found = list(self._held)
        self._held.clear()
        if self.lost:
            found.insert(0, Event("lost", {"events": self.lost}))
            self.lost = 0
        return found


class Hub:
    """Tells each event to those who listen."""

    def __init__(self, counters: Counters | None = None) -> None:
        self._subscribers: set[Subscriber] = set()
        self._counters = Counters() if counters is None else counters

    def __len__(self) -> int:
        return len(self._subscribers)

    def subscribe(self, streams: frozenset[str]) -> Subscriber:
        """A new subscriber. No streams are all of them."""
        made = Subscriber(streams)
        self._subscribers.add(made)
        return made

    def leave(self, subscriber: Subscriber) -> None:
        """One that listens no more."""
        self._subscribers.discard(subscriber)

    def listens(self, stream: str) -> bool:
        """Whether somebody listens to a stream."""
        return any(not each.streams or stream in each.streams for each in self._subscribers)

    def tell(self, kind: str, data: Mapping[str, object]) -> None:
        """Tells an event. One that has a `stream` goes to those who listen to that."""
        event = Event(kind, data)
        stream = data.get("stream")
        for each in self._subscribers:
            if stream is None or not each.streams or stream in each.streams:
                kept = each.put(event)
                self._counters.add("events", "sent" if kept else "lost")

    def close(self) -> None:
        """Ends all subscribers, since the service stops."""
        for each in self._subscribers:
            each.close()
