"""What the service counts of itself, for `/metrics` and `/healthz`. Nothing here grows with time."""

from __future__ import annotations

from bisect import bisect_left
from collections.abc import Mapping

BOUNDS = (0.001, 0.0025, 0.005, 0.01, 0.025, 0.05, 0.1, 0.25, 0.5, 1.0, 2.5, 5.0, 10.0)
Key = tuple[str, ...]


class Durations:
    """How long something took: how often at most each of BOUNDS, and longer."""

    def __init__(self) -> None:
        self.buckets = [0] * (len(BOUNDS) + 1)
        self.sum = 0.0
        self.count = 0

    def add(self, seconds: float) -> None:
        """One that took so long."""
        self.buckets[bisect_left(BOUNDS, seconds)] += 1
        self.sum += seconds
        self.count += 1


class Counters:
    """Counts and durations. Labels come from fixed sets, and never from a client.

    | Count | Labels | Of |
    |---|---|---|
    | `readings` | source, result | readings whose fate is known, by `intake.Result` |
    | `refused` | source, code | those that were refused, by the reason |
    | `lost` | source, code | those of them that a broker was acknowledged for |
    | `unmatched` | source | those that no mapping matched; they are refused ones, too |
    | `busy` | `queue` | batches for which there was no room |
    | `batches` | | batches that went to the store, each of one stream |
    | `requests` | route, method, status | answers by HTTP |
    | `connections` | `refused` or `slow` | connections that were refused or cut off |
    | `opened` | | how often the store was opened |
    | `ended` | code | how often its program ended unasked, by the reason |
    | `events` | `sent` or `lost` | events for subscribers |

    | Duration | Labels | Of |
    |---|---|---|
    | `append` | | from when a reading was handed over until it was stored, the oldest of each batch |
    | `query` | route | answers to questions |
    """

    def __init__(self) -> None:
        self._counts: dict[tuple[str, Key], int] = {}
        self._durations: dict[tuple[str, Key], Durations] = {}

    def add(self, what: str, *labels: str, count: int = 1) -> None:
        """Adds to a count."""
        key = what, labels
        self._counts[key] = self._counts.get(key, 0) + count

    def took(self, what: str, seconds: float, *labels: str) -> None:
        """Adds a duration."""
        key = what, labels
        found = self._durations.get(key)
        if found is None:
            found = self._durations[key] = Durations()
        found.add(seconds)

    def of(self, what: str) -> Mapping[Key, int]:
        """A count by its labels."""
        return {labels: count for (name, labels), count in self._counts.items() if name == what}

    def total(self, what: str) -> int:
        """A count over all labels."""
        return sum(self.of(what).values())

    def durations(self, what: str) -> Mapping[Key, Durations]:
        """A duration by its labels."""
        return {labels: found for (name, labels), found in self._durations.items() if name == what}
