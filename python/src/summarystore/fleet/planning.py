"""What a fleet needs, by arithmetic, and what its questions take, by a simulation of measured costs."""

from __future__ import annotations

import heapq
import random
from collections.abc import Sequence
from dataclasses import dataclass

from ..planner import EMPTY_FILE, MOST_RECORDS
from ..planner import MOST_STREAMS as MOST_STREAMS
from ..planner import RECORD as RECORD
from ..targets import Target

SLOTS = MOST_RECORDS
"""The records that a store holds: one for each stream, window, landmark and value of a landmark."""
HEAD = EMPTY_FILE
FRAME = 64


def target_windows(words: Sequence[int | str], values: int) -> int:
    """How many windows of a target are enough for so many values.

    A target is `("exp", B, R, S)` or `("power", P, Q, R, S)`.
    """
    return _target(words).cover(values)


def most_windows(words: Sequence[int | str], values: int) -> int:
    """No more windows stand after so many values."""
    return _target(words).most_windows(values)


def _target(words: Sequence[int | str]) -> Target:
    family, *numbers = words
    return Target(str(family), tuple(map(int, numbers)))


def streams_of_a_store(windows: int) -> int:
    """How many streams of so many windows a store holds."""
    return min(MOST_STREAMS, SLOTS // (windows + 1))


def bytes_of_a_store(streams: int, windows: int) -> int:
    """How long its file is."""
    return HEAD + RECORD * streams * (windows + 1)


@dataclass(frozen=True)
class Costs:
    """What was measured, in seconds."""

    shard: float
    """A shard's answer over one stream of a pattern, besides the next."""
    ask: float
    """What an answer of a shard takes beside its streams."""
    gateway: float
    """The gateway's own time for each shard."""
    refused: float = 0.002
    """Until a replica that has ended is known not to answer."""
    hangs: float = 5.0
    """The same of one that says nothing."""


@dataclass(frozen=True)
class Layout:
    """A fleet: its shards, each with replicas in so many states, and how many are asked at once."""

    shards: int
    streams: int
    """Of each shard."""
    replicas: int
    together: int


UP, ENDED, HANGING = "up", "ended", "hanging"


def question(layout: Layout, costs: Costs, states: Sequence[Sequence[str]]) -> tuple[float, int]:
    """What a question over all shards takes, and how many are missing: the replicas of each are in these
    states.

    So many shards are asked at once, and what they say is read one after the other.
    """
    turns = [0.0] * min(layout.together, layout.shards)
    heapq.heapify(turns)
    read = 0.0
    missing = 0
    for replicas in states:
        at = heapq.heappop(turns)
        for state in replicas:
            at += costs.ask + costs.shard * layout.streams if state == UP else \
                costs.refused if state == ENDED else costs.hangs
            if state == UP:
                break
        else:
            missing += 1
        read = max(read, at) + costs.gateway
        heapq.heappush(turns, at)
    return max(read, max(turns)), missing


def states_of(layout: Layout, down: float, hanging: float, chance: random.Random) -> list[list[str]]:
    """States that look random: each replica is down with one chance, and hangs then with another.

    One that was asked lately and didn't answer is asked last.
    """
    def state() -> str:
        if chance.random() >= down:
            return UP
        return HANGING if chance.random() < hanging else ENDED
    return [sorted((state() for _ in range(layout.replicas)), key=lambda each: each != UP)
            for _ in range(layout.shards)]


def catch_up(away: float, arriving: float, taking: float) -> float:
    """The seconds until a follower that was away has all again, by the rates of events that arrive and
    that it takes."""
    if arriving >= taking:
        return float("inf")
    return away * arriving / (taking - arriving)
