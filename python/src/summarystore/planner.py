"""Which targets surely meet some wishes, and what comes nearest where none does."""

from __future__ import annotations

from collections.abc import Callable, Iterator, Sequence
from dataclasses import dataclass
from fractions import Fraction

from .errors import SourceError
from .targets import (GREATEST, GREATEST_BASE, GREATEST_GROWTH, GREATEST_POWER, LEAST_BASE, LEAST_POWER,
                      Target)
from .wishes import Readings, Wish

MOST_RECORDS = 1 << 20
MOST_STREAMS = 4096
EMPTY_FILE, RECORD = 36864, 128
"""Bytes."""

Shape = tuple[str, tuple[int, ...]]
SHAPES: Sequence[Shape] = [
    *(("exp", (base,)) for base in range(LEAST_BASE, GREATEST_BASE + 1)),
    ("power", (1, 0)),      # with Q = 0 all windows have one length, whatever P and R are
    *(("power", (power, growth)) for power in range(LEAST_POWER, GREATEST_POWER + 1)
      for growth in range(1, GREATEST_GROWTH + 1))]


def _scales() -> Iterator[int]:
    """The lengths of first windows that are tried: all up to 16, and then each an eighth longer."""
    scale = 1
    while scale <= GREATEST:
        yield scale
        scale += max(1, scale // 8)
    yield GREATEST


SCALES = sorted(set(_scales()))


def records_of(target: Target, values: int, streams: int, steps: int = 1) -> int:
    """No more records stand at any moment, up to so many values of each stream in so many steps: one of
    each stream, those of its windows, and the window of one more value before it is joined."""
    return streams * (1 + target.most_windows(values, steps)) + 1


def bytes_of(records: int) -> int:
    """How long the file is, which never shrinks. The records of windows that were joined are used again."""
    return EMPTY_FILE + RECORD * records


@dataclass(frozen=True)
class Choice:
    """A target, and what it surely keeps to: the windows of a stream, the records of the store, and half
    the width of each wish's interval."""

    target: Target
    windows: int
    records: int
    halves: tuple[Fraction, ...]

    @property
    def bytes(self) -> int:
        """The file of the store."""
        return bytes_of(self.records)


@dataclass(frozen=True)
class Plan:
    """The targets that meet all wishes, those with the smallest file first. Where there are none, why, and
    what comes nearest: the smallest that meets the wishes but for its room, and of those that have room
    the one whose widest wish is the narrowest."""

    choices: Sequence[Choice]
    why: str | None = None
    larger: Choice | None = None
    nearest: Choice | None = None


class Planner:
    """Some streams of the same readings, the wishes, and how many records there may be; and the seconds
    of a step, where no window crosses a multiple of it."""

    def __init__(self, readings: Readings, wishes: Sequence[Wish], streams: int = 1,
                 most_bytes: int | None = None, scale: int | None = None,
                 within: Fraction | None = None) -> None:
        if not 1 <= streams <= MOST_STREAMS:
            raise SourceError(f"a store has 1 to {MOST_STREAMS:,} streams")
        if not wishes:
            raise SourceError("nothing is wished: --wish 'day after 1y within 5%'")
        if scale is not None and not 1 <= scale <= GREATEST:
            raise SourceError(f"S is 1 to {GREATEST:,}")
        if within is not None and within <= 0:
            raise SourceError("no step is so short: --within day")
        for wish in wishes:
            wish.check(readings)
        self.readings, self.wishes, self.streams = readings, tuple(wishes), streams
        self.steps = 1 if within is None else readings.steps(within)
        room = MOST_RECORDS if most_bytes is None else (most_bytes - EMPTY_FILE) // RECORD
        self.room = min(MOST_RECORDS, room)
        self.scales = SCALES if scale is None else [scale]
        self.allowed = [wish.allowed(readings) for wish in wishes]

    def choice(self, target: Target) -> Choice:
        """What a target keeps to."""
        values = self.readings.count
        return Choice(target, target.most_windows(values, self.steps), self._records(target),
                      tuple(wish.half(target, self.readings) for wish in self.wishes))

    def meets(self, target: Target) -> bool:
        """Whether all wishes are met."""
        return all(wish.half(target, self.readings) <= allowed
                   for wish, allowed in zip(self.wishes, self.allowed))

    def has_room(self, target: Target) -> bool:
        """Whether the records are no more than there may be."""
        return self._records(target) <= self.room

    def _records(self, target: Target) -> int:
        return records_of(target, self.readings.count, self.streams, self.steps)

    def plan(self) -> Plan:
        """All that meet the wishes, one of each shape: exp B, or power P Q."""
        met = sorted(self._best(), key=lambda choice: (choice.records, choice.halves))
        choices = [choice for choice in met if choice.records <= self.room]
        if choices:
            return Plan(choices)
        return Plan([], self._why(met[0] if met else None), met[0] if met else None, self._nearest())

    def _best(self) -> Iterator[Choice]:
        """Of each shape the target with the fewest records that meets the wishes."""
        for shape in SHAPES:
            found = [self.choice(target) for scale in self.scales
                     if (target := self._fewest(shape, scale)) is not None]
            if found:
                yield min(found, key=lambda choice: (choice.records, choice.halves))

    def _fewest(self, shape: Shape, scale: int) -> Target | None:
        """The least R with which the wishes are met: windows get shorter at each age as R grows."""
        return _first(shape, scale, self.meets)

    def _nearest(self) -> Choice | None:
        """Of those that have room the one whose widest wish, beside what is wished, is the narrowest."""
        found: list[Choice] = []
        for shape in SHAPES:
            for scale in self.scales:
                full = _first(shape, scale, lambda target: not self.has_room(target))
                repeat = GREATEST if full is None else full.numbers[-2] - 1
                if repeat:
                    found.append(self.choice(_target(shape, repeat, scale)))
        return min(found, key=self._excess) if found else None

    def _excess(self, choice: Choice) -> tuple[bool, Fraction, Fraction, int]:
        """How many times wider than wished the widest is, how wide, and the records."""
        pairs = list(zip(choice.halves, self.allowed))
        times = [half / allowed for half, allowed in pairs if allowed]
        return any(half and not allowed for half, allowed in pairs), max(times, default=Fraction(0)), \
            max(choice.halves), choice.records

    def _why(self, larger: Choice | None) -> str:
        for wish, allowed in zip(self.wishes, self.allowed):
            if wish.share and not wish.truth(self.readings):
                return f"{wish.text}: the truth may be 0, and no part of it is more than that; wish a number"
        if larger is None:
            return "no target keeps windows so short for so long"
        if self.room < MOST_RECORDS:
            return f"the smallest file that surely does is {larger.bytes:,} bytes at most"
        streams = (MOST_RECORDS - 1) // (1 + larger.windows)
        held = f"of {streams:,} such streams" if streams else "not of one such stream"
        return (f"a store has 2^20 records, and the fewest that surely do are {larger.records:,}: there is "
                f"room {held}")


def _target(shape: Shape, repeat: int, scale: int) -> Target:
    family, numbers = shape
    return Target(family, (*numbers, repeat, scale))


def _first(shape: Shape, scale: int, holds: Callable[[Target], bool]) -> Target | None:
    """The target of this shape with the least R of which this holds, and with it of all greater ones."""
    if not holds(_target(shape, GREATEST, scale)):
        return None
    low, high = 1, GREATEST
    while low < high:
        middle = (low + high) // 2
        if holds(_target(shape, middle, scale)):
            high = middle
        else:
            low = middle + 1
    return _target(shape, low, scale)
