"""Readings whose time is now: what `append` was given, and where such a reading goes."""

from __future__ import annotations

from .codec import Codec
from .errors import LateError, TimeError


class Unsaid:
    """What wasn't given."""

    def __repr__(self) -> str:
        return "now"


UNSAID = Unsaid()


def reading_of(time: object, value: object) -> tuple[object, object]:
    """The time and the value of a reading. What was given alone is the value."""
    if value is UNSAID and time is UNSAID:
        raise TypeError("append takes a value, or a time and a value")
    return (UNSAID, time) if value is UNSAID else (time, value)


def next_free(codec: Codec, late: LateError) -> tuple[int, float]:
    """Where a reading goes whose time is now, and a reading stands there: the next free step, and how
    many seconds to wait for it. It is at most a second ahead of the clock, and one more is waited for."""
    try:
        second = codec.step("1s")
    except TimeError:
        raise late from None    # the stream counts minutes: the next one isn't now
    if late.newest is None:
        raise late
    free = codec.time(late.newest) + 1
    wait = (free - codec.now() - second) / second
    if wait > 1:
        raise late
    return free, max(0.0, wait)
