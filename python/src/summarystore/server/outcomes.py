"""What becomes of a reading, and why."""

from __future__ import annotations

import enum
from collections.abc import Sequence
from dataclasses import dataclass

from .. import errors


class Result(enum.Enum):
    """What became of a reading."""

    STORED = "stored"
    """It is on the disk."""
    THERE = "there"
    """The same value stands at the same time already: it was sent again."""
    REFUSED = "refused"
    """It isn't stored, and won't be if it is sent again."""
    IGNORED = "ignored"
    """Its mapping says that it isn't kept."""
    NOT_STORED = "not_stored"
    """It surely isn't stored, since the store's program ended. It may be sent again."""
    UNKNOWN = "unknown"
    """The store's program ended meanwhile: it may be stored or not. Sent again, it is stored once."""


@dataclass(frozen=True, slots=True)
class Outcome:
    """What became of a reading, and why: a word such as `late`, and a sentence."""

    result: Result
    code: str = ""
    reason: str = ""

    @property
    def final(self) -> bool:
        """Whether to send it again would change nothing."""
        return self.result not in (Result.NOT_STORED, Result.UNKNOWN)

    @property
    def waits(self) -> bool:
        """Whether its time is the service's, and it waits for one that is free."""
        return self is TOO_FAR or self is AGAIN

    @property
    def good(self) -> bool:
        """Whether the reading is on the disk."""
        return self.result in (Result.STORED, Result.THERE)


STORED = Outcome(Result.STORED)
IGNORED = Outcome(Result.IGNORED, "ignored", "its mapping says that it isn't kept")
THERE = Outcome(Result.THERE, "there", "this value stands at this time already")
TOO_FAR = Outcome(Result.NOT_STORED, "ahead",
                  "the next free time of the stream lies too far ahead of the clock")
TOO_MANY = Outcome(Result.REFUSED, "too_many", "too many readings without a time of their own wait for free "
                   "times of the stream: it needs a finer `time`")
AGAIN = Outcome(Result.NOT_STORED, "again", "its time was taken meanwhile: it gets the next one")


class Word(str):
    """A value that is a text or a truth value where numbers are to be told from these."""


CODES: Sequence[tuple[type[Exception], str]] = (
    (errors.LateError, "late"), (errors.NotANumberError, "not_a_number"), (errors.ScaleError, "scale"),
    (errors.MeterError, "counter"), (errors.TimeError, "time"), (errors.UnknownStreamError, "unknown_stream"),
    (errors.StreamNameError, "name"), (errors.NumberError, "range"), (errors.StreamFullError, "full"),
    (errors.StoreFullError, "full"), (errors.TooManyStreamsError, "full"))
"""The word for the reason of a refusal. What else is refused is refused for its mapping."""


def refused(error: Exception) -> Outcome:
    """What became of a reading that was refused."""
    code = next((code for kind, code in CODES if isinstance(error, kind)), "mapping")
    return Outcome(Result.REFUSED, code, str(error))
