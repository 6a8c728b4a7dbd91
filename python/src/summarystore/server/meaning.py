"""What the whole numbers of a stream mean on a network: clock times in nanoseconds, and decimals."""

from __future__ import annotations

from dataclasses import dataclass
from decimal import Decimal

from ..clock import nanoseconds
from ..decimals import EXACT, Number, exact
from ..description import EPOCH, NANOSECONDS, Description
from ..errors import ScaleError, TimeError
from ..records import Time
from ..scale import Scale
from ..wire import LAST_TIME

SECOND = 10**9
DAY = 86400 * SECOND


def seconds_of(nanoseconds: int) -> Number:
    """Nanoseconds as seconds, exactly, and without zeros at their end."""
    whole, rest = divmod(nanoseconds, SECOND)
    if not rest:
        return whole
    return Decimal(nanoseconds).scaleb(-9, EXACT).normalize(EXACT)


@dataclass(frozen=True)
class Meaning:
    """How one stream counts. One without a description counts seconds since 1970 and whole numbers."""

    description: Description | None = None
    step: int = SECOND
    origin: int = 0
    scale: Scale = Scale(1, None)

    @classmethod
    def of(cls, description: Description | None) -> Meaning:
        """That of a stream with this description."""
        if description is None:
            return cls()
        return cls(description, NANOSECONDS[description.time], (description.since - EPOCH).days * DAY,
                   Scale(description.scale, description.rounding))

    def count(self, nanoseconds: int) -> int:
        """The time of a reading, rounded down to the resolution of the stream."""
        count = (nanoseconds - self.origin) // self.step
        if not 0 <= count <= LAST_TIME:
            raise TimeError(f"{seconds_of(nanoseconds)} s is before the first time of the stream, or after "
                            "the last")
        return count

    def first(self, nanoseconds: int) -> int:
        """The first count at a time or after it, for the begin of a range."""
        return min(max(0, -((self.origin - nanoseconds) // self.step)), LAST_TIME)

    def last(self, nanoseconds: int) -> int:
        """The last count at a time or before it, for the end of a range."""
        return min((nanoseconds - self.origin) // self.step, LAST_TIME)

    def nanoseconds(self, count: int) -> int:
        """A count as nanoseconds since 1970."""
        return self.origin + count * self.step

    def count_of(self, time: Time) -> int:
        """A time as the store shows it as a count."""
        return time if isinstance(time, int) else (nanoseconds(time, None) - self.origin) // self.step

    def count_of_seconds(self, seconds: str) -> int:
        """A time in seconds since 1970, as it is answered, as a count."""
        return (int(EXACT.scaleb(Decimal(seconds), 9)) - self.origin) // self.step

    def shown_time(self, time: Time) -> Number:
        """A time as the store shows it in seconds since 1970."""
        return self.seconds(time) if isinstance(time, int) else seconds_of(nanoseconds(time, None))

    def seconds(self, count: int) -> Number:
        """A count as seconds since 1970."""
        return seconds_of(self.nanoseconds(count))

    def length(self, counts: int) -> Number:
        """So many counts in seconds."""
        return seconds_of(counts * self.step)

    def value(self, given: object) -> object:
        """A value as the store takes it: of a stream without a description a whole number."""
        if self.description is not None:
            return given
        value = exact(given)
        if value != int(value):
            raise ScaleError(f"{given} isn't a whole number, and the stream has no scale")
        return int(value)

    def shown(self, given: object) -> Number:
        """A value that was stored, as it stands in the store."""
        return self.scale.value(self.scale.number(given))
