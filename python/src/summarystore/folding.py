"""Times of an hour that a clock shows twice, told apart by the order in which the rows of a table come."""

from __future__ import annotations

import datetime

from .clock import TwiceError
from .errors import TimeError
from .timeforms import moment_in


class PassedOverError(TimeError):
    """A row of an hour that came twice stands behind both of its hours."""


class Order:
    """The rows of one stream, as far as they have come.

    Of an hour that comes twice the first run of rising times is the first, and what doesn't rise any more is
    of the second. `newest` is the latest time so far, in nanoseconds since 1970.
    """

    def __init__(self) -> None:
        self.newest: int | None = None
        self.unsure: tuple[int, int] | None = None
        """Where a table begins in such an hour: the first times that its rows may have, from here to there.
        Which of the two they are isn't known."""

    def moment(self, text: str, form: str, zone: datetime.tzinfo | None) -> int:
        """Nanoseconds since 1970 of the next row's time."""
        try:
            found = moment_in(text, form, zone)
        except TwiceError as error:
            found = self._which(error.both, text)
        self.newest = found if self.newest is None else max(self.newest, found)
        return found

    def _which(self, both: tuple[int, int], text: str) -> int:
        first, second = both
        if self.newest is None:
            self.unsure = first, second - 1
        if self.newest is None or first > self.newest:
            return first
        if second > self.newest:
            return second
        raise PassedOverError(f"{text} comes twice, and the table has passed both: passed over")

    def is_unsure(self, moment: int) -> bool:
        """Whether a time may as well be of the second hour."""
        return self.unsure is not None and self.unsure[0] <= moment <= self.unsure[1]
