"""How long a connection is kept over which nothing comes.

A connection may stand while the broker behind it does nothing for it: a queue without a leader, a consumer
that was forgotten, a binding that a node lost, a node that is cut off from the others. No error tells of it.
So another connection is made after a time, to another node, where all is declared anew.
"""

from __future__ import annotations

FIRST, MOST = 60.0, 900.0
"""The first connection is kept for so many seconds, and each further one twice as long, up to so many."""


class Patience:
    """That with the connections of one sender or follower. Times are those of a clock that only goes on."""

    def __init__(self, first: float = FIRST, most: float = MOST) -> None:
        self._first, self._most = first, most
        self.seconds = first
        self._since = 0.0

    def begins(self, now: float) -> None:
        """A connection begins."""
        self._since = now

    def moved(self, now: float) -> None:
        """Something came, or nothing is waited for."""
        self._since = now
        self.seconds = self._first

    def quiet(self, now: float) -> float:
        """So many seconds nothing has come over this connection."""
        return now - self._since

    def is_over(self, now: float) -> bool:
        """Whether another connection is to be made now."""
        if self.quiet(now) < self.seconds:
            return False
        self.seconds = min(2 * self.seconds, self._most)
        return True
