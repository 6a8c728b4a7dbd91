"""Who uses which of the eight sessions: calls take one while they last, and cursors keep one."""

from __future__ import annotations

from collections.abc import Hashable

from .wire import SESSIONS


class Sessions:
    """Eight sessions. A call and a cursor may be in one session at a time, and two calls may not."""

    def __init__(self) -> None:
        self._calls = list(range(SESSIONS))
        self._cursors: dict[int, Hashable] = {}

    @property
    def idle(self) -> bool:
        """Whether no call is under way and no cursor is open."""
        return len(self._calls) == SESSIONS and not self._cursors

    def take(self) -> int | None:
        """A session for a call. None where all are taken."""
        return self._calls.pop() if self._calls else None

    def give(self, session: int) -> None:
        """A call has ended."""
        self._calls.append(session)

    def take_cursor(self, owner: Hashable) -> int | None:
        """A session for a cursor. None where all are taken."""
        free = next((session for session in range(SESSIONS) if session not in self._cursors), None)
        if free is not None:
            self._cursors[free] = owner
        return free

    def give_cursor(self, session: int) -> None:
        """A cursor is closed, or the process that had it has ended."""
        self._cursors.pop(session, None)

    def holds_all(self, owner: Hashable) -> bool:
        """Whether one owner has all cursors, so that waiting would be for itself."""
        return len(self._cursors) == SESSIONS and set(self._cursors.values()) == {owner}

    def holds_any(self, owner: Hashable) -> bool:
        """Whether an owner has a cursor."""
        return owner in self._cursors.values()

    def forget_cursors(self) -> None:
        """The process has ended, and its cursors with it."""
        self._cursors.clear()

    @property
    def cursors(self) -> bool:
        """Whether a cursor is open."""
        return bool(self._cursors)
