"""Gaps: streams of which a follower was given later events than the next, and what is done about it.

A log that stays is read again from where the missing events may stand. Where that doesn't help the
sender is asked, then the log is read from its begin, and where that doesn't help either a copy is
needed. A queue that is emptied can't be read again: the sender is asked at once.
"""

from __future__ import annotations

import enum
from collections.abc import Iterator
from dataclasses import dataclass


class Step(enum.Enum):
    """What is to be done about a gap."""

    AGAIN = "read again"
    ASK = "ask the sender"
    BEGIN = "read from the begin"
    LOST = "a copy is needed"


# Each step, and how many seconds the gap has stood since the one before.
OF_A_STREAM = ((Step.AGAIN, 0.5), (Step.ASK, 1.0), (Step.BEGIN, 10.0), (Step.ASK, 1.0), (Step.LOST, 10.0))
OF_A_QUEUE = ((Step.ASK, 0.5), (Step.ASK, 6.0), (Step.LOST, 10.0))
LATER = 30.0
"""Where a copy is needed the sender is asked again after so many seconds."""


@dataclass
class Gap:
    """One stream's."""

    events: int
    """So many events the store has."""
    highest: int
    """The greatest number that came."""
    offset: int | None
    """The place of the first delivery in the log that was too early."""
    due: float
    taken: int = 0
    """So many steps were taken."""


class Gaps:
    """Those that stand."""

    def __init__(self, stays: bool) -> None:
        self._steps = OF_A_STREAM if stays else OF_A_QUEUE
        self._gaps: dict[str, Gap] = {}
        self.lost: dict[str, int] = {}
        """Streams that need a copy, each with the number of its events."""

    def missing(self, name: str, events: int, highest: int, offset: int | None, now: float) -> None:
        """A frame came too early: the stream has so many events."""
        gap = self._gaps.get(name)
        if gap is None or gap.events != events:
            self._gaps[name] = Gap(events, highest, offset, now + self._steps[0][1])
        else:
            gap.highest = max(gap.highest, highest)
            if offset is not None and gap.offset is not None:
                gap.offset = min(gap.offset, offset)

    def came(self, name: str, events: int, now: float) -> None:
        """The stream has more events now."""
        gap = self._gaps.get(name)
        if gap is None:
            return
        self.lost.pop(name, None)
        if events >= gap.highest:
            del self._gaps[name]
        elif events > gap.events:
            gap.events, gap.taken, gap.due = events, 0, now + self._steps[0][1]

    def due(self, now: float) -> Iterator[tuple[str, Gap, Step]]:
        """What is to be done now."""
        for name, gap in list(self._gaps.items()):
            if gap.due > now:
                continue
            step = self._steps[gap.taken][0] if gap.taken < len(self._steps) else Step.ASK
            gap.taken += 1
            gap.due = now + (self._steps[gap.taken][1] if gap.taken < len(self._steps) else LATER)
            if step is Step.LOST:
                self.lost[name] = gap.events
            yield name, gap, step

    @property
    def offset(self) -> int | None:
        """The first place in the log that is still needed. None where there is none."""
        return min((gap.offset for name, gap in self._gaps.items()
                    if gap.offset is not None and name not in self.lost), default=None)

    def __len__(self) -> int:
        return len(self._gaps)
