"""What is to be sent: the frames of each stream in their order, and which of them are under way.

Nothing here touches a network or a disk. A stream has a lane: its frames from a first number on, the
next one to send, and how many events the followers have told of. What fails is sent again with all
that comes after it in its lane, so that a log has the frames of a stream in order in the end.
"""

from __future__ import annotations

from collections import deque
from collections.abc import Mapping
from typing import NamedTuple

from .frames import SIZE, name_of, number_of

TOGETHER = 256
"""So many frames of a stream go in one message."""
AGAIN = 5.0
"""What was asked for is sent again after so many seconds at the earliest."""


class Piece(NamedTuple):
    """One message that is under way."""

    name: str
    first: int
    last: int
    frames: bytes


class Need(NamedTuple):
    """A follower that has less than `until` events needs a copy: it misses those from `first` on."""

    first: int
    until: int


class Lane:
    """The frames of one stream."""

    def __init__(self, first: int) -> None:
        self.first = self.next = first
        self.frames = bytearray()
        self.told: dict[str, int] = {}
        self.held = first - 1
        """As many events as enough followers have told of. All before `first` count as told."""
        self.asked_at = 0.0
        self.seen = (0, 0)
        """How many events were held, and which frame was the last, when it was looked at last."""

    @property
    def last(self) -> int:
        """The number of the last frame."""
        return self.first + len(self.frames) // SIZE - 1

    def piece(self, name: str) -> Piece:
        """The next frames to send."""
        first, last = self.next, min(self.last, self.next + TOGETHER - 1)
        begin = (first - self.first) * SIZE
        return Piece(name, first, last, bytes(self.frames[begin:begin + (last - first + 1) * SIZE]))

    def let_go(self, held: int) -> None:
        """Drops the frames up to this number."""
        count = min(held, self.last) - self.first + 1
        if count > 0:
            del self.frames[:count * SIZE]
            self.first += count
            self.next = max(self.next, self.first)


class Outgoing:
    """The lanes of a sender."""

    def __init__(self, copies: int) -> None:
        self._copies = copies
        self._lanes: dict[str, Lane] = {}
        self._ready: deque[str] = deque()
        self._waiting: set[str] = set()
        self.under_way: dict[int, Piece] = {}
        self.needs: dict[str, Need] = {}
        self.done = 0
        """Of so many events enough followers have told."""

    # ---- what comes ---------------------------------------------------------------------

    def begin(self, name: str, first: int) -> None:
        """The frames of a stream begin with this number."""
        self._lanes[name] = Lane(first)

    def add(self, frame: bytes) -> None:
        """Takes the frame of the next event of its stream. Where some are missing a copy is needed."""
        name, number = name_of(frame), number_of(frame)
        lane = self._lanes.setdefault(name, Lane(number))
        if number <= lane.last and number >= lane.first:    # an earlier frame of this number didn't count
            del lane.frames[(number - lane.first) * SIZE:]
        elif number != lane.last + 1:
            self.needs_copy(name, lane.held + 1, number - 1)
            lane = self._lanes[name] = Lane(number)
        lane.frames += frame
        self._is_ready(name, lane)

    def _is_ready(self, name: str, lane: Lane) -> None:
        if lane.next <= lane.last and name not in self._waiting:
            self._waiting.add(name)
            self._ready.append(name)

    def needs_copy(self, name: str, first: int, until: int) -> None:
        """No frame of these events is here any more."""
        known = self.needs.get(name)
        self.needs[name] = Need(min(first, known.first) if known else first, until)

    def gone(self, numbers: Mapping[str, int]) -> None:
        """The spool had no room for the frames up to these numbers."""
        for name, number in numbers.items():
            lane = self._lanes.get(name)
            if lane is not None and number > lane.held:
                self.needs_copy(name, lane.held + 1, min(number, lane.last))
                lane.let_go(number)

    # ---- what goes ----------------------------------------------------------------------

    def take(self, tag: int) -> Piece | None:
        """The next message, which is under way then by this tag."""
        while self._ready:
            name = self._ready.popleft()
            self._waiting.discard(name)
            lane = self._lanes[name]
            if lane.next <= lane.last:
                piece = lane.piece(name)
                lane.next = piece.last + 1
                self.under_way[tag] = piece
                self._is_ready(name, lane)
                return piece
        return None

    def confirmed(self, tag: int) -> None:
        """The broker has a message."""
        piece = self.under_way.pop(tag, None)
        if piece is not None and self._copies == 0:
            self._holds(piece.name, self._lanes[piece.name], piece.last)

    def failed(self, tag: int) -> None:
        """The broker doesn't have a message: it goes again, with all after it."""
        piece = self.under_way.pop(tag, None)
        if piece is not None:
            self._rewind(piece.name, piece.first)

    def _rewind(self, name: str, number: int) -> None:
        lane = self._lanes[name]
        lane.next = max(lane.first, min(lane.next, number))
        self._is_ready(name, lane)

    def lost(self) -> None:
        """The connection is lost, and with it what is known of all that is under way."""
        for tag in list(self.under_way):
            self.failed(tag)

    # ---- what followers tell ------------------------------------------------------------

    def told(self, follower: str, numbers: Mapping[str, int]) -> None:
        """A follower has so many events of these streams."""
        for name, number in numbers.items():
            lane = self._lanes.get(name)
            if lane is not None:
                lane.told[follower] = number
                most = sorted(lane.told.values(), reverse=True)
                if self._copies and len(most) >= self._copies:
                    self._holds(name, lane, most[self._copies - 1])

    def _holds(self, name: str, lane: Lane, held: int) -> None:
        if held > lane.held:
            self.done += held - lane.held
            lane.held = held
            lane.let_go(held)
        need = self.needs.get(name)
        if need is not None and held >= need.until:
            del self.needs[name]

    def wanted(self, name: str, events: int, now: float) -> bool:
        """A follower has so many events of a stream and misses the next. False where that isn't here."""
        lane = self._lanes.get(name)
        if lane is None or events + 1 < lane.first:
            return False
        busy = any(piece.name == name for piece in self.under_way.values())
        if not busy and events + 1 < lane.next and now >= lane.asked_at + AGAIN:
            lane.asked_at = now
            self._rewind(name, events + 1)
        return True

    def nudge(self) -> None:
        """Sends the last frame of each lane again that stands as it stood the time before. The answer says
        what is there."""
        busy = {piece.name for piece in self.under_way.values()}
        for name, lane in self._lanes.items():
            stands, lane.seen = lane.seen == (lane.held, lane.last), (lane.held, lane.last)
            if stands and lane.frames and lane.next > lane.last and name not in busy:
                self._rewind(name, lane.last)

    def held(self, name: str) -> int:
        """How many events of a stream enough followers have."""
        lane = self._lanes.get(name)
        return 0 if lane is None else lane.held

    @property
    def left(self) -> int:
        """How many frames stand that followers haven't told of."""
        return sum(len(lane.frames) for lane in self._lanes.values()) // SIZE
