"""What the library is asked to do: the requests of a store, each brought further call by call.

An interrupt may come behind any call, and what the call answered is lost with it then. So each call that
changes the store has a place of its own, which the library fills. Who goes on looks there first, so
nothing is done twice. Questions are asked again.
"""

from __future__ import annotations

import re
from array import array
from collections import deque
from ctypes import c_size_t
from typing import Any, Protocol

from .errors import ProtocolError
from .library import Ack, Handle, Text
from .library_cursors import Cursors
from .pipeline import EVENTS, Appends, Commands, Request
from .wire import LONGEST_LINE, LONGEST_SENT, NAME, Readings, Reply, rows_after

APPEND = re.compile(r"append ([a-zA-Z0-9_.-]{1,32}) ([0-9]{1,19}) (-?[0-9]{1,19})")
UNFILLED = 2**64 - 1
"""What stands in a place until the library fills it, and no stream has so many values."""


class Task(Protocol):
    """A request that is under way."""

    left: bool
    """Whether no more of it is to be done."""
    durable: int
    """Of how many lines what they did is on the disk."""

    @property
    def request(self) -> Request:
        """The request."""

    @property
    def done(self) -> int:
        """How many of its lines were done."""

    def go_on(self, work: Work) -> None:
        """Does what is left of it."""

    def tell(self) -> None:
        """Puts what is on the disk into the request."""


class Work:
    """The requests that are under way with a handle, and whether something waits for its way to the disk."""

    def __init__(self, handle: Handle) -> None:
        self.handle = handle
        self.cursors = Cursors()
        self.tasks: deque[Task] = deque()
        self.waits = False

    def call(self, line: str, reply: Text) -> None:
        """Does a line. It and all that waited are on the disk then."""
        self.handle.call(line.encode("utf-8"), reply)
        if self.waits:
            self.settle()

    def settle(self) -> None:
        """Nothing waits any more."""
        for task in list(self.tasks):
            task.durable = task.done
        self.waits = False

    def ask(self, line: str) -> Reply:
        """The reply to a question, with all its rows."""
        head, rows = self.text(line)
        return Reply(head, rows.decode("utf-8").split("\n")[:-1] if rows else [])

    def text(self, line: str) -> tuple[str, bytearray]:
        """The head of the reply to a question, and the text of its rows, which may be long."""
        if is_too_long(line):
            return "refused LINE", bytearray()
        reply = Text()
        self.call(line, reply)
        first, _, begin = reply.content.partition(b"\n")
        head, rows = first.decode("utf-8"), bytearray(begin)
        wanted = rows_after(head) - rows.count(b"\n")
        while wanted > 0:
            piece = self.handle.next()
            if not piece:
                raise ProtocolError(f"{wanted} rows are missing: {head[:200]}")
            wanted -= piece.count(b"\n")
            rows += piece
        return head, rows

    def words(self, answer: int) -> str:
        """The reply of a refusal."""
        return f"refused {self.handle.library.word_of(answer)}"


def is_too_long(line: str) -> bool:
    """Whether the program takes no line of that length."""
    return len(line.encode("utf-8")) > LONGEST_LINE


class Lines:
    """Commands, one after the other."""

    def __init__(self, request: Commands) -> None:
        self.request = request
        self.left = False
        self.durable = 0
        self._replies: list[Reply] = []
        self._place: tuple[int, Text | Ack] = -1, Ack()

    @property
    def done(self) -> int:
        """How many have a reply."""
        return len(self._replies)

    def go_on(self, work: Work) -> None:
        """Does the lines that are left."""
        while (at := self.done) < self.request.count:
            reply = self._found(at)
            if reply is None:
                if self.left:
                    return
                self.request.written = at + 1
                reply = self._reply(at, self.request.lines[at], work)
            self._replies.append(reply)
            if not work.waits:
                self.durable = at + 1

    def tell(self) -> None:
        """Gives the replies."""
        self.request.replies = self._replies[:self.durable]
        self.request.answered = self.durable

    def _found(self, at: int) -> Reply | None:
        """What the library left for a line, where an interrupt came behind its call."""
        filled, place = self._place
        if filled != at:
            return None
        if isinstance(place, Ack):
            return Reply(f"ok {place.values} {place.windows}") if place.values != UNFILLED else None
        return Reply(place.content.decode("utf-8").rstrip("\n")) if place.at is not None else None

    def _reply(self, at: int, line: str, work: Work) -> Reply:
        found = APPEND.fullmatch(line)
        if found is not None and int(found[2]) < 2**64 and -2**63 <= int(found[3]) < 2**63:
            return self._append(at, found, work)
        if line.lstrip().startswith(EVENTS) and not is_too_long(line):
            text = Text()
            self._place = at, text
            work.call(line, text)
            return Reply(text.content.decode("utf-8").rstrip("\n"))
        named = self.request, at
        return work.cursors.reply(self.request.session, named, line, work.text) or work.ask(line)

    def _append(self, at: int, found: re.Match[str], work: Work) -> Reply:
        """A reading waits for others that come at once, so that they share their way to the disk."""
        ack = Ack(UNFILLED, 0)
        self._place = at, ack
        work.waits = True
        answer = work.handle.append(found[1].encode("ascii"), int(found[2]), int(found[3]), ack)
        return Reply(work.words(answer) if answer else f"ok {ack.values} {ack.windows}")


class Rows:
    """Readings, which go to the library in arrays."""

    def __init__(self, request: Appends[Any], readings: Readings) -> None:
        self.request = request
        self.left = False
        self.done = self.durable = 0
        self._name = readings.name.encode("ascii")
        self._times = array("Q", readings.numbers[::2])
        self._values = array("q", readings.numbers[1::2])
        self._refused: dict[int, str] = {}
        self._place = -1, c_size_t(UNFILLED)

    def go_on(self, work: Work) -> None:
        """Takes the rows that are left."""
        while self.done < self.request.count:
            at, taken = self._place
            if at == self.done and taken.value not in (0, UNFILLED):
                self.done = at + taken.value
            elif self.left:
                return
            else:
                self._take(work)
            if not work.waits:
                self.durable = self.done

    def _take(self, work: Work) -> None:
        at, rest, taken = self.done, self.request.count - self.done, c_size_t(UNFILLED)
        self._place = at, taken
        self.request.written = self.request.count     # each of them may be stored from here on
        work.waits = True
        times, values = (each.buffer_info()[0] + each.itemsize * at for each in (self._times, self._values))
        answer = work.handle.append_many(self._name, times, values, rest, taken)
        if answer and not taken.value:
            self._refused[at] = work.words(answer)
            self.done = at + 1

    def tell(self) -> None:
        """Says which were refused, and of how many that is known."""
        tell_rows(self.request, self._refused, self.durable)


class RowsByLines:
    """Readings of two streams in turn, and those of which one isn't of 64 bits."""

    def __init__(self, request: Appends[Any]) -> None:
        self.request = request
        lines = [request.readings.line(at)[:LONGEST_SENT] for at in range(request.count)]
        self._commands = Commands(0, lines)
        self._lines = Lines(self._commands)

    @property
    def left(self) -> bool:
        """Whether no more of them are to be taken."""
        return self._lines.left

    @left.setter
    def left(self, left: bool) -> None:
        self._lines.left = left

    @property
    def durable(self) -> int:
        """How many are on the disk."""
        return self._lines.durable

    @durable.setter
    def durable(self, durable: int) -> None:
        self._lines.durable = durable

    @property
    def done(self) -> int:
        """How many have a reply."""
        return self._lines.done

    def go_on(self, work: Work) -> None:
        """Takes the lines that are left."""
        try:
            self._lines.go_on(work)
        finally:
            self.request.written = self._commands.written

    def tell(self) -> None:
        """Says which were refused, and of how many that is known."""
        self._lines.tell()
        refused = {at: reply.head for at, reply in enumerate(self._commands.replies)
                   if reply.head.startswith("refused ")}
        tell_rows(self.request, refused, self.durable)


def tell_rows(request: Appends[Any], refused: dict[int, str], known: int) -> None:
    """Says of readings which were refused, and of how many that is known."""
    request.refused.clear()
    for at in sorted(refused):
        if at < known:
            request.refuse(at, refused[at].removeprefix("refused "))
    request.answered = known


def task_of(request: Request) -> Task:
    """A request as the library does it."""
    if isinstance(request, Commands):
        return Lines(request)
    assert isinstance(request, Appends)
    readings = request.readings
    if isinstance(readings, Readings) and NAME.fullmatch(readings.name):
        try:
            return Rows(request, readings)
        except OverflowError:
            pass    # the program says of its line why it is refused
    return RowsByLines(request)
