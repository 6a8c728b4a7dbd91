"""What was sent, what has a reply, and what is open: the bookkeeping of one process, without I/O.

Replies come in the order of the lines, those of all sessions together. So what is open is a queue.
Lines go out in pieces of whole lines that are no longer than what a pipe takes at once or not at
all: where the sender is killed, the program never reads half of a line.
"""

from __future__ import annotations

import logging
import select
from collections import deque
from collections.abc import Callable, Sequence
from typing import Generic, TypeVar

from .errors import LateError, ProcessEndedError, ProtocolError, SummaryStoreError, refusal_of
from .wire import COMMAND, LONGEST_LINE, LONGEST_SENT, Lines, Reply, rows_after, tagged

log = logging.getLogger("summarystore")
ATOMIC = select.PIPE_BUF
LINE_REFUSED = b"refused LINE\n"
EVENTS = ("create ", "append ", "landmark ", "drop ")
"""How the commands begin that change a store."""
T = TypeVar("T")


class Request:
    """Lines that were handed over together, until each has its reply."""

    changes = False
    """Whether it would change the store."""

    def __init__(self, session: int, count: int) -> None:
        self.session = session
        self.tag = b"@%d " % session
        self.count = count
        self.written = 0
        self.answered = 0
        self.done = False
        self.error: SummaryStoreError | None = None
        self.when_done: Callable[[], None] | None = None

    @property
    def data(self) -> bytes:
        """The tagged lines, each with its line end."""
        raise NotImplementedError

    def take(self, block: bytes, at: int) -> int:
        """Takes whole lines of a block from a place on, and gives the place after them."""
        raise NotImplementedError

    def finish(self, error: SummaryStoreError | None = None) -> None:
        """Marks it as done, and tells who waits for it."""
        self.error = error
        self.done = True
        if self.when_done is not None:
            self.when_done()

    def interrupted(self, ended: ProcessEndedError) -> ProcessEndedError:
        """The process ended: says which of the lines were acknowledged, sent, and not sent."""
        raise NotImplementedError

    def line_of(self, block: bytes, at: int) -> tuple[str, int]:
        """The line at a place, without its session, and the place after it."""
        end = block.index(b"\n", at)
        if block.startswith(LINE_REFUSED, at):      # what is too long has no session
            return block[at:end].decode("ascii"), end + 1
        if not block.startswith(self.tag, at):
            raise ProtocolError(f"a line of session {self.tag.decode()}was to come: {block[at:end][:200]!r}")
        return block[at + len(self.tag):end].decode("utf-8", "replace"), end + 1


class Commands(Request):
    """Some commands, whose replies are kept whole, with their rows."""

    def __init__(self, session: int, lines: Sequence[str]) -> None:
        for line in lines:
            if len(line) > LONGEST_SENT:
                raise refusal_of("LINE", f"{line[:LONGEST_LINE]}..")
            if not COMMAND.fullmatch(line):
                raise refusal_of("SYNTAX", repr(line))
        super().__init__(session, len(lines))
        self.changes = any(line.startswith(EVENTS) for line in lines)
        self.lines = lines
        self.replies: list[Reply] = []
        self._head = ""
        self._rows: list[str] = []
        self._missing = 0

    @property
    def data(self) -> bytes:
        return tagged(self.session, self.lines)

    def take(self, block: bytes, at: int) -> int:
        while at < len(block) and not self.done:
            if self._missing:
                at = self._take_rows(block, at)
            else:
                self._head, at = self.line_of(block, at)
                self._rows = []
                self._missing = rows_after(self._head)
            if not self._missing:
                self.replies.append(Reply(self._head, self._rows))
                self.answered += 1
                if self.answered == self.count:
                    self.finish()
        return at

    def _take_rows(self, block: bytes, at: int) -> int:
        lines = block[at:].split(b"\n", self._missing)
        rest = lines.pop()
        tag, size = self.tag, len(self.tag)
        rows = [line[size:].decode("utf-8", "replace") for line in lines if line.startswith(tag)]
        if len(rows) != len(lines):
            raise ProtocolError(f"a row of another session came: {block[at:at + 200]!r}")
        self._rows += rows
        self._missing -= len(rows)
        return len(block) - len(rest)

    def interrupted(self, ended: ProcessEndedError) -> ProcessEndedError:
        ended.acknowledged = sum(reply.head.startswith("ok ") for reply in self.replies)
        ended.unknown = self.lines[self.answered:self.written]
        ended.not_stored = self.lines[self.written:]
        return ended


class Appends(Request, Generic[T]):
    """Appends of one stream, of whose replies only the refusals are kept."""

    changes = True
    each = 1
    """How many lines a row has, of which the last one is its own."""

    def __init__(self, session: int, readings: Lines, rows: Sequence[T]) -> None:
        super().__init__(session, self.each * len(rows))
        self.readings = readings
        self.rows = rows
        self.refused: list[tuple[T, SummaryStoreError]] = []
        self.last = ""
        self._ok = self.tag + b"ok "
        self._next = b"\n" + self._ok

    @property
    def data(self) -> bytes:
        return self.readings.lines(self.session)

    def take(self, block: bytes, at: int) -> int:
        missing = self.count - self.answered
        lines = block.count(b"\n", at)
        end = len(block)
        if lines > missing:
            end = at
            for _ in range(missing):
                end = block.index(b"\n", end) + 1
            lines = missing
        # All of them are `ok`: that many begin so, and none else.
        if block.startswith(self._ok, at) and block.count(self._next, at, end) == lines - 1:
            self.answered += lines
            start = block.rfind(b"\n", at, end - 1) + 1
            self.last, _ = self.line_of(block, max(start, at))
        else:
            while at < end:
                head, at = self.line_of(block, at)
                self._take_head(head)
        if self.answered == self.count:
            self.finish()
        return end

    def _take_head(self, head: str) -> None:
        if head.startswith("ok "):
            self.last = head
        elif head.startswith("refused "):
            self.refuse(self.answered, head[8:])
        else:
            raise ProtocolError(f"a reply to an append was to come: {head[:200]}")
        self.answered += 1

    def refuse(self, at: int, word: str) -> None:
        """A line was refused, by this word."""
        self._refuse(at, refusal_of(word, self.readings.line(at)))

    def _refuse(self, line: int, error: SummaryStoreError) -> None:
        self.refused.append((self.rows[line], error))

    @property
    def known(self) -> int:
        """Of how many rows it is known what became of them."""
        return self.answered // self.each

    @property
    def sent(self) -> int:
        """How many rows were written whole."""
        return self.written // self.each

    @property
    def stored(self) -> int:
        """How many were acknowledged."""
        return self.known - len(self.refused)

    def interrupted(self, ended: ProcessEndedError) -> ProcessEndedError:
        ended.acknowledged = self.stored
        ended.unknown = self.rows[self.known:self.sent]
        ended.not_stored = self.rows[self.sent:]
        return ended


class PairedAppends(Appends[T]):
    """Appends of one stream, before each of which one goes to another stream."""

    each = 2

    def _refuse(self, line: int, error: SummaryStoreError) -> None:
        """The other stream refuses what it has already: then its row was sent before."""
        if line % 2:
            super()._refuse(line // 2, error)
        elif not isinstance(error, LateError):
            log.error("increment not kept: %s", error)


class Pipeline:
    """The requests of one process that are open, and the bytes that are still to be written."""

    def __init__(self) -> None:
        self._open: deque[Request] = deque()
        self._pieces: deque[tuple[bytes, int, Request]] = deque()
        self._offered: list[tuple[bytes, int, Request]] = []
        self._rest = b""
        self.sent = 0
        self.said = b""
        self._began = False

    @property
    def idle(self) -> bool:
        """Whether each request has its replies."""
        return not self._open

    @property
    def unwritten(self) -> bool:
        """Whether there is something to write."""
        return bool(self._pieces)

    def add(self, request: Request) -> None:
        """Queues a request, cut into pieces of whole lines."""
        data, at = request.data, 0
        while at < len(data):
            end = len(data) if len(data) - at <= ATOMIC else data.rfind(b"\n", at, at + ATOMIC) + 1
            piece = data[at:end]
            self._pieces.append((piece, piece.count(b"\n"), request))
            at = end
        self._open.append(request)

    def next_write(self) -> bytes:
        """What to write next, at once: pieces that go together."""
        size, parts = 0, []
        self._offered = []
        for piece in self._pieces:
            if size + len(piece[0]) > ATOMIC:
                break
            size += len(piece[0])
            parts.append(piece[0])
            self._offered.append(piece)
        return parts[0] if len(parts) == 1 else b"".join(parts)

    def not_written(self) -> None:
        """What `next_write` gave was surely not written."""
        self._offered = []

    def wrote(self) -> None:
        """What `next_write` gave was written."""
        offered, self._offered = self._offered, []
        for data, lines, request in offered:
            self._pieces.popleft()
            request.written += lines
            self.sent += len(data)

    def received(self, data: bytes) -> None:
        """Takes what came from the program, and finishes the requests whose replies are there."""
        block = self._rest + data if self._rest else data
        cut = block.rfind(b"\n") + 1
        self._rest = block[cut:]
        if cut != len(block):
            block = block[:cut]
        if not self._began and block and not block.startswith(b"@"):
            # Arguments or a file that are refused: the program says why, and ends.
            self.said += block
            return
        self._began = self._began or cut > 0
        at = 0
        while at < cut:
            if not self._open:
                raise ProtocolError(f"a line came that nobody asked for: {block[at:at + 200]!r}")
            request = self._open[0]
            at = request.take(block, at)
            if request.done:
                self._open.popleft()

    def withdraw(self, request: Request) -> None:
        """Takes back the lines of a request that aren't written yet, if it isn't done. They have no
        reply then."""
        self._pieces = deque(piece for piece in self._pieces if piece[2] is not request)
        request.count = request.written
        if request.answered == request.written and not request.done:
            if request in self._open:
                self._open.remove(request)
            request.finish()

    def ended(self, error: Callable[[], ProcessEndedError]) -> None:
        """The process ended. Each open request is told what became of its lines."""
        self._pieces.clear()
        for _, lines, request in self._offered:     # interrupted there: it may be written
            request.written += lines
        self._offered = []
        requests, self._open = self._open, deque()
        for request in requests:
            request.finish(request.interrupted(error()))
