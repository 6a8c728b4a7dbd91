"""What a store is asked through while it is open, and what the program as a process is of that."""

from __future__ import annotations

import select
import time
from collections.abc import Callable
from typing import TypeVar

from .codec import Translator
from .errors import DiskFullError, LockedError, ProcessEndedError, ProtocolError, ending_of
from .held import how_to_connect
from .pipeline import Commands, Pipeline, Request
from .program import Process
from .reading import copied
from .wire import CURSOR_CLOSE, LIST

# A process takes at most 2^36 bytes of input. Long before that another takes its place.
RENEW_AT = 1 << 35


class Connection:
    """An open store, and the requests that are under way.

    Who waits for one calls `poll`, which may take long, and beside which others may `add` some. After
    that `flush` and `fill` do what is done at once.
    """

    def __init__(self, path: str) -> None:
        self._path = path
        self.successor: Connection | None = None
        """What took its place, in order: who speaks with this one goes on with that."""
        self.full: DiskFullError | None = None
        """Why it has a copy of the store, which is only read."""
        self.begun = time.monotonic()
        self._ended = False
        self._status = 0
        self._text = ""

    def newest(self) -> Connection:
        """What takes what is for this one: itself, or the last of its successors."""
        found = self
        while found.successor is not None:
            found = found.successor
        return found

    def refuses(self, request: Request) -> bool:
        """Whether a request would change a copy. Then it is done, and nothing of it was sent."""
        if self.full is None or not request.changes:
            return False
        request.finish(request.interrupted(DiskFullError(self.full.status, self.full.text)))
        return True

    def failure(self) -> ProcessEndedError:
        """The exception for how it ended."""
        return ending_of(self._status, self._text, self._path)

    @property
    def pid(self) -> int | None:
        """The number of its process, where it has one."""
        return None

    @property
    def idle(self) -> bool:
        """Whether each request has its replies."""
        raise NotImplementedError

    @property
    def sent(self) -> int:
        """How many bytes it has taken, of those that one of its kind takes."""
        return 0

    @property
    def is_due(self) -> bool:
        """Whether what is queued waits for somebody who waits for it, and for too long by now."""
        return False

    def add(self, request: Request) -> None:
        """Queues a request."""
        raise NotImplementedError

    def withdraw(self, request: Request) -> None:
        """Takes back what isn't sent yet of a request, if it isn't done."""
        raise NotImplementedError

    def poll(self) -> None:
        """Does, or waits for, what brings the requests further."""
        raise NotImplementedError

    def flush(self) -> None:
        """Sends what may be sent at once."""

    def fill(self) -> bool:
        """Takes the replies that are there. False where the store is open no more."""
        raise NotImplementedError

    def end(self) -> int:
        """It has ended, or is to end now: tells the open requests, and gives the status."""
        raise NotImplementedError

    def abandon(self) -> None:
        """Ends it at once, since it can't be told any more what it says."""
        raise NotImplementedError

    def close(self) -> None:
        """Ends it in order. Nothing may be open. Raises where it doesn't end with 0."""
        raise NotImplementedError


class ProcessConnection(Connection):
    """A process of the program that is up, and the requests that are open with it."""

    def __init__(self, program: str, path: str, existing: bool, checked: bool | None) -> None:
        super().__init__(path)
        self.process = Process(program, path, existing, checked)
        self.pipeline = Pipeline()
        self._poll = select.poll()
        self._poll.register(self.process.output, select.POLLIN)
        self._poll.register(self.process.input, 0)

    @property
    def pid(self) -> int | None:
        return self.process.pid

    @property
    def idle(self) -> bool:
        return self.pipeline.idle

    @property
    def sent(self) -> int:
        return self.pipeline.sent

    def add(self, request: Request) -> None:
        """Queues a request, and writes what the pipe takes."""
        self.pipeline.add(request)
        self.flush()

    def withdraw(self, request: Request) -> None:
        self.pipeline.withdraw(request)

    def flush(self) -> None:
        """Writes what the pipe takes."""
        pipeline = self.pipeline
        while pipeline.unwritten:
            if not self.process.write(pipeline.next_write()):
                pipeline.not_written()
                return
            pipeline.wrote()

    def poll(self) -> None:
        """Waits until the program has said something, or takes more."""
        self._poll.modify(self.process.input, select.POLLOUT if self.pipeline.unwritten else 0)
        self._poll.poll()

    def fill(self) -> bool:
        """Takes what has come. False where the program has ended, or what came is no reply."""
        while True:
            data = self.process.read()
            if data is None:
                return True
            if data == b"":
                return False
            self.pipeline.received(data)
            if len(data) < 4096:
                return True

    def end(self) -> int:
        """The process has ended, or is to end now: tells the open requests, and gives the status."""
        if self._ended:
            return self._status
        self._ended = True
        try:
            self._status, self._text = self.process.ended(self.pipeline.said.decode("utf-8", "replace"))
        finally:    # also where the wait for it is interrupted: who waits is told
            self.pipeline.ended(self.failure)
        return self._status

    def abandon(self) -> None:
        self.process.kill()
        self.end()

    def close(self) -> None:
        """Lets the process end in order. Nothing may be open. Raises where it doesn't end with 0."""
        self._poll.unregister(self.process.input)
        self.process.end_input()
        more = True
        while more:
            self._poll.poll()
            more = self.fill()
        if self.end() != 0:
            raise self.failure()


C = TypeVar("C", bound=Connection)
Opens = Callable[[str, bool, bool | None], C]
"""Opens the store at a path: whether it has to be there, and whether it is to be a checked one."""


def connect(opens: Opens[C], path: str, translator: Translator, existing: bool, checked: bool | None) -> C:
    """Waits until a store is open. Tells the streams, where they are asked for."""
    connection = opens(path, existing, checked)
    request = Commands(0, [LIST if translator.lists else CURSOR_CLOSE])
    try:
        connection.add(request)
        while not request.done:
            connection.poll()
            connection.flush()
            if not connection.fill():
                connection.end()
        if request.error is not None:
            if isinstance(request.error, LockedError):
                request.error.text += how_to_connect(path)
            if isinstance(request.error, ProcessEndedError):
                request.error.unknown = request.error.not_stored = ()    # nothing of anybody's
            raise request.error
        head, rows = request.replies[0]
        if head.partition(" ")[0] != "list" if translator.lists else head != "refused NO_CURSOR":
            raise ProtocolError(f"not the program's mode `sessions`: {head[:200]}")
        if translator.lists:
            translator.learn(rows)
    except BaseException:
        connection.abandon()
        raise
    return connection


def connect_to_copy(opens: Opens[C], path: str, translator: Translator, full: DiskFullError) -> C:
    """The same over a copy of a store whose disk is full."""
    with copied(path, full) as copy:
        connection = connect(opens, copy, translator, True, None)
    connection.full = full
    return connection
