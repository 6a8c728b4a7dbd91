"""The connection of a store, shared by threads: who waits moves the bytes for all who wait."""

from __future__ import annotations

import os
import threading
import warnings
from collections import defaultdict, deque
from collections.abc import Callable, Iterator, Sequence
from contextlib import contextmanager, suppress
from itertools import starmap
from typing import TypeVar

from . import calls, older
from .backends import File, Name, backend_of
from .base import Base
from .calls import Call
from .codec import Codec, Translator
from .connection import RENEW_AT, Connection
from .errors import CursorBusyError, ProcessEndedError, ReopenedWarning, StoreClosedError
from .pipeline import Commands, Request
from .program import StorePath
from .records import Window
from .wire import MOST_ROWS, Reply

T = TypeVar("T")
LOOK_AGAIN = 0.1


def without(lock: threading._RLock, work: Callable[[], None]) -> None:
    """Does something while a lock is free, which is held again afterwards, also where an interrupt comes.

    What is called by one call has no interrupt between it and the note that it was done.
    """
    free: list[None] = []
    held: list[bool] = []
    interrupted: BaseException | None = None
    try:
        free.extend(starmap(lock.release, [()]))
        work()
    finally:
        while free and not held:
            try:
                held.extend(starmap(lock.acquire, [()]))
            except BaseException as error:      # while it was waited for
                interrupted = error
    if interrupted is not None:
        raise interrupted


class Channel(Base[Connection]):
    """A store's connection, its sessions, and its cursors."""

    def __init__(self, path: StorePath, *, program: File | None = None,
                 translator: Translator | None = None, existing: bool = False,
                 checked: bool | None = None, renew_at: int = RENEW_AT,
                 backend: Name | None = None, library: File | None = None) -> None:
        super().__init__(path, backend_of(backend, program, library), program, translator, existing, checked,
                         renew_at)
        # Held by itself: no interrupt comes between its taking and the `with` that gives it back.
        self._lock = threading.RLock()
        self._changed = threading.Condition(self._lock)
        self._mine = threading.local()
        self._let_go: deque[tuple[int, Connection]] = deque()
        self._pumping = False
        self._alone: defaultdict[str, threading.RLock] = defaultdict(threading.RLock)
        self._owner = os.getpid()
        self._connection = self._start()

    def _start(self) -> Connection:
        self._let_go.clear()
        return super()._start()

    def _up(self) -> Connection:
        """The connection that is up. One that has ended is made again, once, and that is said."""
        self._must_be_mine()
        if self._connection is None:
            self._connection = self._start()
            warnings.warn(ReopenedWarning(f"{self.path}: {self._backend.ended}; opened again"),
                          stacklevel=6)
        return self._connection

    def _ready(self) -> None:
        """Before the names are written: the process is up, so the store is locked and they are known."""
        self._must_be_mine()
        with self._lock:
            self._up()

    def _must_be_mine(self) -> None:
        if self._closed or self._owner != os.getpid():
            raise StoreClosedError(f"{self.path} is closed, or was opened by another process")

    def _renew(self) -> None:
        """Lets another process take the place of one that has taken much. What is under way is answered
        before, and whoever wants to send more meanwhile waits here."""
        while (old := self._outlived()) is not None:
            if old.idle:
                self._put_down(old)
                self._connection = old.successor = self._start()
            else:
                self._pump()

    def _put_down(self, connection: Connection) -> None:
        """Ends a connection in order."""
        self._connection = None
        connection.close()

    @contextmanager
    def _session(self) -> Iterator[int]:
        """A session for a call. Where all are taken it waits. A call within a call has the same."""
        held: int | None = getattr(self._mine, "session", None)
        if held is not None:
            yield held
            return
        self._must_be_mine()    # before the lock, which another thread may have held at a fork
        with self._lock:
            while (session := self._sessions.take()) is None:
                self._changed.wait()
        self._mine.session = session
        try:
            yield session
        finally:
            self._mine.session = None
            with self._lock:
                self._sessions.give(session)
                self._changed.notify_all()

    def _is_mine(self) -> bool:
        """Whether this thread is in a call."""
        return getattr(self._mine, "session", None) is not None

    def _submit(self, request: Request, only: Connection | None = None) -> Connection:
        """Sends a request: where a process is named, to that one or its successor, or to none."""
        with self._lock:
            self._renew()
            if only is not None and only.newest() is not self._connection:
                request.finish(request.interrupted(only.failure()))
                return only
            connection = self._up()
            if connection.refuses(request):
                return connection
            try:
                connection.add(request)
            except BaseException:
                self._abandon(connection)
                raise
            return connection

    def _wait(self, request: Request) -> None:
        """Waits for the replies. One of those who wait moves the bytes for all."""
        with self._lock:
            while not request.done:
                self._pump()

    def _pump(self) -> None:
        """Moves bytes, or waits while another thread does."""
        if self._pumping:
            self._changed.wait()
            return
        self._pumping = True
        try:
            self._step()
        finally:
            self._pumping = False
            self._changed.notify_all()

    def _step(self) -> None:
        """Does what can be done, after waiting for that. The lock is free meanwhile."""
        connection = self._connection
        assert connection is not None
        without(self._lock, connection.poll)
        if connection is not self._connection:
            return      # another thread has given it up
        try:
            connection.flush()
            more = connection.fill()
        except BaseException:
            self._abandon(connection)
            raise
        if not more:
            self._connection = None
            connection.end()

    def _abandon(self, connection: Connection) -> None:
        """Gives a connection up: what it has been told, or what it says, isn't known any more."""
        self._connection = None
        connection.abandon()

    def send(self, lines: Sequence[str]) -> Commands:
        """Sends commands of the program as they are, and waits for their replies."""
        self._close_let_go()
        with self._session() as session:
            request = Commands(session, lines)
            self._submit(request)
            self._wait(request)
            return request

    def _do(self, call: Call[T]) -> T:
        return older.answer(call, self._replies)

    def _replies(self, lines: Sequence[str]) -> Sequence[Reply]:
        request = self.send(lines)
        if request.error is not None:
            raise request.error
        return request.replies

    def _do_in(self, call: Call[T], session: int, only: Connection) -> T:
        """A call of a cursor, in its session and with its process."""
        request = Commands(session, call.lines)
        self._submit(request, only)
        self._wait(request)
        if request.error is not None:
            raise request.error
        return call.answer(request.replies)

    def close(self) -> None:
        """Ends the connection in order, after all that is under way. Twice does no harm."""
        if self._owner != os.getpid():
            return
        with self._lock:
            if self._closed:
                return
            while self._connection is not None and not self._connection.idle:
                self._pump()
            self._closed = True
            if self._connection is not None:
                self._put_down(self._connection)

    # ---- cursors ------------------------------------------------------------------------

    def open_cursor(self, codec: Codec) -> tuple[int, Connection]:
        """A session with a cursor of a stream, and the process that it belongs to."""
        owner = threading.get_ident()
        with self._lock:
            self._close_let_go()
            connection = self._up()
            while (session := self._sessions.take_cursor(owner)) is None:
                if self._sessions.holds_all(owner):
                    raise CursorBusyError("BUSY", "windows", "this thread has eight iterators open")
                self._changed.wait(LOOK_AGAIN)      # an iterator that is let go tells nobody
                self._close_let_go()
                connection = self._up()     # the cursors of one that has ended are gone
        try:
            self._do_in(calls.cursor_open(codec), session, connection)
        except BaseException:
            self._give_cursor(session, connection)
            raise
        return session, connection

    def read_cursor(self, codec: Codec, session: int, connection: Connection) -> Sequence[Window]:
        """The next windows of a cursor."""
        return self._do_in(calls.cursor_next(codec, MOST_ROWS), session, connection)

    def close_cursor(self, session: int, connection: Connection) -> None:
        """Ends a cursor, if its process is up."""
        if self._connection is connection and self._owner == os.getpid():
            try:
                self._do_in(calls.cursor_close(), session, connection)
            finally:
                self._give_cursor(session, connection)

    def let_go(self, session: int, connection: Connection) -> None:
        """An iterator is gone that wasn't closed. It may be gone at any place, so the next call does it."""
        self._let_go.append((session, connection))

    def _close_let_go(self) -> None:
        while True:
            try:
                gone = self._let_go.popleft()
            except IndexError:      # none is left, or another thread has taken it
                return
            with suppress(ProcessEndedError):    # then the cursor has ended too, and the call is told
                self.close_cursor(*gone)

    def _give_cursor(self, session: int, connection: Connection) -> None:
        with self._lock:
            if self._connection is connection:
                self._sessions.give_cursor(session)
            self._changed.notify_all()
