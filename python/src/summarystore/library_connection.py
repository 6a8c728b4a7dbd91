"""A store that the library has open in this process, and the requests that are under way."""

from __future__ import annotations

import time

from . import library as libraries
from .connection import Connection
from .library import Handle, Library, StoppedError
from .library_tasks import Task, Work, task_of
from .pipeline import Request
from .program import is_unmade

SOON = 0.02
"""Rows that come slowly are stored after so many seconds, and don't wait for others."""


class LibraryConnection(Connection):
    """A handle of the library. Who waits first does what all have queued, and brings it to the disk."""

    def __init__(self, library: Library, path: str, existing: bool, checked: bool | None) -> None:
        super().__init__(path)
        wanted = is_unmade(path) if checked is None else checked
        flags = (libraries.BATCH | (libraries.EXISTING if existing else 0)
                 | (libraries.CHECKED if wanted else 0))
        self._work = Work(Handle(library, path, flags))
        self._broken: Exception | None = None
        self._polled = time.monotonic()

    @property
    def _handle(self) -> Handle:
        return self._work.handle

    @property
    def idle(self) -> bool:
        return not self._work.tasks

    @property
    def is_due(self) -> bool:
        return time.monotonic() > self._polled + SOON

    def add(self, request: Request) -> None:
        self._work.tasks.append(task_of(request))

    def withdraw(self, request: Request) -> None:
        """Does no more of a request than was begun."""
        for task in list(self._work.tasks):
            if task.request is request:
                task.left = True
                return
        if not request.done:    # it was never handed over
            request.count = request.written
            request.finish()

    def poll(self) -> None:
        """Does what is queued, and brings it to the disk."""
        work = self._work
        if work.handle.status:
            return      # it couldn't be opened
        self._polled = time.monotonic()
        try:
            for task in list(work.tasks):
                task.go_on(work)
            if work.waits:
                work.handle.seal()
            work.settle()
        except StoppedError:
            pass    # the handle has it
        except Exception as error:      # what was said is no reply: whoever has the lock gives it up
            self._broken = error

    def fill(self) -> bool:
        """Tells the requests that are done. False where the store has stopped."""
        if self._broken is not None:
            raise self._broken
        tasks = self._work.tasks
        while tasks and is_done(tasks[0]):
            tasks[0].tell()
            tasks[0].request.count = tasks[0].request.written = tasks[0].done
            tasks[0].request.finish()
            tasks.popleft()
        return not self._handle.status

    def end(self) -> int:
        """The store has stopped, or is given up: tells the open requests, and gives the status."""
        if self._ended:
            return self._status
        self._ended = True
        try:
            status = self._handle.close()
            self._status, self._text = self._handle.status or status, self._handle.text
        finally:    # also where that is interrupted: it is closed, and who waits is told
            self._handle.close()
            self._tell_all()
        return self._status

    def _tell_all(self) -> None:
        for task in list(self._work.tasks):
            task.tell()
            whole = task.durable == task.request.count
            task.request.finish(None if whole else task.request.interrupted(self.failure()))
        self._work.tasks.clear()

    def abandon(self) -> None:
        self.end()

    def close(self) -> None:
        if self.end() != 0:
            raise self.failure()


def is_done(task: Task) -> bool:
    """Whether nothing of it is left to be done, and all is on the disk."""
    return task.durable == task.done and (task.left or task.done == task.request.count)
