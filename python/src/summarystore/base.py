"""What both faces of a store have: where it lies, by what it is asked, its sessions and its streams."""

from __future__ import annotations

import os
import time
import warnings
from collections.abc import Sequence
from typing import Generic, TypeVar

from . import program as programs
from .backends import Backend, File, Name
from .codec import Codec, Plain, Translator
from .connection import Connection, connect, connect_to_copy
from .description import Description
from .errors import DiskFullError, ReadsOnlyWarning
from .pipeline import Request
from .program import StorePath
from .records import Soundness, Time
from .sessions import Sessions

AGAIN = 10.0
"""A store whose disk was full is tried again after so many seconds."""


C = TypeVar("C", bound=Connection)


class Base(Generic[C]):
    """A store with at most one connection. With `existing` it has to be there, and isn't made.

    One that is made is checked, and with False for `checked` plain. With True one that stands has to be
    checked.
    """

    def __init__(self, path: StorePath, backend: Backend[C], program: File | None,
                 translator: Translator | None, existing: bool, checked: bool | None, renew_at: int) -> None:
        self.path = os.path.abspath(os.fsdecode(path))
        self._backend = backend
        self._program = program
        self._translator: Translator = Plain() if translator is None else translator
        self._existing = existing
        self._checked = checked
        self._renew_at = renew_at
        self._sessions = Sessions()
        self._connection: C | None = None
        self._closed = False

    @property
    def backend(self) -> Name:
        """By what it is asked: the `library` in this process, or the `program` as a process of its own."""
        return self._backend.name

    def _start(self) -> C:
        """A new connection. A store that is gone by then isn't made anew."""
        self._sessions.forget_cursors()
        try:
            connection = connect(self._backend.open, self.path, self._translator, self._existing,
                                 self._checked)
        except DiskFullError as full:
            connection = connect_to_copy(self._backend.open, self.path, self._translator, full)
            told = ReadsOnlyWarning(f"{self.path}: the disk is full, and a copy is read")
            warnings.warn(told, stacklevel=5)
        self._existing = True
        return connection

    @property
    def full(self) -> DiskFullError | None:
        """Why the store is only read: its disk was full at its opening. It is tried again after a while."""
        return None if self._connection is None else self._connection.full

    def _outlived(self) -> C | None:
        """The connection that is up, where it has taken so much that another is to take its place.

        A copy is looked after, too: there may be room for the store again. A cursor keeps either.
        """
        connection = self._connection
        if connection is None or self._sessions.cursors:
            return None
        long = connection.full is not None and time.monotonic() > connection.begun + AGAIN
        return connection if long or connection.sent > self._renew_at else None

    def _call_off(self, requests: Sequence[Request]) -> None:
        """Takes back what isn't written yet of requests that aren't done."""
        for request in requests:
            if self._connection is not None:
                self._connection.withdraw(request)
            elif not request.done:      # it was never handed over
                request.finish()

    def _look_over(self) -> Soundness:
        return programs.check(self.path, self._program, existing=True)

    @property
    def pid(self) -> int | None:
        """The number of the program's process, if one is up. The library has none."""
        connection = self._connection
        return None if connection is None else connection.pid

    def codec(self, name: str) -> Codec:
        """How a stream's times and values become whole numbers, and back."""
        return self._translator.codec(name)

    def description(self, name: str) -> Description | None:
        """How a stream is read. None where it takes and gives whole numbers."""
        return self.codec(name).description

    def now(self, name: str) -> Time:
        """The present time of a described stream."""
        codec = self.codec(name)
        return codec.time_back(codec.now())
