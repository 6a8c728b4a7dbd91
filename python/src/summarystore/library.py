"""The shared library `libsummarystore`: where it is, its calls, and a store that it has open."""

from __future__ import annotations

import ctypes
import os
import threading
import weakref
from collections.abc import Callable
from contextlib import suppress
from ctypes import byref, c_char_p, c_int, c_int64, c_size_t, c_uint, c_uint64, c_void_p, string_at
from functools import cache
from typing import Any

from .errors import LibraryMissingError

VARIABLE = "SUMMARYSTORE_LIBRARY"
NAME = "libsummarystore.so.1"
EXISTING, CHECKED, BATCH = 1, 2, 4
BUSY, MISUSE, REFUSED = 5, 64, 128
"""Another has the file, a call that can't be meant, and the first of the refusals."""
IN_USE = "another process uses it"
PATIENCE = 10.0
"""So many seconds another thread may be in a call when a store is closed that nobody holds any more."""


class Text(ctypes.Structure):
    """Some bytes of a reply. They stay until the next call."""

    _fields_ = [("at", c_void_p), ("length", c_size_t)]
    at: int | None
    length: int

    @property
    def content(self) -> bytes:
        """The bytes."""
        return string_at(self.at, self.length) if self.at is not None else b""


class Ack(ctypes.Structure):
    """The numbers of an `ok`."""

    _fields_ = [("values", c_uint64), ("windows", c_uint64)]
    values: int
    windows: int


# The calls that are taken, each with what it gives and takes.
CALLS: dict[str, tuple[Any, list[Any]]] = {
    "open": (c_int, [c_char_p, c_size_t, c_uint, c_void_p]),
    "close": (c_int, [c_void_p]),
    "status": (c_int, [c_void_p]),
    "message": (c_char_p, [c_void_p]),
    "call": (c_int, [c_void_p, c_char_p, c_size_t, c_void_p]),
    "next": (c_int, [c_void_p, c_void_p]),
    "append": (c_int, [c_void_p, c_char_p, c_size_t, c_uint64, c_int64, c_void_p]),
    "append_many": (c_int, [c_void_p, c_char_p, c_size_t, c_void_p, c_void_p, c_size_t, c_void_p, c_void_p]),
    "seal": (c_int, [c_void_p]),
    "refusal": (c_char_p, [c_int]),
}


class Library:
    """The library, once it is loaded."""

    def __init__(self, path: str) -> None:
        self.path = path
        try:
            loaded = ctypes.CDLL(path)
            for name, (gives, takes) in CALLS.items():
                call = getattr(loaded, f"summarystore_{name}")
                call.restype, call.argtypes = gives, takes
                setattr(self, name, call)
        except (OSError, AttributeError) as error:
            raise LibraryMissingError(f"no library libsummarystore at {path}: {error}") from None

    def __getattr__(self, name: str) -> Callable[..., Any]:
        """A call. The instance has them all, so that they are found at once."""
        raise AttributeError(name)

    def word_of(self, answer: int) -> str:
        """The word of a refusal."""
        return str(self.refusal(answer).decode("ascii"))


@cache
def load(path: str) -> Library:
    """The library at a path. It is loaded once."""
    return Library(path)


def find_library(library: str | os.PathLike[str] | None = None) -> Library:
    """The library given, that of the variable SUMMARYSTORE_LIBRARY, or the system's."""
    given = os.fspath(library) if library is not None else os.environ.get(VARIABLE)
    return load(os.path.abspath(given) if given else NAME)


def is_named() -> bool:
    """Whether the variable says which library is to be taken."""
    return bool(os.environ.get(VARIABLE))


class StoppedError(Exception):
    """The store has stopped, and its handle says why."""


class Handle:
    """A store that the library has open. One thread at a time is in a call, and others wait.

    Where it couldn't be opened it has stopped from the start.
    """

    def __init__(self, library: Library, path: str, flags: int) -> None:
        self.library = library
        self.status, self.text = 0, ""
        self._lock = threading.Lock()
        self._at = c_void_p()
        self._open: list[c_void_p | None] = [None, self._at]
        # Before it is opened: whatever comes between, it is closed.
        self._closer = weakref.finalize(self, _let_go, library, self._open, self._lock)
        known = descriptors_of(path)
        name = os.fsencode(path)
        answer = library.open(name, len(name), flags, byref(self._at))
        self._files = descriptors_of(path) - known
        _LIVE.add(self)
        if answer:
            self._stop(answer)
            if answer == BUSY:
                self.status, self.text = 4, f"{path}: {IN_USE}"
            elif answer == MISUSE:
                self.status, self.text = 4, f"{path}: the library takes paths in UTF-8"

    def _stop(self, answer: int) -> None:
        """Keeps why it has stopped."""
        self.text = (self.library.message(self._at) or b"").decode("utf-8", "replace")
        self.status = answer

    def _do(self, call: Callable[..., int], *words: object) -> int:
        """A call: 0, or a refusal. Raises where the store has stopped, and at what can't be meant."""
        with self._lock:
            if self.status or not self._open:
                raise StoppedError
            answer = call(self._at, *words)
            if answer and answer < REFUSED:
                self._stop(answer)
                raise StoppedError
            return answer

    def call(self, line: bytes, reply: Text) -> None:
        """Does one line. What it changes is on the disk then, and all that waited."""
        self._do(self.library.call, line, len(line), byref(reply))

    def next(self) -> bytes:
        """Further rows of the reply to the last line, and nothing where there are no more."""
        rows = Text()
        self._do(self.library.next, byref(rows))
        return rows.content

    def append(self, name: bytes, time: int, value: int, ack: Ack) -> int:
        """Takes a value, which waits then. Gives 0, or a refusal."""
        return self._do(self.library.append, name, len(name), time, value, byref(ack))

    def append_many(self, name: bytes, times: int, values: int, count: int, taken: c_size_t) -> int:
        """Takes values from two arrays at these places until one is refused. They wait then."""
        return self._do(self.library.append_many, name, len(name), times, values, count, byref(taken), None)

    def seal(self) -> None:
        """Brings what waits to the disk."""
        self._do(self.library.seal)

    def close(self) -> int:
        """Closes it. Gives the status, which is 0 as a rule. Twice does no harm."""
        with self._lock:
            return _close(self.library, self._open)

    def forget(self) -> None:
        """In a child of this process: it is the parent's, so nothing of it is written or given back."""
        self._closer.detach()
        if self._open:
            self._open.clear()
            for file in self._files:
                os.close(file)


def _close(library: Library, opened: list[c_void_p | None]) -> int:
    """Closes what is open, if it is still. No interrupt comes between the two halves of that, since both
    are called by one call."""
    return sum(map(library.close, iter(opened.pop, None))) if opened else 0


def _let_go(library: Library, opened: list[c_void_p | None], lock: threading.Lock) -> None:
    """Closes what nobody holds any more. At the end of the process a thread may still be in a call."""
    if lock.acquire(timeout=PATIENCE):
        _close(library, opened)


def descriptors_of(path: str) -> set[int]:
    """The descriptors by which this process has a file open, as far as the system tells them."""
    found = set()
    with suppress(OSError):
        file = os.stat(path)
        for each in map(int, os.listdir("/proc/self/fd")):
            with suppress(OSError):     # that of the listing is closed by now
                if os.path.samestat(os.fstat(each), file):
                    found.add(each)
    return found


_LIVE: weakref.WeakSet[Handle] = weakref.WeakSet()


def _after_fork() -> None:
    """A copy of a file in a child would keep the lock of the store after its close."""
    for handle in list(_LIVE):
        handle.forget()


os.register_at_fork(after_in_child=_after_fork)
