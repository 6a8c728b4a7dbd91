"""Waiting for what others do: processes, servers, a browser. All of it goes through here.

What doesn't come in time raises `TooLate`, and nothing else does. On a busy machine that is no fault of what
is tested. A wrong result is any other exception.
"""

from __future__ import annotations

import asyncio
import subprocess
import threading
import time
from collections.abc import Awaitable, Callable, Coroutine
from concurrent.futures import Future
from typing import TypeVar

SECONDS = 120.0
"""So long may anything take on a busy machine."""
WHOLE = 300.0
"""And so long all of a test in an event loop."""
PAUSE = 0.02
T = TypeVar("T")


class TooLate(AssertionError):
    """Something didn't come in time."""


def until(true: Callable[[], object], seconds: float = SECONDS, said: Callable[[], object] = str) -> None:
    """Waits until something is so. `said` tells what there is to know where it isn't."""
    end = time.monotonic() + seconds
    while not true():
        if time.monotonic() > end:
            raise TooLate(f"not so within {seconds:.0f} s: {said()}")
        time.sleep(PAUSE)


async def soon(true: Callable[[], object], seconds: float = SECONDS, said: Callable[[], object] = str
               ) -> None:
    """Waits until something is so, while the loop goes on."""
    end = time.monotonic() + seconds
    while not true():
        if time.monotonic() > end:
            raise TooLate(f"not so within {seconds:.0f} s: {said()}")
        await asyncio.sleep(PAUSE)


async def within(work: Awaitable[T], seconds: float = SECONDS) -> T:
    """Waits for what a coroutine gives."""
    begin = time.monotonic()
    try:
        return await asyncio.wait_for(work, seconds)
    except asyncio.TimeoutError:
        if time.monotonic() < begin + seconds:
            raise       # another's
        raise TooLate(f"not done within {seconds:.0f} s") from None


def run(work: Coroutine[object, object, T], seconds: float = WHOLE) -> T:
    """Runs the coroutine of a test."""
    return asyncio.run(within(work, seconds))


def result_of(future: Future[T], seconds: float = SECONDS) -> T:
    """Waits for what another thread does."""
    try:
        return future.result(seconds)
    except TimeoutError:
        if future.done():
            raise       # its own
        raise TooLate(f"not done within {seconds:.0f} s") from None


def joined(thread: threading.Thread, seconds: float = SECONDS) -> None:
    """Waits until a thread has ended."""
    thread.join(seconds)
    if thread.is_alive():
        raise TooLate(f"a thread doesn't end within {seconds:.0f} s")


def ended(process: subprocess.Popen[bytes] | subprocess.Popen[str], seconds: float = SECONDS,
          said: Callable[[], object] = str) -> int:
    """Waits until a process has ended. Gives its status."""
    try:
        return process.wait(seconds)
    except subprocess.TimeoutExpired:
        raise TooLate(f"{process.args!r} doesn't end within {seconds:.0f} s: {said()}") from None


def in_time(begun: float, seconds: float) -> None:
    """What began at a time of the monotonic clock was to be done within so many seconds."""
    took = time.monotonic() - begun
    if took > seconds:
        raise TooLate(f"it took {took:.1f} s, and not at most {seconds:.0f}")
