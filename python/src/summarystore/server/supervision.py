"""The store behind the service: opened, opened again when its program ends, and watched.

The service stays up whatever becomes of the store, and `state` and `why` say what that is.
"""

from __future__ import annotations

import asyncio
import enum
import logging
import os
import time
from collections.abc import Callable, Sequence

from .. import aio
from ..errors import (DamagedStoreError, DiskFullError, LockedError, NamesFileError, ProcessEndedError,
                      ProgramMissingError, StoreClosedError, StoreFileError, SummaryStoreError, UsageError)
from ..records import Stream
from .configuration import StoreSettings
from .counters import Counters
from .errors import UnavailableError

log = logging.getLogger("summarystored")
LOOK = 10.0
"""The store is asked after so many seconds whether it answers."""
ANSWERS = 20.0
"""It is said that it doesn't, where there is no answer for so long."""
DELAYS = (0.5, 1.0, 2.0, 5.0, 10.0, 30.0)
"""After a failure it is tried again after so many seconds, and later after the last of them."""
PAUSE = 0.2
"""So many seconds at least are between two looks whether it takes events again."""
GOOD_FOR = 1.0
"""Where the program ran for so many seconds before it ended the delays begin anew."""
QUICKLY = 3
"""So often it may end one after the other. Then nothing is taken for the delay."""


class State(enum.Enum):
    """What is known of the store."""

    OPENING = "opening"
    OPEN = "open"
    NOT_ANSWERING = "not_answering"
    FULL = "full"
    """The disk has no room: the store is read, and nothing is taken."""
    DAMAGED = "damaged"
    """The file is refused: it is no store, or it is damaged."""
    LOCKED = "locked"
    GONE = "gone"
    """The file was there, and isn't any more."""
    FAILED = "failed"
    STOPPED = "stopped"


_STATES: Sequence[tuple[type[Exception], State]] = (
    (DiskFullError, State.FULL), (LockedError, State.LOCKED), (DamagedStoreError, State.DAMAGED),
    (StoreFileError, State.FAILED), (UsageError, State.FAILED), (ProgramMissingError, State.FAILED),
    (NamesFileError, State.DAMAGED), (StoreClosedError, State.GONE))


def state_of(error: Exception) -> State:
    """What an error says of the store."""
    return next((state for kind, state in _STATES if isinstance(error, kind)), State.FAILED)


class Supervisor:
    """Opens the store, and looks after it."""

    def __init__(self, path: str, settings: StoreSettings, learn: Callable[[Sequence[Stream]], None],
                 counters: Counters | None = None,
                 changed: Callable[[State, str], None] | None = None) -> None:
        self.path = os.path.abspath(path)
        self._settings = settings
        self._learn = learn
        self._counters = Counters() if counters is None else counters
        self._changed = changed
        self._store: aio.Store | None = None
        self._pid: int | None = None
        self._was_open = False
        self._task: asyncio.Task[None] | None = None
        self._wake = asyncio.Event()
        self._opened = asyncio.Event()
        self._stopping = False
        self._told: int | None = None
        self._failures = 0
        self._opened_at = 0.0
        self._paused_until = 0.0
        self.state = State.OPENING
        self.why = "the store is being opened"

    @property
    def store(self) -> aio.Store | None:
        """The store for questions. None while it isn't open."""
        return self._store

    @property
    def taking(self) -> aio.Store | None:
        """The store for events. None also while it can't take any."""
        store = self._store
        return None if store is None or store.full or time.monotonic() < self._paused_until else store

    @property
    def pid(self) -> int | None:
        """The number of its process, if one is up."""
        return None if self._store is None else self._store.pid

    async def start(self) -> None:
        """Opens the store. Where that fails it is tried again, and the service goes on."""
        await self._try_to_open()
        self._task = asyncio.get_running_loop().create_task(self._watch())

    async def stop(self, seconds: float) -> None:
        """Lets the program end in order, which takes at most so long. Then it is killed."""
        self._stopping = True
        self._opened.set()
        if self._task is not None:
            # It isn't woken as well: a wait that ends at the same time would hide that it is cancelled.
            self._task.cancel()
            await asyncio.wait([self._task], timeout=seconds)
        store, self._store = self._store, None
        if store is not None:
            await self._close(store, seconds)
        self._say(State.STOPPED, "the service is stopping")

    async def _close(self, store: aio.Store, seconds: float) -> None:
        pid = store.pid
        closing = asyncio.get_running_loop().create_task(store.close())
        done, _ = await asyncio.wait([closing], timeout=seconds)
        if not done and pid is not None:
            log.error("program killed, since it doesn't end: pid=%s", pid)
            os.kill(pid, 9)
            await asyncio.wait([closing], timeout=1)
        if closing.done() and closing.exception() is not None:
            log.error("store not closed in order: reason=%s", closing.exception())

    async def wait_open(self) -> aio.Store:
        """Waits until the store takes events. Raises UnavailableError where the service stops."""
        while not self._stopping:
            store = self.taking
            if store is not None:
                return store
            if self._store is not None:
                await asyncio.sleep(max(PAUSE, self._paused_until - time.monotonic()))
            else:
                self._opened.clear()
                await self._opened.wait()
        raise UnavailableError("the service is stopping")

    def ended(self, error: Exception) -> None:
        """Is told that the program ended under a call."""
        if not self._stopping and self._told != self._pid:
            self._told = self._pid      # it is told by each call that was under way
            self._fail(error)
            self._wake.set()

    def answered(self) -> None:
        """Is told that the store has answered. Another program may have: then the one before had ended."""
        if self.pid not in (None, self._pid):
            self._wake.set()

    def _fail(self, error: Exception) -> float:
        """Takes a failure down, and gives the seconds until it is tried again."""
        now = time.monotonic()
        if self._store is not None and now - self._opened_at > GOOD_FOR:
            self._failures = 0
        delay = DELAYS[min(self._failures, len(DELAYS) - 1)]
        self._failures += 1
        state = state_of(error)
        if state is State.FULL or self._failures > QUICKLY:
            self._paused_until = now + delay
        self._counters.add("ended", state.value)
        self._say(state, str(error))
        return delay

    def _say(self, state: State, why: str) -> None:
        if (state, why) == (self.state, self.why):
            return
        self.state, self.why = state, why
        level = logging.INFO if state in (State.OPEN, State.STOPPED) else logging.ERROR
        log.log(level, "store %s: path=%r reason=%s", state.value, self.path, why)
        if self._changed is not None:
            self._changed(state, why)

    async def _try_to_open(self) -> float:
        """Opens the store, and gives the seconds until something is to be done again."""
        if self._was_open and not os.path.exists(self.path):
            # A new one in its place would hide that all of its data are missing.
            return self._fail(StoreClosedError(f"{self.path} is gone, and isn't made anew"))
        try:
            store = await aio.open(self.path, program=self._settings.program,
                                   checked=self._settings.checked)
        except (SummaryStoreError, OSError) as error:
            return self._fail(error)
        self._paused_until = 0.0
        try:
            await self._is_open(store)
        except (SummaryStoreError, OSError) as error:
            await self._close(store, ANSWERS)
            return self._fail(error)
        return LOOK

    async def _is_open(self, store: aio.Store) -> None:
        """The store answers: its streams are learnt, and who waits for it is told."""
        streams = await store.list()
        if self._store is not None and self._pid not in (self._told, store.pid):
            self._counters.add("ended", "unseen")
            log.error("program had ended: pid=%s", self._pid)
        self._learn(streams)
        self._store, self._pid, self._was_open = store, store.pid, True
        self._opened_at = time.monotonic()
        self._counters.add("opened")
        if store.full is None:
            self._say(State.OPEN, f"program {store.pid} answers")
        else:
            self._say(State.FULL, f"{store.full}; questions are answered from a copy")
        self._opened.set()

    async def _watch(self) -> None:
        """Looks after the store until the service stops."""
        delay = LOOK if self._store is not None else DELAYS[0]
        while not self._stopping:
            try:
                await asyncio.wait_for(self._wake.wait(), delay)
            except asyncio.TimeoutError:
                pass
            self._wake.clear()
            delay = await (self._look(self._store) if self._store is not None else self._try_to_open())

    async def _look(self, store: aio.Store) -> float:
        """Asks the store whether it answers. A program that has ended is started again by that."""
        try:
            await asyncio.wait_for(self._answer(store), ANSWERS)
        except asyncio.TimeoutError:
            self._say(State.NOT_ANSWERING, f"no answer for {ANSWERS:.0f} s, program {store.pid}")
            return LOOK
        except (SummaryStoreError, OSError) as error:
            self._store = None
            delay = self._fail(error)
            await self._close(store, ANSWERS)
            return delay
        paused = self._paused_until - time.monotonic()
        if paused > 0:      # it is open, and takes nothing yet
            self._pid = store.pid
            return paused
        if store.pid != self._pid or self.state is not (State.FULL if store.full else State.OPEN):
            await self._is_open(store)
        return LOOK

    async def _answer(self, store: aio.Store) -> None:
        """The list of the streams, also where the program had ended before."""
        try:
            await store.list()
        except ProcessEndedError:
            await store.list()
