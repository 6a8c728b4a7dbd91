"""The service: one store, the intake before it, and the listeners that hand readings to it.

What a listener needs of it:

- `configuration`: what the file says (`configuration.py`).
- `intake`: the only door for readings (`intake.py`).
- `ask(question)`: asks the store, as in `await service.ask(lambda store: store.list())`. It raises
  `UnavailableError` while the store isn't open, and asks again where its program ended meanwhile.
- `hub`: events for those who listen (`events.py`), `counters`: what is counted (`counters.py`),
  `unmatched`: names that nothing matches (`mapping.py`).
- `attach(listener)` before `start()`. Listeners are started after the store, and stopped before it.
"""

from __future__ import annotations

import asyncio
import logging
import time
from collections.abc import Awaitable, Callable, Coroutine, Sequence
from dataclasses import replace
from typing import Protocol, TypeVar

from .. import aio
from ..errors import ProcessEndedError
from ..records import Stream
from .column_intake import ColumnIntake
from .configuration import Configuration, read
from .counters import Counters
from .errors import ConfigurationError, UnavailableError
from .events import Hub
from .journal import Journal
from .landmarks import Landmarks
from .mapping import Mappings, UnmatchedNames
from .recent import MOST, Recent
from .settings import Mapping
from .supervision import State, Supervisor
from .tokens import read_tokens

T = TypeVar("T")
log = logging.getLogger("summarystored")
LISTENERS_END = 1.5
"""The listeners end within so many seconds. What they have handed over is stored meanwhile."""
INTAKE_ENDS = 1.5
STORE_ENDS = 1.0


class Listener(Protocol):
    """One that takes readings or questions from a network."""

    name: str
    """`http`, `graphite` or `mqtt`, as `/healthz` and the log show it."""

    @property
    def state(self) -> str:
        """A word or some for `/healthz`, such as `listening on 127.0.0.1:2003` or `connected`."""

    async def start(self) -> None:
        """Begins to take. Where that fails OSError or ConfigurationError is raised, and the service
        doesn't start. A broker that isn't there yet is no failure: it is called again."""

    async def stop(self) -> None:
        """Takes no more, and returns when what was taken is answered. It is cancelled after a while."""

    def reload(self) -> None:
        """The file was read anew: `service.configuration` and `service.intake.mappings` are new."""


class Service:
    """All that is shared. It is made and used within one event loop."""

    def __init__(self, configuration: Configuration, path: str, built_in: Sequence[Mapping] = ()) -> None:
        self.configuration = configuration
        self._built_in = built_in
        limits = configuration.limits
        self.tokens = read_tokens(configuration.tokens.file, configuration.tokens.anyone)
        self.counters = Counters()
        self.hub = Hub(self.counters)
        self.unmatched = UnmatchedNames(limits.unmatched)
        self.supervisor = Supervisor(path, configuration.store, self._learn, self.counters, self._told)
        self.intake = ColumnIntake(self.supervisor, self._mappings(), queue=limits.queue,
                                   longest_name=limits.name, unmatched=self.unmatched, hub=self.hub,
                                   counters=self.counters, future=limits.future,
                                   answers=limits.answer_seconds, recent=Recent(Journal(path, MOST)))
        self.landmarks = Landmarks(path, self, lambda: self.intake.streams)
        self.listeners: list[Listener] = []
        self.started = time.time()
        self.stopping = False
        self.mapping_error: str | None = None
        """Why the mapping that stands in the file now isn't used."""

    def _mappings(self) -> Mappings:
        return Mappings([*self._built_in, *self.configuration.mappings])

    def _learn(self, streams: Sequence[Stream]) -> None:
        self.intake.streams.learn(streams)

    def _told(self, state: State, why: str) -> None:
        self.hub.tell("health", {"state": state.value, "reason": why})

    def store(self) -> aio.Store:
        """The store for questions. Raises UnavailableError while it isn't open."""
        store = self.supervisor.store
        if store is None:
            raise UnavailableError(self.supervisor.why)
        return store

    async def ask(self, question: Callable[[aio.Store], Awaitable[T]]) -> T:
        """Asks the store. A question changes nothing, so it is asked again where the program ended."""
        async with asyncio.timeout(self.configuration.limits.answer_seconds):
            try:
                answer = await question(self.store())
            except ProcessEndedError as error:
                self.supervisor.ended(error)
                answer = await question(self.store())
            self.supervisor.answered()
            return answer

    def attach(self, listener: Listener) -> None:
        """Adds a listener, before the service is started."""
        self.listeners.append(listener)

    async def start(self) -> None:
        """Opens the store and starts the listeners. Where one of these can't start all is stopped."""
        await self.supervisor.start()
        started: list[Listener] = []
        try:
            for listener in self.listeners:
                await listener.start()
                started.append(listener)
                log.info("listener started: name=%s state=%r", listener.name, listener.state)
        except BaseException:
            self.listeners = started
            await self.stop()
            raise

    async def stop(self) -> None:
        """Takes no more, stores and answers what was taken, and lets the program end. Within 5 s."""
        self.stopping = True
        self.hub.close()
        await _bounded("listeners", LISTENERS_END, *(each.stop() for each in self.listeners))
        await _bounded("intake", INTAKE_ENDS, self.intake.close())
        await self.supervisor.stop(STORE_ENDS)

    def reload(self) -> bool:
        """Reads the mapping anew. A file with a mistake changes nothing, and the mistake is kept."""
        file = self.configuration.file
        if file is None:
            log.warning("nothing to read anew: there is no file of the configuration")
            return False
        try:
            found = read(file)
        except ConfigurationError as error:
            self.mapping_error = str(error)
            log.error("mapping kept as it was: reason=%s", error)
            return False
        self.mapping_error = None
        try:
            self.tokens = read_tokens(found.tokens.file, found.tokens.anyone)
        except ConfigurationError as error:
            log.error("tokens kept as they were: reason=%s", error)
        # What the command line says, and where something listens, stays until the next start.
        self.configuration = replace(self.configuration, mappings=found.mappings, tokens=found.tokens,
                                     thresholds=found.thresholds)
        self.intake.remap(self._mappings())
        for listener in self.listeners:
            listener.reload()
        log.info("mapping read anew: file=%r mappings=%d", file, len(found.mappings))
        return True


async def _bounded(what: str, seconds: float, *works: Coroutine[object, object, None]) -> None:
    """Waits for some works, for at most so long."""
    tasks = [asyncio.ensure_future(work) for work in works]
    if not tasks:
        return
    done, late = await asyncio.wait(tasks, timeout=seconds)
    for task in late:
        log.error("not ended in time: what=%s seconds=%s", what, seconds)
        task.cancel()
    for task in done:
        if not task.cancelled() and task.exception() is not None:
            log.error("not ended in order: what=%s reason=%r", what, task.exception())
