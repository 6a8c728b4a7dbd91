"""Thresholds: asked of the store again and again, and told where one is surely crossed.

What is only perhaps so is told apart, in the log and at `/api/thresholds`, and calls nobody.
"""

from __future__ import annotations

import asyncio
import logging
import time as clock
from collections.abc import Callable, Coroutine, Mapping, Sequence
from dataclasses import dataclass
from typing import Any

import aiohttp
from aiohttp import web

from ..errors import SummaryStoreError
from ..interval import Interval
from . import exactjson
from .answers import ends_of, json_answer
from .app import Service
from .endpoints import Access, Endpoint
from .errors import NotTakenError
from .meaning import Meaning, seconds_of
from .threshold import Crossed, Threshold

log = logging.getLogger("summarystored")
TRIES = (0.0, 1.0, 5.0, 30.0, 120.0)
"""Seconds before each try to tell somebody."""
SECONDS = 10.0
"""So long a webhook may take."""
Publish = Callable[[str, bytes], bool]
Told = Mapping[str, object]


@dataclass
class Watched:
    """A threshold, and what was found out of it last."""

    threshold: Threshold
    crossed: Crossed = Crossed.UNKNOWN
    told: bool = False
    """Whether somebody was told that it is crossed, and not yet that it isn't any more."""
    answer: Interval | None = None
    time: int = 0
    since: int = 0

    def row(self) -> dict[str, object]:
        """As `/api/thresholds` shows it."""
        each = self.threshold
        return {"name": each.name, "stream": each.stream, "kind": each.kind, "above": each.above,
                "below": each.below, "over": seconds_of(each.over), "crossed": self.crossed.value,
                "asked": seconds_of(self.time), "since": seconds_of(self.since),
                **({} if self.answer is None else ends_of(self.answer))}

    def take(self, crossed: Crossed, answer: Interval | None, now: int) -> bool:
        """Takes what was found out. Whether somebody is to be told."""
        if crossed is not self.crossed:
            self.since = now
            say = log.warning if crossed is Crossed.YES else log.info
            say("threshold: name=%r crossed=%s answer=%s", self.threshold.name, crossed.value, answer)
        self.crossed, self.answer, self.time = crossed, answer, now
        if crossed is (Crossed.NO if self.told else Crossed.YES):
            self.told = not self.told
            return True
        return False


class Thresholds:
    """The thresholds of a service, as a listener of it. `publish` sends a message to the broker, if any."""

    name = "thresholds"

    def __init__(self, service: Service, publish: Publish | None) -> None:
        self._service = service
        self._publish = publish
        self._tasks: set[asyncio.Task[None]] = set()
        self._watching: list[asyncio.Task[None]] = []
        self.watched: Sequence[Watched] = ()

    @property
    def state(self) -> str:
        """How many there are, and how many are crossed."""
        crossed = sum(each.crossed is Crossed.YES for each in self.watched)
        return f"watching {len(self.watched)}, of which {crossed} are crossed"

    async def start(self) -> None:
        """Begins to ask."""
        self.reload()

    def reload(self) -> None:
        """Takes those that the file has now. What is known of one that stays is kept."""
        known = {each.threshold: each for each in self.watched}
        self.watched = [known.get(each) or Watched(each) for each in self._service.configuration.thresholds]
        for task in self._watching:
            task.cancel()
        self._watching = [asyncio.get_running_loop().create_task(self._watch(each)) for each in self.watched]

    async def stop(self) -> None:
        """Asks no more, and tells nothing that isn't told by now."""
        tasks = [*self._watching, *self._tasks]
        for task in tasks:
            task.cancel()
        await asyncio.gather(*tasks, return_exceptions=True)

    async def _watch(self, watched: Watched) -> None:
        while True:
            now = clock.time_ns()
            crossed, answer = await self._asked(watched.threshold, now)
            if watched.take(crossed, answer, now):
                self._tell(watched)
            await asyncio.sleep(watched.threshold.every / 10**9)

    async def _asked(self, threshold: Threshold, now: int) -> tuple[Crossed, Interval | None]:
        service, name, kind = self._service, threshold.stream, threshold.kind
        try:
            meaning: Meaning = service.intake.streams.meaning(service.store(), name)
            first, last = meaning.first(now - threshold.over), meaning.last(now)
            answer = await service.ask(lambda store: store.query(name, kind, first, last))
        except (SummaryStoreError, NotTakenError, OSError, asyncio.TimeoutError) as error:
            log.debug("threshold not asked: name=%r reason=%s", threshold.name, error)
            return Crossed.UNKNOWN, None
        return threshold.judge(answer), answer

    def _tell(self, watched: Watched) -> None:
        """Tells all that are to be told, each as often as it takes."""
        told: Told = watched.row()
        self._service.hub.tell("threshold", told)
        body = exactjson.dumps(told).encode("utf-8")
        each = watched.threshold
        if each.webhook is not None:
            self._begin(self._post(each.webhook, body))
        if each.topic is not None:
            self._begin(self._send(each.topic, body))

    def _begin(self, work: Coroutine[Any, Any, None]) -> None:
        task = asyncio.get_running_loop().create_task(work)
        self._tasks.add(task)
        task.add_done_callback(self._tasks.discard)

    async def _post(self, address: str, body: bytes) -> None:
        headers, why = {"Content-Type": "application/json"}, ""
        timeout = aiohttp.ClientTimeout(SECONDS)
        async with aiohttp.ClientSession(timeout=timeout, headers=headers) as session:
            for seconds in TRIES:
                await asyncio.sleep(seconds)
                try:
                    async with session.post(address, data=body, allow_redirects=False) as answer:
                        if answer.status < 300:
                            return
                        why = f"status {answer.status}"
                except (aiohttp.ClientError, OSError, asyncio.TimeoutError) as error:
                    why = str(error) or type(error).__name__
        log.error("webhook not told: address=%s reason=%s", address, why)

    async def _send(self, topic: str, body: bytes) -> None:
        for seconds in TRIES:
            await asyncio.sleep(seconds)
            if self._publish is not None and self._publish(topic, body):
                return
        log.error("broker not told: topic=%s reason=it isn't connected", topic)


def endpoints(service: Service) -> Sequence[Endpoint]:
    """The address."""
    async def thresholds(request: web.Request) -> web.StreamResponse:
        found = next((each for each in service.listeners if isinstance(each, Thresholds)), None)
        return json_answer({"thresholds": [each.row() for each in ([] if found is None else found.watched)]})

    return [Endpoint("GET", "/api/thresholds", thresholds, Access.READ)]
