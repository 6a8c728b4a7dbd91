"""Messages of a broker as readings: what of them is stored, and when the broker may forget them.

A message is acknowledged when all of its readings are on the disk or are refused for good, and not
before. Where the store has no room or isn't open the messages wait, and so does the broker: it
sends no more than its receive maximum without an acknowledgement. Readings that were refused and
acknowledged are counted, since the broker has them no more.

The time of a reading is the service's, or where the mapping has `json_time` the one that stands in
it. A retained message says nothing of the present: it is taken only with a time of its own.
"""

from __future__ import annotations

import asyncio
from collections.abc import Sequence
from contextlib import suppress
from functools import partial
from typing import NamedTuple, Union

from .app import Service
from .errors import NotTakenError
from .intake import Incoming, Outcome, Result
from .mapping import Mappings, Route
from .mqtt_client import Message, Subscriber
from .mqtt_order import PATIENCE, Order, Timed
from .mqtt_payload import PayloadError, json_of, path_of, text_of, time_in, word_in
from .private import password_in
from .refusals import Refusals
from .underway import UnderWay

SOURCE = "mqtt"
MOST = 1000
"""So many messages go to the store together, at most."""
AGAIN = 1.0
"""Seconds until messages for which there was no room are handed over again."""
ENDS = 1.0
"""What is under way has so many seconds to be stored and acknowledged when the service stops."""

Found = Union[Incoming, PayloadError]


def readings_of(message: Message, mappings: Mappings) -> Sequence[Found]:
    """The readings of a message, and why there is none where one was looked for."""
    routes = mappings.json_routes(message.topic, SOURCE)
    try:
        text = text_of(message.payload)
        if not routes:
            if message.retained:
                raise PayloadError("retained", "a retained message without a time isn't of now")
            return [Incoming(message.topic, text, source=SOURCE)]
        value = json_of(text)
    except PayloadError as error:
        return [error]
    return [_of_json(message, value, route) for route in routes]


def _of_json(message: Message, value: object, route: Route) -> Found:
    mapping = route.mapping
    assert mapping is not None and mapping.json is not None
    try:
        word = word_in(value, path_of(mapping.json))
        if mapping.json_time is not None:
            time: int | None = time_in(value, path_of(mapping.json_time))
        elif message.retained:
            raise PayloadError("retained", "a retained message without a time isn't of now")
        else:
            time = None
    except PayloadError as error:
        return error
    return Incoming(message.topic, word, time, source=SOURCE, route=route)


class _Taken(NamedTuple):
    """A message and its readings."""

    message: Message
    readings: Sequence[Incoming]


class MqttListener:
    """Brings a broker's messages into the store, as a listener of the service."""

    name = SOURCE

    def __init__(self, service: Service) -> None:
        self._intake = service.intake
        password_in(service.configuration.mqtt.password_file)   # one that others can read is refused
        self.subscriber = Subscriber(service.configuration.mqtt)
        self.refusals = Refusals(service.counters, service.configuration.limits.unmatched)
        self._under_way = UnderWay()
        self._tasks: list[asyncio.Task[None]] = []

    @property
    def state(self) -> str:
        """Whether the broker is there, and otherwise why not."""
        return "connected" if self.subscriber.connected else self.subscriber.why

    async def start(self) -> None:
        """Calls the broker, and stores what comes."""
        loop = asyncio.get_running_loop()
        self._tasks = [loop.create_task(self.subscriber.run()), loop.create_task(self._work())]

    async def stop(self) -> None:
        """Takes no more. What isn't acknowledged yet the broker sends to the next one."""
        if self._tasks:
            self._tasks[1].cancel()
            if self._under_way.count:
                with suppress(asyncio.TimeoutError):
                    await asyncio.wait_for(self._under_way.at_most(0), ENDS)
            self.subscriber.close()
            await asyncio.wait(self._tasks)

    def reload(self) -> None:
        """Needs nothing: the intake has the new mapping. Topics and the broker need a new start."""

    async def _work(self) -> None:
        loop = asyncio.get_running_loop()
        order: Order[_Taken] = Order()
        while True:
            messages = await self.subscriber.next_batch(MOST, PATIENCE if order else None)
            taken = order.take(map(self._taken, messages), loop.time())
            for each in [*taken, *order.overdue(loop.time())]:
                await self._bring(each.message)

    def _taken(self, message: Message) -> Timed[_Taken]:
        """A message with its readings. What is no reading is counted and listed here."""
        readings: list[Incoming] = []
        for found in readings_of(message, self._intake.mappings):
            if isinstance(found, PayloadError):
                self.refusals.add(SOURCE, message.topic, found.code, str(found))
                self._lose(message, found.code)
            else:
                readings.append(found)
        times = [reading.time for reading in readings if reading.time is not None]
        return Timed(message.topic, min(times, default=None), _Taken(message, readings))

    async def _bring(self, taken: _Taken) -> None:
        """Hands the readings of a message over. When all of them are stored or refused for good it is
        acknowledged; what the end of the service leaves open the broker sends to the next one."""
        if not taken.readings:
            self.subscriber.acknowledge([taken.message])
        while taken.readings:
            try:
                await self._intake.hand_over(taken.readings, partial(self._done, taken))
                self._under_way.add()
                return
            except NotTakenError:
                await asyncio.sleep(AGAIN)

    def _done(self, taken: _Taken, outcomes: Sequence[Outcome]) -> None:
        self._under_way.done()
        for reading, outcome in zip(taken.readings, outcomes):
            if outcome.result is Result.REFUSED:
                self._lose(taken.message, outcome.code)
                if outcome.code != "unmatched":
                    self.refusals.list(SOURCE, reading.name, outcome.code, outcome.reason)
        if all(outcome.final for outcome in outcomes):
            self.subscriber.acknowledge([taken.message])

    def _lose(self, message: Message, code: str) -> None:
        """A reading is refused, and its message acknowledged: the broker has it no more."""
        if message.mid is not None:
            self._intake.counters.add("lost", SOURCE, code)
