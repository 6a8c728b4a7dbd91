"""Readings that are made up, so that somebody who has no sensors sees what the service does.

Their streams are named `demo/..`, and a label of each says that they are made up.
"""

from __future__ import annotations

import asyncio
import logging
import math
import random
import time
from collections.abc import Iterator, Sequence
from dataclasses import dataclass

from .app import Service
from .configuration import Configuration, parse
from .errors import NotTakenError
from .intake import Incoming

log = logging.getLogger("summarystored")
SECOND = 10**9
DAYS = 14
PAST_STEP = 300
LIVE_STEP = 2.0
PIECE = 2000
MAPPING = """
[[mapping]]
match = "demo/*/temperature"
scale = 0.1
unit = "°C"
labels = { source = "made up" }
target = "power 1 1 8 1"

[[mapping]]
match = "demo/*/humidity"
scale = 0.5
unit = "%"
labels = { source = "made up" }
target = "power 1 1 8 1"

[[mapping]]
match = "demo/meter/power"
unit = "W"
labels = { source = "made up" }
target = "power 1 1 8 1"

[[mapping]]
match = "demo/door/openings"
labels = { source = "made up" }
target = "exp 2 8 1"
"""


@dataclass(frozen=True)
class Sensor:
    """A sensor that there isn't."""

    name: str
    middle: float
    daily: float
    noise: float
    places: int
    step: float = 1.0

    def at(self, seconds: float, chance: random.Random) -> str:
        """What it would say: a wave of a day, a slower one, and noise."""
        day = math.sin((seconds / 86400 - 0.35) * math.tau)
        slow = math.sin(seconds / (5.3 * 86400) * math.tau)
        value = self.middle + self.daily * (day + 0.4 * slow) + chance.gauss(0, self.noise)
        return f"{max(0.0, round(value / self.step) * self.step):.{self.places}f}"


SENSORS = (
    Sensor("demo/living room/temperature", 21.5, 1.4, 0.1, 1, 0.1),
    Sensor("demo/attic/temperature", 14.0, 5.0, 0.2, 1, 0.1),
    Sensor("demo/living room/humidity", 47, 4, 0.8, 1, 0.5),
    Sensor("demo/meter/power", 420, 260, 90, 0),
    Sensor("demo/door/openings", 1.2, 1.2, 0.8, 0),
)


def service(configuration: Configuration, path: str) -> Service:
    """A service with these sensors."""
    made = Service(configuration, path, parse(MAPPING, "demo").mappings)
    made.attach(Demo(made))
    return made


def past(now: int, sensors: Sequence[Sensor], chance: random.Random) -> Iterator[Incoming]:
    """What they would have said in the last days."""
    begin = now - DAYS * 86400
    for seconds in range(begin - begin % PAST_STEP, now, PAST_STEP):
        for sensor in sensors:
            yield Incoming(sensor.name, sensor.at(seconds, chance), seconds * SECOND)


class Demo:
    """Hands readings to the service as a listener does: a past, and then one after the other."""

    name = "demo"

    def __init__(self, to: Service) -> None:
        self._service = to
        self._chance = random.Random(1)
        self._task: asyncio.Task[None] | None = None

    @property
    def state(self) -> str:
        """For `/healthz`."""
        return "making readings up" if self._task is not None else "stopped"

    def reload(self) -> None:
        """Nothing of it can be changed."""

    async def start(self) -> None:
        """Begins with the past."""
        self._task = asyncio.get_running_loop().create_task(self._run())

    async def stop(self) -> None:
        """Makes no more up."""
        if self._task is not None:
            self._task.cancel()
            await asyncio.wait([self._task])
            self._task = None

    async def _run(self) -> None:
        log.info("readings are made up: sensors=%d days=%d", len(SENSORS), DAYS)
        await self._past()
        while True:
            await asyncio.sleep(LIVE_STEP)
            now = time.time()
            await self._take([Incoming(each.name, each.at(now, self._chance)) for each in SENSORS])

    async def _past(self) -> None:
        piece: list[Incoming] = []
        for reading in past(int(time.time()), SENSORS, self._chance):
            piece.append(reading)
            if len(piece) == PIECE:
                await self._take(piece)
                piece = []
        await self._take(piece)

    async def _take(self, readings: Sequence[Incoming]) -> None:
        """Those of a store that has a past are refused as late, which is right."""
        try:
            await self._service.intake.append_many(readings, wait=True)
        except NotTakenError:
            pass    # the service is stopping
