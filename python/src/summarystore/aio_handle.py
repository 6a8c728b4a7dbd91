"""One stream of a store for asyncio: the calls of the store without its name."""

from __future__ import annotations

import asyncio
import datetime
from collections.abc import AsyncIterator, Mapping, Sequence
from contextlib import AbstractAsyncContextManager
from typing import TYPE_CHECKING

from .handle import LOOK, Named
from .interval import Interval, Presence
from .kinds import Estimated, Kind
from .present import UNSAID
from .records import Estimate, Last, Reading, Stored, Window
from .sending import OnRefused
from .series import Series

if TYPE_CHECKING:
    from .aio import Store
    from .aio_connecting import RemoteStore


if TYPE_CHECKING:
    Base = Named[Store | RemoteStore]
else:
    Base = Named


class Handle(Base):
    """A stream of a store, as `store["home/hall"]`: the calls of `summarystore.handle.Handle`."""

    async def append(self, time: object = UNSAID, value: object = UNSAID) -> Stored | None:
        """As `Store.append`. Over a service nothing is answered."""
        return await self.store.append(self.name, time, value)

    async def append_many(self, rows: object, *, refused: OnRefused | None = None,
                          lateness: object | None = None) -> int:
        """As `Store.append_many`."""
        return await self.store.append_many(self.name, rows, refused=refused, lateness=lateness)

    def landmark(self, start: object | None = None, end: object | None = None
                 ) -> AbstractAsyncContextManager[None]:
        """As `Store.landmark`."""
        return self.store.landmark(self.name, start, end)

    async def describe(self, *, unit: str | None = None, labels: Mapping[str, str] | None = None,
                       rounding: str | None = None) -> None:
        """As `Store.describe`."""
        done = self.store.describe(self.name, unit=unit, labels=labels, rounding=rounding)
        if done is not None:
            await done

    async def drop(self) -> None:
        """As `Store.drop`."""
        await self.store.drop(self.name)

    async def query(self, kind: Kind, t1: object | None = None, t2: object | None = None) -> Interval:
        """As `Store.query`."""
        return await self.store.query(self.name, kind, t1, t2)

    async def increase(self, t1: object | None = None, t2: object | None = None) -> Interval:
        """As `Store.increase`."""
        return await self.store.increase(self.name, t1, t2)

    async def value_at(self, time: object) -> Interval:
        """As `Store.value_at`."""
        return await self.store.value_at(self.name, time)

    async def integral(self, t1: object | None = None, t2: object | None = None) -> Interval:
        """As `Store.integral`."""
        return await self.store.integral(self.name, t1, t2)

    async def time_mean(self, t1: object | None = None, t2: object | None = None) -> Interval:
        """As `Store.time_mean`."""
        return await self.store.time_mean(self.name, t1, t2)

    async def mean(self, t1: object | None = None, t2: object | None = None) -> Interval:
        """As `Store.mean`."""
        return await self.store.mean(self.name, t1, t2)

    async def has(self, value: object, t1: object | None = None, t2: object | None = None) -> Presence:
        """As `Store.has`."""
        return await self.store.has(self.name, value, t1, t2)

    async def series(self, kind: Kind, t1: object | None, t2: object | None, step: object,
                     zone: str | datetime.tzinfo | None = None) -> Series:
        """As `Store.series`."""
        return await self.store.series(self.name, kind, t1, t2, step, zone)

    async def estimate(self, kind: Estimated, t1: object | None = None, t2: object | None = None
                       ) -> Estimate:
        """As `Store.estimate`."""
        return await self.store.estimate(self.name, kind, t1, t2)

    async def last(self) -> Last | None:
        """As `Store.last`."""
        return await self.store.last(self.name)

    async def values(self, t1: object | None = None, t2: object | None = None) -> Sequence[Reading]:
        """As `Store.values`."""
        return await self.store.values(self.name, t1, t2)

    def windows(self) -> AsyncIterator[Window]:
        """As `Store.windows`."""
        return self.store.windows(self.name)

    async def follow(self, look: float = LOOK) -> AsyncIterator[Last]:
        """The newest value, and each newer one as it comes, as `summarystore.handle.Handle.follow`."""
        known: Last | None = None
        while True:
            found = await self.last()
            if found is not None and (known is None or found.time != known.time):
                known = found
                yield found
            else:
                await asyncio.sleep(look)
