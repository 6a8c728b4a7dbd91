"""One stream of a store: the calls of the store without its name."""

from __future__ import annotations

import datetime
import time as clock
from collections.abc import Iterator, Mapping, Sequence
from contextlib import AbstractContextManager
from typing import TYPE_CHECKING, Generic, Protocol, TypeVar

from .description import Description
from .interval import Interval, Presence
from .kinds import Estimated, Kind
from .present import UNSAID
from .records import Estimate, Last, Reading, Stored, Time, Window
from .sending import OnRefused
from .series import Series

if TYPE_CHECKING:
    from .connecting import RemoteStore
    from .store import Store

LOOK = 0.5


class AnyStore(Protocol):
    """A store, whichever way it is asked."""

    @property
    def path(self) -> str:
        """Where it is."""

    def description(self, name: str) -> Description | None:
        """How a stream is read."""

    def now(self, name: str) -> Time:
        """The present time of a stream."""


S = TypeVar("S", bound=AnyStore)


class Named(Generic[S]):
    """A stream of a store by its name, and what of it isn't asked of the program."""

    def __init__(self, store: S, name: str) -> None:
        self.store = store
        self.name = name

    def __repr__(self) -> str:
        return f"<stream {self.name} of {self.store.path}>"

    @property
    def description(self) -> Description | None:
        """How it is read. None where it takes whole numbers."""
        return self.store.description(self.name)

    def now(self) -> Time:
        """The present time of it."""
        return self.store.now(self.name)


if TYPE_CHECKING:
    Base = Named[Store | RemoteStore]
else:
    Base = Named


class Handle(Base):
    """A stream of a store, as `store["home/hall"]`."""

    def append(self, time: object = UNSAID, value: object = UNSAID) -> Stored | None:
        """As `Store.append`. Over a service nothing is answered."""
        return self.store.append(self.name, time, value)

    def append_many(self, rows: object, *, refused: OnRefused | None = None, lateness: object | None = None
                    ) -> int:
        """As `Store.append_many`."""
        return self.store.append_many(self.name, rows, refused=refused, lateness=lateness)

    def landmark(self, start: object | None = None, end: object | None = None
                 ) -> AbstractContextManager[None]:
        """As `Store.landmark`."""
        return self.store.landmark(self.name, start, end)

    def describe(self, *, unit: str | None = None, labels: Mapping[str, str] | None = None,
                 rounding: str | None = None) -> None:
        """As `Store.describe`."""
        self.store.describe(self.name, unit=unit, labels=labels, rounding=rounding)

    def drop(self) -> None:
        """As `Store.drop`."""
        self.store.drop(self.name)

    def query(self, kind: Kind, t1: object | None = None, t2: object | None = None) -> Interval:
        """As `Store.query`."""
        return self.store.query(self.name, kind, t1, t2)

    def increase(self, t1: object | None = None, t2: object | None = None) -> Interval:
        """As `Store.increase`."""
        return self.store.increase(self.name, t1, t2)

    def value_at(self, time: object) -> Interval:
        """As `Store.value_at`."""
        return self.store.value_at(self.name, time)

    def integral(self, t1: object | None = None, t2: object | None = None) -> Interval:
        """As `Store.integral`."""
        return self.store.integral(self.name, t1, t2)

    def time_mean(self, t1: object | None = None, t2: object | None = None) -> Interval:
        """As `Store.time_mean`."""
        return self.store.time_mean(self.name, t1, t2)

    def mean(self, t1: object | None = None, t2: object | None = None) -> Interval:
        """As `Store.mean`."""
        return self.store.mean(self.name, t1, t2)

    def has(self, value: object, t1: object | None = None, t2: object | None = None) -> Presence:
        """As `Store.has`."""
        return self.store.has(self.name, value, t1, t2)

    def series(self, kind: Kind, t1: object | None, t2: object | None, step: object,
               zone: str | datetime.tzinfo | None = None) -> Series:
        """As `Store.series`."""
        return self.store.series(self.name, kind, t1, t2, step, zone)

    def estimate(self, kind: Estimated, t1: object | None = None, t2: object | None = None) -> Estimate:
        """As `Store.estimate`."""
        return self.store.estimate(self.name, kind, t1, t2)

    def last(self) -> Last | None:
        """As `Store.last`."""
        return self.store.last(self.name)

    def values(self, t1: object | None = None, t2: object | None = None) -> Sequence[Reading]:
        """As `Store.values`."""
        return self.store.values(self.name, t1, t2)

    def windows(self) -> Iterator[Window]:
        """As `Store.windows`."""
        return self.store.windows(self.name)

    def follow(self, look: float = LOOK) -> Iterator[Last]:
        """The newest value, and each newer one as it comes, for ever: looked for each `look` seconds. Of
        several that came between two looks it is the last."""
        known: Last | None = None
        while True:
            found = self.last()
            if found is not None and (known is None or found.time != known.time):
                known = found
                yield found
            else:
                clock.sleep(look)
