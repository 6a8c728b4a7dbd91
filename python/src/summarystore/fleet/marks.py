"""Marks: how a follower knows that it has all that its log had at a moment.

A log doesn't say where it ends. So a follower that is asked puts a mark into it, and when it reads that mark
again it has read all that stood there when the mark was sent. Who is cut off from the broker reads none, so
its moment stays where it was. Marks aren't events: whoever else reads one passes over it.
"""

from __future__ import annotations

import asyncio
import os
import time
from typing import Any

import pika

from .broker import Link
from .deliveries import MARK

AGE = 5.0
"""A moment is fresh enough for so many seconds: while questions come one mark goes in so many seconds."""
COMES = 2.0
"""A question waits for a mark for so many seconds, at most."""
REFUSED = "(403"
"""How the reason of a link that has ended begins where the broker doesn't let this user publish."""


class Marks:
    """Those of one follower."""

    def __init__(self, drained: float = 0.0) -> None:
        self.drained = drained
        """The last moment at which the log was known to be drained, in seconds since 1970, or 0."""
        self._run = os.urandom(8).hex()
        self._number = 0
        self._wanted = False
        self._refused = False
        self._sent: tuple[str, float] | None = None
        self._came = asyncio.Event()

    def want(self) -> bool:
        """A mark is to be sent, unless one is under way or the moment is fresh. Whether it is waited for."""
        now = time.time()
        if self._refused or now < self.drained + AGE:
            return False
        if self._sent is None:
            self._wanted = True
            self._came.clear()
            return True
        return now < self._sent[1] + COMES

    async def wait(self) -> None:
        """Waits for a mark, not for long."""
        try:
            await asyncio.wait_for(self._came.wait(), COMES)
        except asyncio.TimeoutError:
            pass

    def look(self, link: Link, exchange: str) -> None:
        """Sends a mark where one is wanted."""
        if self._wanted and not link.ended.is_set():
            self._wanted = False
            self._number += 1
            self._sent = f"{self._run}.{self._number}", time.time()
            link.channel.basic_publish(exchange, "", b"", properties_of(self._sent[0]))

    def begins(self) -> None:
        """A connection begins: what was sent over another one may be lost."""
        self._sent = None

    def ended(self, why: str) -> None:
        """The connection has ended. Where that was for a mark none is sent any more."""
        if self._sent is not None and why.startswith(REFUSED):
            self._refused = True
        self._sent = None

    def came(self, mark: str, whole: bool) -> None:
        """A mark was read, and all before it. Whether that is in the store, too, is told."""
        if self._sent is not None and mark == self._sent[0]:
            if whole:
                self.drained = self._sent[1]
            self._sent = None
            self._came.set()


def properties_of(mark: str) -> Any:
    """What goes with a mark, so that it is known as one."""
    return pika.BasicProperties(delivery_mode=1, headers={MARK: mark})
