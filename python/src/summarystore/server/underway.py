"""How much of what was handed over has no fate yet, for who has to wait until that is less."""

from __future__ import annotations

import asyncio


class UnderWay:
    """A count, and those who wait for it."""

    def __init__(self) -> None:
        self.count = 0
        self._fewer = asyncio.Event()

    def add(self, count: int = 1) -> None:
        """So many more are under way."""
        self.count += count

    def done(self, count: int = 1) -> None:
        """So many have their fate."""
        self.count -= count
        self._fewer.set()

    async def at_most(self, most: int) -> None:
        """Waits until no more than so many are under way."""
        while self.count > most:
            self._fewer.clear()
            await self._fewer.wait()
