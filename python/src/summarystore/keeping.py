"""How streams are read is kept in a file: what tasks change together is written once, by a thread."""

from __future__ import annotations

import asyncio
from collections.abc import Sequence

from .codec import Change, Codec, Translator
from .errors import SummaryStoreError


class Keeping:
    """The changes of the tasks of one loop."""

    def __init__(self, translator: Translator) -> None:
        self._translator = translator
        self._waiting: list[tuple[Change, asyncio.Future[Codec]]] = []
        self._task: asyncio.Task[None] | None = None

    async def keep(self, change: Change) -> Codec:
        """Keeps a change. What comes while the file is written is written together, after that."""
        loop = asyncio.get_running_loop()
        future: asyncio.Future[Codec] = loop.create_future()
        self._waiting.append((change, future))
        if self._task is None:
            self._task = loop.create_task(self._work())
        return await future

    async def _work(self) -> None:
        try:
            while self._waiting:
                some, self._waiting = self._waiting, []
                for (_, future), found in zip(some, await self._kept([change for change, _ in some])):
                    if future.done():
                        continue    # nobody waits for it any more
                    if isinstance(found, Exception):
                        future.set_exception(found)
                    else:
                        future.set_result(found)
        finally:
            self._task = None

    async def _kept(self, changes: Sequence[Change]) -> Sequence[Codec | Exception]:
        try:
            return await asyncio.to_thread(self._translator.keep, changes)
        except (SummaryStoreError, OSError) as error:
            return [error] * len(changes)
