"""A sender: a store whose events followers get, over a spool and a broker."""

from __future__ import annotations

import asyncio
import json
import logging
import os
from collections.abc import Iterable, Sequence
from pathlib import Path
from types import TracebackType
from typing import Any, Self

from pika.exceptions import AMQPError

from ..codec import Codec
from ..description import description_of
from ..errors import SummaryStoreError
from ..names import Names
from ..program import StorePath
from .broker import Link, keep_linked, properties
from .edge import Edge, Reply, Taken
from .errors import BrokerError, SpoolError
from .frames import message
from .logs import Log
from .naming import SentNames
from .outgoing import Outgoing
from .patience import Patience
from .spool import LIMIT, Spool, write_whole

log = logging.getLogger("summarystore.fleet")
WINDOW = 200
"""So many messages are under way."""
LOOK = 1.0
SILENT = 20.0
"""Where the broker confirms nothing for so many seconds all that is under way goes by another connection."""
OLDEST = 60.0
"""So does what is under way for so many seconds, whatever else is confirmed meanwhile."""
NUDGE = 10
"""After so many looks the last frames of the streams are sent again of which there is no news."""


class Sender:
    """A store, its spool, and the way to the broker: for one event loop, and one task at a time."""

    def __init__(self, path: StorePath, brokers: Sequence[str], *, name: str = "summarystore",
                 shards: int = 1, spool: StorePath | None = None, spool_bytes: int = LIMIT, copies: int = 1,
                 program: str | None = None, checked: bool | None = None) -> None:
        self._path = path
        self._brokers = brokers
        self._log = Log(name, shards)
        self._folder = Path(os.fsdecode(spool) if spool is not None else f"{os.fsdecode(path)}.spool")
        self._spool_bytes = spool_bytes
        self._program = program
        self._checked = checked
        self.outgoing = Outgoing(copies)
        self._names = SentNames(path)
        self._patience = Patience()
        self._done = 0
        self._edge: Edge | None = None
        self._link: Link | None = None
        self._task: asyncio.Task[None] | None = None
        self._tag = 0
        self._judged_at = 0.0
        self._returned: set[str] = set()
        self._came_back_at = -SILENT
        self._sent_at: dict[int, float] = {}
        self._shown = ""
        self._written = ""
        self._news = True

    # ---- life ---------------------------------------------------------------------------

    async def __aenter__(self) -> Self:
        await asyncio.to_thread(self._open)
        self._task = asyncio.get_running_loop().create_task(self._carry())
        return self

    def _open(self) -> None:
        spool = Spool(self._folder, self._spool_bytes)
        try:
            self._begin(Edge(self._path, spool, self._program, self._checked))
        except BaseException:
            spool.close()
            raise

    def _begin(self, edge: Edge) -> None:
        self._names.look()
        needed = self._folder / "needed"
        for line in needed.read_text("utf-8").splitlines() if needed.exists() else ():
            name, first, until = line.split(" ")
            self.outgoing.needs_copy(name, int(first), int(until))
        for found in edge.open():
            if isinstance(found, bytes):
                self.outgoing.add(found)
            else:
                self.outgoing.begin(found[0], found[2] + 1)
                self.outgoing.needs_copy(*found)
        for damage in edge.spool.damaged:
            log.error("spool damaged: %s", damage)
        self._edge = edge
        self._tell_needs()

    async def __aexit__(self, kind: type[BaseException] | None, error: BaseException | None,
                        trace: TracebackType | None) -> None:
        await self.close()

    async def close(self) -> None:
        """Ends the carrying, and lets the program end in order. What isn't carried stays in the spool."""
        if self._task is not None:
            self._task.cancel()
            await asyncio.wait([self._task])
            self._task = None
        edge, self._edge = self._edge, None
        if edge is not None:
            await asyncio.to_thread(edge.close)

    # ---- lines --------------------------------------------------------------------------

    async def take(self, lines: Iterable[str]) -> Sequence[Reply]:
        """Gives lines to the store. A reply that says `ok` comes when the frame is safe, too."""
        if self._edge is None:
            raise SpoolError("the sender is closed")
        self._look_at_names()
        taken: Taken = await asyncio.to_thread(self._edge.take, list(lines))
        for frame in taken.frames:
            self.outgoing.add(frame)
        if taken.gone:
            self.outgoing.gone(taken.gone)
            self._tell_needs()
        self._pump()
        return taken.replies

    async def declare(self, name: str, **described: Any) -> Codec:
        """Keeps the long name of a stream before it is made, with what `create` of a store takes: `scale`,
        `unit` and so on. The codec has the short name for its lines, and makes the numbers in them of times
        and values."""
        names = Names(self._path)
        names.learn((await self.take(["list"]))[0].rows)
        return await asyncio.to_thread(names.declare, name, description_of(**described))

    def _look_at_names(self) -> None:
        """Where the names file is another one, it goes on with that. One that can't be understood is told."""
        try:
            self._names.look()
        except (SummaryStoreError, OSError) as error:
            log.error("names: reason=%s", error)

    async def drained(self, seconds: float) -> bool:
        """Waits until followers have all, for at most so long. Says whether they do."""
        end = asyncio.get_running_loop().time() + seconds
        while self.outgoing.left and asyncio.get_running_loop().time() < end:
            await asyncio.sleep(0.02)
        return not self.outgoing.left

    def _tell_needs(self) -> None:
        """Keeps of which events followers need a copy, and says what is new of it."""
        text = "".join(f"{name} {need.first} {need.until}\n" for name, need in self.outgoing.needs.items())
        if text == self._written or not text and not (self._folder / "needed").exists():
            return
        write_whole(self._folder / "needed", text)
        for line in set(text.splitlines()) - set(self._written.splitlines()):
            name, first, until = line.split(" ")
            log.warning("a copy is needed: stream=%s from=%s until=%s", name, first, until)
        self._written = text

    # ---- carrying -----------------------------------------------------------------------

    async def _carry(self) -> None:
        await keep_linked(self._brokers, self._work, self._say)

    def _say(self, state: str) -> None:
        if state != self._shown:
            log.info("%s", state)
            self._shown = state

    async def _work(self, link: Link) -> None:
        """Sends over one connection until it ends."""
        await link.declare(self._log)
        assert self._edge is not None
        answers = (await link.ask("queue_declare", "", exclusive=True)).method.queue
        await link.ask("queue_bind", answers, self._log.told, routing_key=self._edge.spool.sender)
        await link.ask("basic_consume", answers, self._heard, auto_ack=True)
        self._tag = 0
        self._returned.clear()
        self._sent_at.clear()
        await link.ask("confirm_delivery", self._judged)
        link.channel.add_on_return_callback(self._came_back)
        self._link = link
        self._patience.begins(asyncio.get_running_loop().time())
        try:
            self._pump()
            await self._watch(link)
        finally:
            self._link = None
            self.outgoing.lost()

    async def _watch(self, link: Link) -> None:
        """Looks now and then, until the connection ends: trims the spool, and asks where nothing is heard."""
        looks, loop = 0, asyncio.get_running_loop()
        while not link.ended.is_set():
            try:
                await asyncio.wait_for(link.ended.wait(), LOOK)
            except asyncio.TimeoutError:
                pass
            looks += 1
            if self._news:
                await self._trim()
            if looks % NUDGE == 0:
                self.outgoing.nudge()
            self._look(loop.time())
            self._pump()
        self._say(f"not connected: {link.why}")

    async def _trim(self) -> None:
        """Lets the spool drop what followers have. Where the disk refuses that it is tried again."""
        if self._edge is None:
            return
        self._news = False
        try:
            await asyncio.to_thread(self._edge.spool.trim, self.outgoing.held)
            self._tell_needs()
        except (SpoolError, OSError) as error:
            self._news = True
            log.error("spool: reason=%s", error)

    def _look(self, now: float) -> None:
        """Where the broker confirms nothing, or followers tell of none of what stands, it goes by another
        node."""
        if self.outgoing.under_way and now > self._judged_at + SILENT:
            raise BrokerError(f"no confirmation for {SILENT:.0f} s")
        if now > min(self._sent_at.values(), default=now) + OLDEST:
            raise BrokerError(f"no confirmation of one message for {OLDEST:.0f} s")
        if self.outgoing.done != self._done or not self.outgoing.left:
            self._done = self.outgoing.done
            self._patience.moved(now)
        elif self._patience.is_over(now):
            came_back = ", and no queue takes them" if self._came_back_at + SILENT > now else ""
            raise BrokerError(f"followers tell of no event for {self._patience.quiet(now):.0f} s{came_back}")

    def _pump(self) -> None:
        """Sends as much as may be under way."""
        link = self._link
        while link is not None and not link.ended.is_set() and len(self.outgoing.under_way) < WINDOW:
            piece = self.outgoing.take(self._tag + 1)
            if piece is None:
                return
            self._tag += 1
            self._sent_at[self._tag] = asyncio.get_running_loop().time()
            if len(self.outgoing.under_way) == 1:
                self._judged_at = self._sent_at[self._tag]
            try:
                link.channel.basic_publish(self._log.entrance, piece.name, message(piece.frames),
                                           properties(self._edge_name(), self._tag,
                                                      self._names.text(piece.name)), mandatory=True)
            except AMQPError:
                return      # the connection is ending, and what is under way goes again

    def _edge_name(self) -> str:
        assert self._edge is not None
        return self._edge.spool.sender

    def _came_back(self, _channel: object, _method: object, given: Any, _body: bytes) -> None:
        """No queue takes a message: its confirmation counts for nothing."""
        self._returned.add(str(given.message_id))
        self._came_back_at = asyncio.get_running_loop().time()

    def _judged(self, frame: Any) -> None:
        """The broker has a message, or it doesn't; perhaps with all before it."""
        method = frame.method
        self._judged_at = asyncio.get_running_loop().time()
        last = int(method.delivery_tag)
        tags = [tag for tag in self.outgoing.under_way if tag <= last] if method.multiple else [last]
        came_back = False
        for tag in tags:
            self._sent_at.pop(tag, None)
            if method.NAME == "Basic.Ack" and str(tag) not in self._returned:
                self.outgoing.confirmed(tag)
                continue
            came_back = True
            self._returned.discard(str(tag))
            self.outgoing.failed(tag)
        if not came_back:       # else the next look sends it again
            self._pump()

    def _heard(self, _channel: object, _method: object, _properties: object, body: bytes) -> None:
        """A follower tells how many events it has, and of which streams it misses the next."""
        try:
            found = json.loads(body)
            follower = str(found["follower"])
            numbers = {str(name): int(number) for name, number in found["have"].items()}
            wanted = [str(name) for name in found["wanted"]]
        except (ValueError, KeyError, TypeError, AttributeError):
            log.warning("not understood: %r", body[:100])
            return
        self._news = True
        self.outgoing.told(follower, numbers)
        now = asyncio.get_running_loop().time()
        for name in wanted:
            if not self.outgoing.wanted(name, numbers.get(name, 0), now):
                log.warning("a copy is needed: follower=%s stream=%s from=%d", follower, name,
                            numbers.get(name, 0) + 1)
        self._pump()
