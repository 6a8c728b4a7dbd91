"""A follower: a store that takes the events of others, from a queue of a broker."""

from __future__ import annotations

import asyncio
import json
import logging
import time
from collections import deque
from collections.abc import Mapping, Sequence
from contextlib import suppress
from functools import partial
from pathlib import Path

from pika.exceptions import AMQPError

from ..errors import SummaryStoreError
from ..program import StorePath
from .broker import Link, keep_linked
from .deliveries import Delivery, Part, delivery_of
from .errors import BrokerError
from .frames import SIZE
from .gaps import Gap, Gaps, Step
from .logs import KEPT, STREAM, Log, own_name
from .marks import Marks
from .naming import TakenNames
from .patience import Patience
from .position import Position
from .taking import MOST, Follow

log = logging.getLogger("summarystore.fleet")
PREFETCH = 2000
"""So many deliveries come without an acknowledgement."""
HELD = 1500
"""So many of a queue that is emptied are held behind gaps."""
LOOK = 0.2
TELL = 1.0
NAMES = 1000
"""So many streams are told of in one message."""
PAUSES = (0.5, 1.0, 2.0, 5.0, 10.0)
ASK = 20.0
"""Where nothing comes for so many seconds the broker is asked what the queue has."""
FULL = ("refused STREAMS", "refused STORE_FULL")
OTHER_BOUNDS = "(406"
"""How the reason begins where a queue stands that was declared otherwise."""


class FullError(SummaryStoreError):
    """The store takes no more streams or records."""


class Follower:
    """A store that follows. `state` says how it stands with the broker, and `trouble` with its store."""

    def __init__(self, path: StorePath, brokers: Sequence[str], *, name: str = "summarystore",
                 shards: int = 1, shard: int = 0, part: Part = Part(), kind: str = STREAM,
                 follower: str | None = None, program: str | None = None,
                 checked: bool | None = None, kept: int = KEPT) -> None:
        self.store = Follow(path, program, checked)
        self._brokers = brokers
        self._log = Log(name, shards)
        self._shard = self._log.shard(shard)
        self._part = part
        self._stays = kind == STREAM
        self._kind = kind
        self._bounds = self._log.bounds(kind, kept)
        self._stands = False
        """Whether its queue stands, and has other bounds."""
        self.follower = follower or own_name(self.store.path)
        self._position = Position(self.store.path, self._shard)
        self.names = TakenNames(self.store.path)
        self._gaps = Gaps(self._stays)
        self._deliveries: deque[Delivery] = deque()
        self._held: dict[str, list[Delivery]] = {}
        self._open: set[int] = set()
        self._wake = asyncio.Event()
        self._offset: int | None = None
        self.marks = Marks()
        self._places: dict[str, int] = {}
        self.have: dict[str, int] = {}
        self._senders: dict[str, str] = {}
        self._changed: dict[str, set[str]] = {}
        self._wanted: dict[str, set[str]] = {}
        self._told_at = 0.0
        self._patience = Patience()
        self._asked_at = 0.0
        self._left = 0
        """So many messages the queue had when it was asked, where none has come since."""
        self._pauses = 0
        self.version = 0
        """Greater after each event that was done, and each name that was kept."""
        self.put_aside = 0
        self.following = False
        """Whether its queue stands, and what comes is taken."""
        self.state = "not connected"
        self.trouble = ""

    # ---- life ---------------------------------------------------------------------------

    async def run(self) -> None:
        """Follows until it is cancelled."""
        self._offset, self.marks.drained = self._position.read()
        names = await self.store.names()
        if self._part.of > 1:
            await self.store.drop([name for name in names if not self._part.has(name)])
        self.names.stand(filter(self._part.has, names))
        await self.store.take(b"")      # it is opened, and made where there is none
        try:
            await keep_linked(self._brokers, self._work, self._say)
        finally:
            await self.store.close()
            self._keep_position()

    def _say(self, state: str) -> None:
        if state != self.state:
            log.info("%s", state)
            self.state = state

    @property
    def needs(self) -> Mapping[str, int]:
        """The streams that need a copy, each with the first event that is missing."""
        return {name: events + 1 for name, events in self._gaps.lost.items()}

    @property
    def gaps(self) -> int:
        """How many streams were given later events than the next."""
        return len(self._gaps)

    @property
    def as_of(self) -> float:
        """The last moment at which the store was known to have all of the log. 0: none is known."""
        return self.marks.drained

    async def look(self) -> None:
        """Looks whether the store has all of the log, where that isn't known of the last seconds."""
        if self.following and self.marks.want():
            self._wake.set()
            await self.marks.wait()

    async def copy(self, target: Path) -> tuple[int, float, float]:
        """Copies the store. Gives its version, the time of the copy, and what it is known to be as of."""
        return await self.store.copy(target, lambda: (self.version, time.time(), self.as_of))

    def _keep_position(self) -> None:
        """Keeps from where the log is to be read next. What is held behind gaps is read again."""
        held = self._gaps.offset
        offset = self._offset if held is None or self._offset is None else min(held, self._offset)
        self._position.keep(offset, self.as_of)

    # ---- over one connection ------------------------------------------------------------

    async def _work(self, link: Link) -> None:
        try:
            await self._follow(link)
        finally:
            self.following = False
            self.marks.ended(link.why)
        self._say(f"not connected: {link.why}")

    async def _follow(self, link: Link) -> None:
        self.marks.begins()
        await link.declare(self._log)
        queue = self._shard if self._stays else f"{self._shard}.{self.follower}"
        await self._declare(link, queue)
        self._asked_at = asyncio.get_running_loop().time()
        self._patience.begins(self._asked_at)
        self._left = 0
        self._deliveries.clear()
        self._held.clear()
        self._open.clear()
        begin = {"x-stream-offset": "first" if self._offset is None else self._offset} if self._stays else {}
        await link.ask("basic_qos", prefetch_count=PREFETCH)
        await link.ask("basic_consume", queue, partial(self._arrived, link), arguments=begin)
        self.following = True
        while not link.ended.is_set():
            with suppress(asyncio.TimeoutError):
                await asyncio.wait_for(self._wake.wait(), LOOK)
            self._wake.clear()
            try:
                await self._turn(link)
                await self._ask(link, queue)
            except BrokerError:
                raise
            except AMQPError as error:
                raise BrokerError(str(error) or type(error).__name__) from None
            except (SummaryStoreError, OSError) as error:
                await self._pause(error)

    async def _declare(self, link: Link, queue: str) -> int:
        """Its queue. One that stands may have other bounds: it is taken as it is, and that is told."""
        try:
            if not self._stays:
                await link.declare_dead(self._log)
            return await link.queue(queue, self._kind, self._shard, self._bounds, self._stands)
        except BrokerError as error:
            if str(error).startswith(OTHER_BOUNDS) and not self._stands:
                self._stands = True
                log.warning("the queue %s has other bounds than %s: a policy of the broker may set them",
                            queue, self._bounds)
            raise

    async def _ask(self, link: Link, queue: str) -> None:
        """Where nothing comes for long: declares all anew, since a node may have lost it, and looks whether
        the queue has messages that it doesn't give. In the end another node is tried anyway."""
        now = asyncio.get_running_loop().time()
        if self._patience.is_over(now):
            raise BrokerError(f"nothing came for {self._patience.quiet(now):.0f} s")
        if min(self._patience.quiet(now), now - self._asked_at) < ASK or link.ended.is_set():
            return
        self._asked_at = now
        await link.declare(self._log)
        before, self._left = self._left, await self._declare(link, queue)
        if before and self._left and not self._stays:
            raise BrokerError(f"{self._left} messages wait in the queue, and none came")

    async def _pause(self, error: Exception) -> None:
        """The program ended, or the store is full: what has no reply comes again over another connection."""
        self.trouble = str(error)
        log.error("store: reason=%s", error)
        await asyncio.sleep(PAUSES[min(self._pauses, len(PAUSES) - 1)])
        self._pauses += 1
        raise BrokerError("reading again after the store's trouble")

    async def _turn(self, link: Link) -> None:
        """Does what has come, and what is due."""
        while self._deliveries and not link.ended.is_set():
            await self._do(link, self._next())
            self._look(link)
        self._look(link)

    def _look(self, link: Link) -> None:
        now = asyncio.get_running_loop().time()
        for name, gap, step in self._gaps.due(now):
            self._mend(link, name, gap, step)
        if now >= self._told_at + TELL:
            self._told_at = now
            self._tell(link)
            self._keep_position()
        self.marks.look(link, self._shard)

    def _arrived(self, link: Link, _channel: object, method: object, properties: object, body: bytes
                 ) -> None:
        if not link.ended.is_set():     # else its tag would be one of another connection
            self._deliveries.append(delivery_of(method, properties, body))
            self._patience.moved(asyncio.get_running_loop().time())
            self._left = 0
            self._wake.set()

    def _next(self) -> list[Delivery]:
        """Deliveries whose frames go together."""
        found, count = [], 0
        while self._deliveries and count + len(self._deliveries[0].frames) <= MOST * SIZE:
            found.append(self._deliveries.popleft())
            count += len(found[-1].frames)
        return found

    async def _do(self, link: Link, deliveries: Sequence[Delivery]) -> None:
        """Gives frames to the store, and acknowledges what it has. Their names are on the disk by then."""
        ours = [delivery for delivery in deliveries if self._part.has(delivery.name)]
        news = self.names.news((delivery.name, delivery.named) for delivery in ours)
        if news:
            await asyncio.to_thread(self.names.keep, news)
            self.version += 1
        replies = deque(await self.store.take(b"".join(delivery.frames for delivery in ours)))
        self.trouble, self._pauses = "", 0
        done = []
        for delivery in deliveries:
            said = [replies.popleft() for _ in range(delivery.size)] if self._part.has(delivery.name) else []
            if delivery.mark:
                self.marks.came(delivery.mark, whole=not self._gaps)
                done.append(delivery.tag)
            elif not delivery.name:
                self._lay_aside(link, delivery, "no message of a sender's")
            elif self._judge(link, delivery, said):
                done.append(delivery.tag)
            if delivery.offset is not None:
                self._offset = max(self._offset or 0, delivery.offset + 1)
        self._acknowledge(link, done)

    def _acknowledge(self, link: Link, done: Sequence[int]) -> None:
        if not done or link.ended.is_set():
            return
        if not self._open:
            link.channel.basic_ack(max(done), multiple=True)
            return
        for tag in done:
            link.channel.basic_ack(tag)

    def _lay_aside(self, link: Link, delivery: Delivery, reason: str) -> None:
        """A delivery is none that can ever be done."""
        self.put_aside += 1
        self._open.discard(delivery.tag)
        log.warning("put aside: stream=%s event=%d reason=%s", delivery.name, delivery.first, reason)
        self._dead(link, delivery)

    # ---- replies ------------------------------------------------------------------------

    def _judge(self, link: Link, delivery: Delivery, replies: Sequence[str]) -> bool:
        """Takes the replies to a delivery's frames. Says whether it is done."""
        name, before = delivery.name, self.have.get(delivery.name, 0)
        for number, reply in enumerate(replies, delivery.first):
            if reply.startswith("ok ") or reply == "old":
                self.version += reply != "old"
                self.have[name] = max(number, self.have.get(name, 0))
            elif reply.startswith("gap "):
                self.have[name] = int(reply[4:])
                return self._too_early(link, delivery)
            elif reply in FULL:
                raise FullError(f"{self.store.path}: {reply}")
            else:
                self._lay_aside(link, delivery, reply)
                return False
        self._open.discard(delivery.tag)
        if replies:
            self._done(delivery, self.have[name] > before)
        return True

    def _done(self, delivery: Delivery, further: bool) -> None:
        """A delivery is in the store. What was held of its stream is tried again."""
        name = delivery.name
        self._to_tell(delivery)
        if delivery.offset is not None:
            self._places[name] = delivery.offset
        self._gaps.came(name, self.have[name], asyncio.get_running_loop().time())
        if further and name in self._held:
            self._deliveries.extendleft(sorted(self._held.pop(name), key=lambda held: -held.first))

    def _too_early(self, link: Link, delivery: Delivery) -> bool:
        """Events before a delivery's are missing. Says whether it is done with."""
        name = delivery.name
        self._gaps.missing(name, self.have[name], delivery.last, delivery.offset,
                           asyncio.get_running_loop().time())
        self._to_tell(delivery)
        if name in self._gaps.lost:
            self._open.discard(delivery.tag)
            self._dead(link, delivery)
            return False
        self._open.add(delivery.tag)
        self._held.setdefault(name, []).append(delivery)
        if len(self._open) > HELD:
            if self._stays:
                self._read_again(self._gaps.offset)
            self._release(link, name)
        return False

    def _read_again(self, offset: int | None) -> None:
        """Begins to read the log again at a place, None for its begin."""
        self._offset = offset
        raise BrokerError("reading the log again")

    def _dead(self, link: Link, delivery: Delivery) -> None:
        """Lets go what the store can't take: a log keeps it anyway, and of a queue it goes to its dead
        letters. What only a copy can help, the copy has."""
        if link.ended.is_set():
            return
        if self._stays:
            link.channel.basic_ack(delivery.tag)
        else:
            link.channel.basic_reject(delivery.tag, requeue=False)

    def _release(self, link: Link, name: str) -> None:
        """Lets go what is held of a stream."""
        for delivery in self._held.pop(name, []):
            self._open.discard(delivery.tag)
            self._dead(link, delivery)

    def _mend(self, link: Link, name: str, gap: Gap, step: Step) -> None:
        """Does what is due about a gap."""
        log.info("gap: stream=%s events=%d step=%s", name, gap.events, step.value)
        if step is Step.ASK:
            self._wanted.setdefault(self._senders.get(name, ""), set()).add(name)
            self._told_at = 0.0
        elif step is Step.LOST:
            log.error("a copy is needed: stream=%s from=%d", name, gap.events + 1)
            self._release(link, name)
        elif step is Step.BEGIN or gap.offset is None:
            self._read_again(None)
        else:
            self._read_again(min(gap.offset, self._places.get(name, gap.offset)))

    # ---- what senders are told ----------------------------------------------------------

    def _to_tell(self, delivery: Delivery) -> None:
        self._senders[delivery.name] = delivery.sender
        self._changed.setdefault(delivery.sender, set()).add(delivery.name)

    def _tell(self, link: Link) -> None:
        """Tells each sender how many events of its streams are here, as far as that is new."""
        for sender in {*self._changed, *self._wanted}:
            wanted = self._wanted.pop(sender, set())
            names = sorted(self._changed.pop(sender, set()) | wanted)
            for at in range(0, len(names), NAMES):
                some = names[at:at + NAMES]
                body = {"follower": self.follower, "have": {name: self.have[name] for name in some},
                        "wanted": [name for name in some if name in wanted]}
                if not link.ended.is_set():
                    link.channel.basic_publish(self._log.told, sender, json.dumps(body).encode())
