"""Asks shards by HTTP: of each its replicas one after another, until one answers."""

from __future__ import annotations

import asyncio
import logging
import time
from collections.abc import AsyncIterator, Awaitable, Callable, Mapping, Sequence
from contextlib import AsyncExitStack, asynccontextmanager
from dataclasses import dataclass
from decimal import Decimal
from typing import TypeVar

import aiohttp

from ..errors import SummaryStoreError
from ..server import exactjson
from ..server.asked import SECONDS
from .layout import Asking, Shard

log = logging.getLogger("summarystored")
LARGEST = 64 << 20
"""Bytes of an answer that is taken whole."""
PIECE = 1 << 16
COPIED, AS_OF = "Summarystore-Copied", "Summarystore-As-Of"
"""The headers by which a follower tells the time of its copy, and the last moment of which it surely has
all."""
Words = Sequence[tuple[str, str]]


class NoAnswerError(SummaryStoreError):
    """No replica of a shard answers."""

    def __init__(self, shard: str, reason: str) -> None:
        super().__init__(shard, reason)
        self.shard = shard
        self.reason = reason

    def __str__(self) -> str:
        return f"the shard {self.shard} doesn't answer: {self.reason}"


class _FailedError(Exception):
    """One replica doesn't answer as it should."""


@dataclass
class Replica:
    """A service that has the streams of a shard, and how it did."""

    base: str
    rests_until: float = 0.0
    answered: float | None = None
    """When it did last, by the clock of the system."""
    reason: str | None = None
    """Why it didn't, where it didn't at last."""
    behind: Decimal | None = None
    """The moment of its last answer, where that lay too far back."""
    behind_until: float = 0.0
    """Until then it is asked after those that aren't behind."""

    def told(self) -> Mapping[str, object]:
        """For `/healthz`."""
        state = "failed" if self.reason else "unknown" if self.answered is None else "answers"
        answered = None if self.answered is None else round(self.answered)
        return {"address": self.base, "state": state, "reason": self.reason, "answered": answered,
                "behind": self.behind}


@dataclass(frozen=True)
class Answer:
    """What a shard says: a status, and an object of JSON; and in seconds the moment that it is as of, where
    a follower says it."""

    status: int
    body: Mapping[str, object]
    as_of: Decimal | None = None


A = TypeVar("A", Answer, aiohttp.ClientResponse)


class Shards:
    """All shards. It is opened and used within one event loop."""

    def __init__(self, shards: Sequence[Shard], asking: Asking) -> None:
        self.shards = shards
        self._asking = asking
        self.replicas = {shard.name: [Replica(base) for base in shard.replicas] for shard in shards}
        self._turns = asyncio.Semaphore(asking.together)
        self._client: aiohttp.ClientSession | None = None

    async def open(self) -> None:
        """Makes the client."""
        headers = {"Accept": "application/json"}
        if self._asking.token is not None:
            headers["Authorization"] = f"Bearer {self._asking.token}"
        self._client = aiohttp.ClientSession(
            headers=headers, connector=aiohttp.TCPConnector(limit=0), cookie_jar=aiohttp.DummyCookieJar())

    async def close(self) -> None:
        """Ends what is under way."""
        if self._client is not None:
            await self._client.close()

    def answers(self, shard: Shard) -> bool:
        """Whether a replica answered when it was last asked, and wasn't behind."""
        return any(each.answered is not None and each.reason is None and each.behind is None
                   for each in self.replicas[shard.name])

    def all_answer(self, shard: Shard) -> bool:
        """Whether no replica of it failed when it was last asked."""
        return all(each.reason is None for each in self.replicas[shard.name])

    async def ask(self, shard: Shard, path: str, words: Words) -> Answer:
        """The answer of the first replica that has one. Raises NoAnswerError where none has.

        A replica may be behind, so what it doesn't know the next is asked, and where it is far behind, too.
        It is unknown where all say so.
        """
        return await self._first(shard, lambda replica: self._answer(replica, path, words))

    @asynccontextmanager
    async def opened(self, shard: Shard, path: str, words: Words, headers: Mapping[str, str]
                     ) -> AsyncIterator[aiohttp.ClientResponse | None]:
        """The begun answer of the first replica that has one, to be read piece by piece. None where all
        say that they have no such stream."""
        async with self._turns, AsyncExitStack() as stack:
            found = await self._first(
                shard, lambda replica: self._begun(stack, replica, path, words, headers))
            yield None if found.status == 404 else found

    async def _first(self, shard: Shard, ask: Callable[[Replica], Awaitable[A]]) -> A:
        """What the first replica says that knows what is asked for, or the first of all where none knows.
        Raises NoAnswerError where one of them doesn't answer, and no other knows it."""
        unknown: A | None = None
        best: A | None = None
        reasons = []
        for replica in self._in_order(shard):
            try:
                found = await ask(replica)
            except _FailedError as error:
                self._failed(shard, replica, str(error))
                reasons.append(f"{replica.base}: {error}")
                continue
            self._did(shard, replica)
            behind = self.behind(as_of_of(found))
            self._is_behind(shard, replica, behind)
            if found.status == 404:
                unknown = unknown or found
            elif behind is None:
                return found
            elif best is None or behind > (as_of_of(best) or 0):
                best = found
        if best is not None:
            return best
        if unknown is None or reasons:
            raise NoAnswerError(shard.name, "; ".join(reasons))
        return unknown

    def behind(self, as_of: Decimal | None) -> Decimal | None:
        """The moment that an answer is as of, where it lies too far back."""
        if as_of is None or as_of >= Decimal(time.time()) - Decimal(self._asking.behind_seconds):
            return None
        return as_of

    def _is_behind(self, shard: Shard, replica: Replica, behind: Decimal | None) -> None:
        if behind is not None and replica.behind is None:
            log.warning("replica is behind: shard=%s address=%s as_of=%s", shard.name, replica.base, behind)
        if behind is None and replica.behind is not None:
            log.info("replica isn't behind any more: shard=%s address=%s", shard.name, replica.base)
        replica.behind = behind
        replica.behind_until = 0.0 if behind is None else time.monotonic() + self._asking.rest_seconds

    async def _begun(self, stack: AsyncExitStack, replica: Replica, path: str, words: Words,
                     headers: Mapping[str, str]) -> aiohttp.ClientResponse:
        """The head of one replica's answer. What was opened is closed by the stack."""
        try:
            found = await stack.enter_async_context(self._request(replica, path, words, headers, None))
        except (aiohttp.ClientError, asyncio.TimeoutError, OSError) as error:
            raise _FailedError(_said(error)) from None
        if not _serves(found.status):
            raise _FailedError(f"status {found.status}")
        return found

    def _in_order(self, shard: Shard) -> Sequence[Replica]:
        """Those that answered lately as they stand, then those that were behind, the least far first, and
        last those that didn't answer."""
        now = time.monotonic()

        def rank(each: Replica) -> tuple[bool, Decimal]:
            behind = each.behind if each.behind_until > now else None
            return each.rests_until > now, Decimal("-Infinity") if behind is None else -behind
        return sorted(self.replicas[shard.name], key=rank)

    def _did(self, shard: Shard, replica: Replica) -> None:
        if replica.reason is not None:
            log.info("replica answers again: shard=%s address=%s", shard.name, replica.base)
        replica.answered, replica.reason, replica.rests_until = time.time(), None, 0.0

    def _failed(self, shard: Shard, replica: Replica, reason: str) -> None:
        if replica.reason is None:
            log.warning("replica doesn't answer: shard=%s address=%s reason=%s", shard.name, replica.base,
                        reason)
        replica.reason = reason
        replica.rests_until = time.monotonic() + self._asking.rest_seconds

    @asynccontextmanager
    async def _request(self, replica: Replica, path: str, words: Words, headers: Mapping[str, str],
                       seconds: float | None) -> AsyncIterator[aiohttp.ClientResponse]:
        assert self._client is not None
        asking = self._asking.seconds
        timeout = aiohttp.ClientTimeout(total=seconds, sock_connect=asking, sock_read=asking)
        async with self._client.get(replica.base + path, params=list(words), headers=headers, timeout=timeout,
                                    allow_redirects=False) as response:
            yield response

    async def _answer(self, replica: Replica, path: str, words: Words) -> Answer:
        try:
            async with self._turns, self._request(replica, path, words, {}, self._asking.seconds) as response:
                if not _serves(response.status):
                    raise _FailedError(f"status {response.status}")
                return Answer(response.status, object_of(await whole_of(response)), as_of_of(response))
        except (aiohttp.ClientError, asyncio.TimeoutError, OSError, ValueError) as error:
            raise _FailedError(_said(error)) from None


def _said(error: Exception) -> str:
    return "no answer in time" if isinstance(error, asyncio.TimeoutError) else str(error)[:200] or repr(error)


def _serves(status: int) -> bool:
    """Whether a status is an answer to the question. The others are about the service that was asked."""
    return status < 500 and status not in (401, 403, 408, 429) and not 300 <= status < 400


def as_of_of(found: Answer | aiohttp.ClientResponse) -> Decimal | None:
    """The moment that an answer is as of, where it says one. Earlier followers say the time of their copy."""
    if isinstance(found, Answer):
        return found.as_of
    told = found.headers.get(AS_OF, found.headers.get(COPIED, ""))
    return Decimal(told) if SECONDS.fullmatch(told) else None


async def whole_of(response: aiohttp.ClientResponse) -> bytes:
    """An answer, taken whole."""
    pieces, size = [], 0
    async for piece in response.content.iter_chunked(PIECE):
        size += len(piece)
        if size > LARGEST:
            raise _FailedError(f"the answer has more than {LARGEST} bytes")
        pieces.append(piece)
    return b"".join(pieces)


def object_of(data: bytes) -> Mapping[str, object]:
    """The object that an answer is."""
    found = exactjson.loads(data)
    if not isinstance(found, dict):
        raise _FailedError("the answer is no object of JSON")
    if found.get("partial"):
        raise _FailedError("its own answer is partial")
    return found
