"""A made-up broker of several nodes, each of which does what a test says, and links to them."""

from __future__ import annotations

import asyncio
from collections.abc import Callable
from types import SimpleNamespace
from typing import Any, cast

import pytest

from summarystore.fleet import broker
from summarystore.fleet.broker import Link

Publishing = Callable[["MadeUp", str, str, bytes, Any], None]


class MadeUp:
    """One connection to a node: what was asked of it, and what it does with a message."""

    def __init__(self, publishing: Publishing, ready: int = 0) -> None:
        self.ended = asyncio.Event()
        self.why = "closed"
        self.asked: list[str] = []
        self.ready = ready
        self.consume: Callable[..., None] | None = None
        self._judged: Callable[[Any], None] | None = None
        self._came_back: Callable[..., None] | None = None
        self._publishing = publishing
        self._tag = 0
        self.acknowledged: list[int] = []
        self.channel = self

    async def ask(self, method: str, *words: Any, **_more: object) -> Any:
        """Answers each question well."""
        self.asked.append(method)
        if method == "basic_consume":
            self.consume = words[1]
        elif method == "confirm_delivery":
            self._judged = words[0]
        return SimpleNamespace(method=SimpleNamespace(queue="answers", message_count=self.ready))

    async def declare(self, log: Any) -> None:
        """As a link does."""
        await Link.declare(cast(Link, self), log)

    async def queue(self, name: str, kind: str, exchange: str, bounds: Any = None, stands: bool = False
                    ) -> int:
        """As a link does."""
        return await Link.queue(cast(Link, self), name, kind, exchange, bounds, stands)

    async def declare_dead(self, log: Any) -> None:
        """As a link does."""
        await Link.declare_dead(cast(Link, self), log)

    def close(self) -> None:
        """Ends it."""
        self.ended.set()

    # ---- as a channel -------------------------------------------------------------------

    def add_on_return_callback(self, callback: Callable[..., None]) -> None:
        """Who is told what no queue takes."""
        self._came_back = callback

    def basic_publish(self, exchange: str, key: str, body: bytes, properties: Any = None,
                      mandatory: bool = False) -> None:
        """Takes a message. What it does with it comes later, as from a network."""
        self._tag += mandatory
        asyncio.get_running_loop().call_soon(self._publishing, self, exchange, key, body, properties)

    def basic_ack(self, tag: int, multiple: bool = False) -> None:
        """Takes down what a follower has."""
        self.acknowledged.append(tag)

    def confirms(self, properties: Any, comes_back: bool = False) -> None:
        """Says that it has a message, after it has sent it back where no queue takes it."""
        if comes_back and self._came_back is not None:
            self._came_back(self, None, properties, b"")
        if self._judged is not None:
            self._judged(SimpleNamespace(method=SimpleNamespace(
                NAME="Basic.Ack", delivery_tag=int(properties.message_id), multiple=False)))


def nodes(monkeypatch: pytest.MonkeyPatch, made: Callable[[str], MadeUp]) -> list[str]:
    """Connections are these from now on. Gives the list of the addresses that were called."""
    called: list[str] = []

    async def to(url: str) -> MadeUp:
        called.append(url)
        return made(url)
    monkeypatch.setattr(broker.Link, "to", to)
    return called
