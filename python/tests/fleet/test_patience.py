"""A broker whose connection stands, and which does nothing: another node is tried, on both sides."""

from __future__ import annotations

import asyncio
import json
from contextlib import suppress
from pathlib import Path
from types import SimpleNamespace
from typing import Any

import pytest

from summarystore.fleet import following, sending
from summarystore.fleet.following import Follower
from summarystore.fleet.frames import SIZE, frames_in, message, name_of, number_of
from summarystore.fleet.logs import QUORUM, STREAM
from summarystore.fleet.patience import FIRST, MOST, Patience
from summarystore.fleet.sending import Sender

from ..waiting import run, soon
from .link import MadeUp, nodes
from .test_following import FRAMES

URLS = ["amqp://bad", "amqp://good"]


def test_each_connection_is_kept_twice_as_long() -> None:
    patience = Patience(10, 35)
    patience.begins(100)
    assert not patience.is_over(109) and patience.is_over(110) and patience.quiet(110) == 10
    patience.begins(111)
    assert not patience.is_over(130) and patience.is_over(131)
    patience.begins(132)
    assert not patience.is_over(166) and patience.is_over(167)
    patience.begins(170)
    assert not patience.is_over(204) and patience.is_over(205)
    patience.moved(300)
    assert not patience.is_over(309) and patience.is_over(310)
    assert (Patience().seconds, MOST) == (FIRST, 900)


def _silent(link: MadeUp, exchange: str, _key: str, _body: bytes, properties: Any) -> None:
    link.confirms(properties)       # and no follower ever tells


def _back(link: MadeUp, exchange: str, _key: str, _body: bytes, properties: Any) -> None:
    link.confirms(properties, comes_back=True)


def _told(link: MadeUp, _exchange: str, _key: str, body: bytes, properties: Any) -> None:
    link.confirms(properties)
    frames = frames_in(body)
    assert link.consume is not None and frames is not None
    told = {"follower": "r", "have": {name_of(frames): number_of(frames[-SIZE:])}, "wanted": []}
    link.consume(link, None, None, json.dumps(told).encode())


@pytest.mark.parametrize("bad", [_silent, _back])
def test_a_sender_whom_nobody_tells(folder: Path, program: str, monkeypatch: pytest.MonkeyPatch, bad: Any
                                    ) -> None:
    """The node confirms all, or sends it back: it is sent by the next one, where all is declared anew."""
    monkeypatch.setattr(sending, "LOOK", 0.02)
    links: list[MadeUp] = []

    def made(url: str) -> MadeUp:
        links.append(MadeUp(bad if url == URLS[0] else _told))
        return links[-1]

    async def work() -> None:
        called = nodes(monkeypatch, made)
        sender = Sender(folder / "edge.store", URLS, program=program)
        sender._patience = Patience(0.3, 1)
        async with sender:
            await sender.take(["create a exp 2 60 1", "append a 1 1", "append a 2 2"])
            await soon(lambda: not sender.outgoing.left)
            assert called[:2] == URLS and all("exchange_declare" in link.asked for link in links)
            count = len(called)
            await asyncio.sleep(0.5)        # and where nothing is left none is given up
            assert len(called) == count and sender.outgoing.done == 3
    run(work())


def _forgets(link: MadeUp, exchange: str, _key: str, _body: bytes, properties: Any) -> None:
    """Of what it was given first it says nothing, and all else is as it should be."""
    if properties.message_id != "1":
        _told(link, exchange, _key, _body, properties)


def test_one_message_of_which_the_broker_says_nothing(folder: Path, program: str,
                                                      monkeypatch: pytest.MonkeyPatch) -> None:
    """Others are confirmed all the time: it goes by the next node for all that."""
    monkeypatch.setattr(sending, "LOOK", 0.02)
    monkeypatch.setattr(sending, "OLDEST", 0.5)

    async def work() -> None:
        called = nodes(monkeypatch, lambda url: MadeUp(_forgets if url == URLS[0] else _told))
        async with Sender(folder / "edge.store", URLS, program=program) as sender:
            await sender.take(["create a exp 2 60 1"])
            number = 0
            while len(called) < 2:
                number += 1
                await sender.take([f"create b{number} exp 2 60 1"])
                await asyncio.sleep(0.02)
            await soon(lambda: not sender.outgoing.left)
    run(work())


def test_a_disk_that_refuses_to_trim_the_spool(folder: Path, program: str, monkeypatch: pytest.MonkeyPatch
                                               ) -> None:
    """The sending goes on, and the spool is trimmed when that can be done."""
    monkeypatch.setattr(sending, "LOOK", 0.02)

    async def work() -> None:
        nodes(monkeypatch, lambda _url: MadeUp(_told))
        async with Sender(folder / "edge.store", URLS, program=program) as sender:
            assert sender._edge is not None
            spool, trims = sender._edge.spool, []
            trim = spool.trim

            def refused(held: Any) -> None:
                trims.append(1)
                if len(trims) < 3:
                    raise OSError(28, "No space left on device")
                trim(held)
            monkeypatch.setattr(spool, "trim", refused)
            await sender.take(["create a exp 2 60 1", "append a 1 1", "append a 2 2"])
            await soon(lambda: len(trims) >= 3 and not sender.outgoing.left)
    run(work())


def _nothing(_link: MadeUp, _exchange: str, _key: str, _body: bytes, _properties: Any) -> None:
    """What is told to senders goes nowhere."""


def _delivers(link: MadeUp) -> None:
    assert link.consume is not None
    link.consume(link, SimpleNamespace(delivery_tag=1), SimpleNamespace(
        headers={"x-stream-offset": 5}, app_id="s"), message(b"".join(FRAMES)))


async def _while_it_follows(follower: Follower, true: Any) -> None:
    task = asyncio.ensure_future(follower.run())
    try:
        await soon(lambda: task.done() or true())
        assert not task.done()
    finally:
        task.cancel()
        with suppress(asyncio.CancelledError):
            await task


@pytest.mark.parametrize("kind, waiting, seconds", [(QUORUM, 7, 600.0), (QUORUM, 0, 0.3), (STREAM, 7, 0.3)])
def test_a_follower_to_whom_nothing_comes(folder: Path, program: str, monkeypatch: pytest.MonkeyPatch,
                                          kind: str, waiting: int, seconds: float) -> None:
    """Its queue has messages and gives none, or nothing is known: the next node gives them."""
    monkeypatch.setattr(following, "ASK", 0.1)
    monkeypatch.setattr(following, "LOOK", 0.02)
    links: list[MadeUp] = []

    def made(url: str) -> MadeUp:
        links.append(MadeUp(_nothing, waiting if url == URLS[0] else 0))
        return links[-1]

    async def work() -> None:
        called = nodes(monkeypatch, made)
        follower = Follower(folder / "r.store", URLS, kind=kind, follower="r", program=program)
        follower._patience = Patience(seconds, 600)

        def is_there() -> bool:
            if called and called[-1] == URLS[1] and links[-1].consume is not None and not follower.have:
                _delivers(links[-1])
            return follower.have == {"a": len(FRAMES)} and called[:2] == URLS
        await _while_it_follows(follower, is_there)
        assert links[0].asked.count("queue_bind") >= 2     # what a node may have lost is declared again
    run(work())


def test_a_follower_of_a_quiet_log_keeps_its_connection(folder: Path, program: str,
                                                        monkeypatch: pytest.MonkeyPatch) -> None:
    """An empty queue, and one whose messages come, are no reason to leave a node."""
    monkeypatch.setattr(following, "ASK", 0.05)
    monkeypatch.setattr(following, "LOOK", 0.02)
    links: list[MadeUp] = []

    def made(_url: str) -> MadeUp:
        links.append(MadeUp(_nothing))
        return links[-1]

    async def work() -> None:
        called = nodes(monkeypatch, made)
        follower = Follower(folder / "r.store", URLS, kind=QUORUM, follower="r", program=program)

        def is_asked() -> bool:
            return bool(links) and links[0].asked.count("queue_bind") > 5
        await _while_it_follows(follower, is_asked)
        assert called == URLS[:1]
    run(work())
