"""A follower over a real broker: what is missing, late, repeated or none of a sender's."""

from __future__ import annotations

import asyncio
import json
import subprocess
from collections.abc import AsyncIterator, Sequence
from contextlib import asynccontextmanager, suppress
from pathlib import Path
from typing import Any

import pytest

from summarystore.fleet.broker import Link, properties
from summarystore.fleet.deliveries import Part
from summarystore.fleet.following import Follower
from summarystore.fleet.frames import event_of, message
from summarystore.fleet.logs import QUORUM, STREAM, Log
from summarystore.fleet.sending import Sender

from ..waiting import run, soon
from .rabbit import Cluster


def frame(line: str, number: int) -> bytes:
    """The frame of a line."""
    event = event_of(line)
    assert event is not None
    return event.frame(number)


FRAMES = [frame("create a exp 2 60 1", 1), *(frame(f"append a {number} {number}", number)
                                             for number in range(2, 12))]


@asynccontextmanager
async def following(*followers: Follower) -> AsyncIterator[None]:
    """Followers that run."""
    tasks = [asyncio.ensure_future(follower.run()) for follower in followers]
    try:
        yield
    finally:
        for task in tasks:
            task.cancel()
            with suppress(asyncio.CancelledError):
                await task


class Hand:
    """Sends messages by hand, and hears what followers tell."""

    def __init__(self, link: Link, log: Log) -> None:
        self._link, self._log = link, log
        self.heard: list[Any] = []

    @classmethod
    @asynccontextmanager
    async def at(cls, cluster: Cluster, log: Log, name: str, kind: str) -> AsyncIterator[Hand]:
        """One with a connection, and with a queue of this name and kind."""
        link = await Link.to(cluster.urls[0])
        await link.declare(log)
        await link.queue(name, kind, log.shard(0))
        hand = cls(link, log)
        told = (await link.ask("queue_declare", "", exclusive=True)).method.queue
        await link.ask("queue_bind", told, log.told, routing_key="hand")
        await link.ask("basic_consume", told, hand._hears, auto_ack=True)
        try:
            yield hand
        finally:
            link.close()

    def _hears(self, _channel: object, _method: object, _properties: object, body: bytes) -> None:
        self.heard.append(json.loads(body))

    def send(self, *bodies: bytes) -> None:
        """Sends messages."""
        for body in bodies:
            self._link.channel.basic_publish(self._log.entrance, "a", body, properties("hand", 1))


def windows(program: str, store: Path, name: str = "a") -> str:
    """What a store shows of a stream."""
    return subprocess.run([program, str(store)], input=f"windows {name}\nlast {name}\n", capture_output=True,
                          text=True, check=True).stdout


def names_in(program: str, store: Path) -> set[str]:
    """The streams of a store."""
    done = subprocess.run([program, str(store)], input="list\n", capture_output=True, text=True, check=True)
    return {row.split(" ")[0] for row in done.stdout.splitlines()[1:]}


def expected(program: str, folder: Path, frames: Sequence[bytes]) -> str:
    """The same of a new store that was given these frames."""
    store = folder / "expected.store"
    subprocess.run([program, str(store), "follow"], input=b"".join(frames), stdout=subprocess.DEVNULL,
                   check=True)
    return windows(program, store)


@pytest.mark.parametrize("kind", [STREAM, QUORUM])
def test_late_repeated_and_missing(cluster: Cluster, folder: Path, program: str, kind: str) -> None:
    """Events come in a wrong order and twice, one never: the sender is asked for that one."""
    async def tried() -> None:
        log = Log(cluster.new_name(f"late-{kind}"), 1)
        follower = Follower(folder / "r.store", cluster.urls, name=log.name, kind=kind, follower="r",
                            program=program)
        queue = log.shard(0) if kind == STREAM else f"{log.shard(0)}.r"
        async with Hand.at(cluster, log, queue, kind) as hand, following(follower):
            hand.send(*(message(FRAMES[at]) for at in (1, 0, 1, 3, 2, 2, 0)), b"none", message(FRAMES[5]))
            await soon(lambda: any("a" in each["wanted"] for each in hand.heard))
            assert follower.have == {"a": 4} and follower.put_aside >= 1
            hand.send(message(FRAMES[4]), message(b"".join(FRAMES[6:])))
            await soon(lambda: follower.have == {"a": len(FRAMES)} and follower.gaps == 0)
            await soon(lambda: hand.heard[-1]["have"] == {"a": len(FRAMES)})
    run(tried())
    assert windows(program, folder / "r.store") == expected(program, folder, FRAMES)


def test_a_log_is_read_again(cluster: Cluster, folder: Path, program: str) -> None:
    """A store that was put back to an older copy finds in the log what it misses."""
    async def tried() -> None:
        log = Log(cluster.new_name("again"), 1)
        follower = Follower(folder / "r.store", cluster.urls, name=log.name, program=program)
        async with Hand.at(cluster, log, log.shard(0), STREAM) as hand, following(follower):
            hand.send(*map(message, FRAMES[:6]))
            await soon(lambda: follower.have == {"a": 6})
        (folder / "r.store").unlink()       # its place in the log stays
        follower = Follower(folder / "r.store", cluster.urls, name=log.name, program=program)
        async with Hand.at(cluster, log, log.shard(0), STREAM) as hand, following(follower):
            hand.send(*map(message, FRAMES[6:]))
            await soon(lambda: follower.have == {"a": len(FRAMES)} and follower.gaps == 0)
    run(tried())
    assert windows(program, folder / "r.store") == expected(program, folder, FRAMES)


def test_a_sender_sends_what_is_missing(cluster: Cluster, folder: Path, program: str) -> None:
    """A follower behind a queue that never had the first events gets them from the spool."""
    async def tried() -> None:
        name = cluster.new_name("spool")
        async with Sender(folder / "edge.store", cluster.urls, name=name, copies=2,
                          program=program) as sender:
            one, two = (Follower(folder / f"{each}.store", cluster.urls, name=name, kind=QUORUM,
                                 follower=each, program=program) for each in ("one", "two"))
            async with following(one):
                await sender.take(["create a exp 2 60 1", *(f"append a {time} 1" for time in range(1, 10))])
                await soon(lambda: one.have == {"a": 10})
                async with following(two):
                    await soon(lambda: two.following)
                    assert not await sender.drained(0)
                    await sender.take(["append a 10 1"])
                    await soon(lambda: two.have == {"a": 11})
                    await soon(lambda: not sender.outgoing.left)
                    assert await sender.drained(0)
    run(tried())
    assert windows(program, folder / "two.store") == windows(program, folder / "edge.store")


def test_a_shard_is_split(cluster: Cluster, folder: Path, program: str) -> None:
    """Names move by a copy of the file, and then by frames."""
    names = [f"s{number}" for number in range(8)]

    def lines(first: int) -> list[str]:
        return [f"append {name} {time} {time}" for time in range(first, first + 5) for name in names]

    async def tried() -> None:
        name = cluster.new_name("split")
        async with Sender(folder / "edge.store", cluster.urls, name=name, program=program) as sender:
            whole = Follower(folder / "0.store", cluster.urls, name=name, program=program)
            async with following(whole):
                await sender.take([*(f"create {name} exp 2 1 1" for name in names), *lines(1)])
                await soon(lambda: set(whole.have.values()) == {6} and len(whole.have) == len(names))
            await sender.take(lines(6))
            for end in ("", ".position"):
                (folder / f"1.store{end}").write_bytes((folder / f"0.store{end}").read_bytes())
            parts = [Follower(folder / f"{at}.store", cluster.urls, name=name, part=Part(at, 2),
                              program=program) for at in (0, 1)]
            async with following(*parts):
                await sender.take(lines(11))
                await soon(lambda: not sender.outgoing.left)
                assert await sender.drained(0)
    run(tried())
    found = [names_in(program, folder / f"{at}.store") for at in (0, 1)]
    assert found[0] | found[1] == set(names) and not found[0] & found[1] and all(found)
    for at in (0, 1):
        for name in found[at]:
            here, there = (windows(program, folder / f"{store}.store", name) for store in (at, "edge"))
            assert here == there
