"""A replica that is cut off from its broker: it and the gateway say of which moment it has all."""

from __future__ import annotations

import time
from collections.abc import AsyncIterator
from contextlib import AsyncExitStack, asynccontextmanager
from pathlib import Path
from typing import Any

import aiohttp
import pytest

from summarystore.fleet import marks
from summarystore.fleet.following import Follower
from summarystore.fleet.logs import QUORUM, STREAM
from summarystore.fleet.sending import Sender
from summarystore.fleet.serving import AS_OF, serving

from ..gateway.shards import GatewayClient, gateway_to, layout
from ..waiting import run, soon
from .rabbit import Cluster
from .relay import Relay
from .test_following import following

RANGE = {"stream": "a", "kind": "count", "from": "0", "to": "9999999999"}
OVER = {"streams": "*", "kind": "count", "from": "0", "to": "9999999999"}


class Replica:
    """A follower behind a relay, and what it answers."""

    def __init__(self, follower: Follower, relay: Relay, session: aiohttp.ClientSession, base: str) -> None:
        self.follower, self.relay, self.base = follower, relay, base
        self._session = session
        self.as_of = 0.0

    async def get(self, path: str, status: int = 200, /, **words: str) -> Any:
        async with self._session.get(self.base + path, params=words) as answer:
            assert answer.status == status, await answer.text()
            self.as_of = float(answer.headers.get(AS_OF, "0"))
            return await answer.json()

    async def as_of_after(self, moment: float) -> None:
        """Asks until the answer is as of a later moment."""
        while self.as_of <= moment:
            await self.get("/api/query", **RANGE)


@asynccontextmanager
async def replica(cluster: Cluster, store: Path, name: str, kind: str, program: str
                  ) -> AsyncIterator[Replica]:
    relay = Relay(cluster.nodes[0].port)
    await relay.open()
    follower = Follower(store, [relay.url], name=name, kind=kind, follower=store.stem, program=program)
    async with serving("127.0.0.1:0", 0.0, None)(follower) as http, aiohttp.ClientSession() as session:
        assert http.address is not None
        async with following(follower):
            yield Replica(follower, relay, session, f"http://127.0.0.1:{http.address[1]}")
    relay.cut()


async def asked(client: GatewayClient, **words: str) -> Any:
    return await client.get("/api/query", **words)


@pytest.mark.parametrize("kind", [STREAM, QUORUM])
def test_a_replica_without_its_broker(cluster: Cluster, folder: Path, program: str, kind: str,
                                      monkeypatch: pytest.MonkeyPatch) -> None:
    monkeypatch.setattr(marks, "AGE", 0.0)

    async def tried(stack: AsyncExitStack) -> None:
        name = cluster.new_name(f"cut-off-{kind}")
        one = await stack.enter_async_context(replica(cluster, folder / "one.store", name, kind, program))
        two = await stack.enter_async_context(replica(cluster, folder / "two.store", name, kind, program))
        await soon(lambda: one.follower.following and two.follower.following)
        sender = await stack.enter_async_context(Sender(folder / "edge.store", cluster.urls, name=name,
                                                        program=program))
        text = layout({"south": [one.base, two.base]},
                      "[asking]\nseconds = 20\nbehind_seconds = 1\nrest_seconds = 1\nlook_seconds = 1\n")
        client = await stack.enter_async_context(gateway_to(text))
        await sender.take(["create a exp 2 60 1", *(f"append a {at} 1" for at in range(1, 1001))])
        await soon(lambda: one.follower.have == two.follower.have == {"a": 1001})
        begun = time.time()
        await one.as_of_after(begun)
        assert (await one.get("/healthz"))["status"] == "ok" and one.follower.put_aside == 0
        one.relay.cut()
        await soon(lambda: not one.follower.following)
        cut = time.time()
        await sender.take([f"append a {at} 1" for at in range(1001, 2001)])
        await soon(lambda: two.follower.have == {"a": 2001})
        assert (await one.get("/api/query", **RANGE))["lo"] == 1000 and begun < one.as_of < cut
        health = await one.get("/healthz", 503)
        assert health["status"] == "no_broker" and begun < health["as_of"] < cut
        await soon(lambda: time.time() > cut + 1)
        told = await asked(client, **OVER)      # the one that is listed first is behind
        assert (told["lo"], told["exact"], told["partial"]) == (2000, True, False) and told["as_of"] > cut
        assert (await asked(client, **RANGE))["lo"] == 2000
        two.relay.cut()
        await soon(lambda: not two.follower.following and time.time() > two.follower.as_of + 1)
        told = await asked(client, **OVER)
        assert (told["lo"], told["partial"], told["missing"], told["behind"]) == (None, True, [], ["south"])
        assert told["answered"]["lo"] == 2000 and cut < told["as_of"] <= two.follower.as_of + 0.001
        assert client.headers["Summarystore-Partial"] == "south"
        told = await asked(client, **RANGE)
        assert (told["lo"], told["partial"], told["answered"]["lo"]) == (None, True, 2000)
        assert client.headers["Summarystore-Partial"] == "south"
        assert (await client.get("/healthz", 503))["status"] == "no_shard"
        await one.relay.open()
        await soon(lambda: one.follower.have == {"a": 2001})
        now = time.time()
        await one.as_of_after(now)
        while (told := await asked(client, **OVER))["partial"]:
            pass
        assert told["lo"] == 2000 and told["as_of"] > now
        assert (await one.get("/healthz"))["status"] == "ok"

    async def all_of_it() -> None:
        async with AsyncExitStack() as stack:
            await tried(stack)
    run(all_of_it())


def test_a_connection_that_passes_nothing(cluster: Cluster, folder: Path, program: str,
                                          monkeypatch: pytest.MonkeyPatch) -> None:
    """Before anybody has noticed that a connection is dead no answer is as of later than its death."""
    monkeypatch.setattr(marks, "AGE", 0.0)
    monkeypatch.setattr(marks, "COMES", 0.2)

    async def tried() -> None:
        name = cluster.new_name("half-open")
        async with replica(cluster, folder / "one.store", name, STREAM, program) as one:
            async with Sender(folder / "edge.store", cluster.urls, name=name, program=program) as sender:
                await sender.take(["create a exp 2 60 1", "append a 1 1"])
                await soon(lambda: one.follower.have == {"a": 2})
                await one.as_of_after(time.time())
                one.relay.passes.clear()
                dead = time.time()
                await sender.take(["append a 2 1"])
                for _ in range(20):
                    await one.get("/api/query", **RANGE)
                    assert one.follower.following and one.as_of < dead
                one.relay.passes.set()
                await soon(lambda: one.follower.have == {"a": 3})
                await one.as_of_after(dead)
    run(tried())


def test_what_was_known_is_known_after_a_new_start(cluster: Cluster, folder: Path, program: str) -> None:
    """And of another file of the store nothing is."""
    async def tried() -> None:
        name = cluster.new_name("again-known")
        async with replica(cluster, folder / "one.store", name, STREAM, program) as one:
            async with Sender(folder / "edge.store", cluster.urls, name=name, program=program) as sender:
                await sender.take(["create a exp 2 60 1", "append a 1 1"])
                await soon(lambda: one.follower.have == {"a": 2})
                begun = time.time()
                await one.as_of_after(begun)
        async with following(again := Follower(folder / "one.store", ["amqp://127.0.0.1:1"], name=name,
                                               program=program)):
            await soon(lambda: again.as_of > begun)
        (folder / "one.store").touch()
        async with following(again := Follower(folder / "one.store", ["amqp://127.0.0.1:1"], name=name,
                                               program=program)):
            await soon(lambda: again.store.pid is not None)
            assert again.as_of == 0
    run(tried())
