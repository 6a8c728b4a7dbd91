"""Long names over a broker: a follower and a gateway answer by them."""

from __future__ import annotations

import asyncio
import shutil
from contextlib import suppress
from pathlib import Path
from types import SimpleNamespace
from typing import Any

import pytest

pytest.importorskip("aiohttp", reason="questions to a follower: python3-aiohttp is missing")

from summarystore.fleet import following as module  # noqa: E402
from summarystore.fleet.broker import properties  # noqa: E402
from summarystore.fleet.following import Follower  # noqa: E402
from summarystore.fleet.frames import message  # noqa: E402
from summarystore.fleet.logs import QUORUM, STREAM  # noqa: E402
from summarystore.fleet.sending import Sender  # noqa: E402
from summarystore.fleet.serving import serving  # noqa: E402
from summarystore.namesfile import read_names  # noqa: E402

from ..gateway.shards import gateway_to, layout  # noqa: E402
from ..waiting import run, soon  # noqa: E402
from .link import MadeUp, nodes  # noqa: E402
from .rabbit import Cluster  # noqa: E402
from .test_following import following, frame  # noqa: E402
from .test_naming import ROOM, described, short, written  # noqa: E402

OFTEN = "[asking]\nseconds = 20\nlook_seconds = 1\n"


def lines(codec: Any, times: range) -> list[str]:
    """Lines of a stream, the first of which makes it."""
    first = [f"create {codec.short} exp 2 60 1"] if 1 in times else []
    return first + [f"append {codec.short} {time} {codec.value('21.5')}" for time in times]


def names_of(store: Path) -> dict[str, str]:
    """The long names in the names file of a store, each with its short one."""
    return {name: told for name, (told, _) in read_names(f"{store}.names.json").items()}


@pytest.mark.parametrize("kind", [STREAM, QUORUM])
def test_names_come_with_frames(cluster: Cluster, folder: Path, program: str, kind: str) -> None:
    """To who follows from the begin, to who comes later, and to who asks. One of two of a name is told."""
    async def tried() -> None:
        name = cluster.new_name(f"names-{kind}")
        one, two = (Follower(folder / f"{each}.store", cluster.urls, name=name, kind=kind, follower=each,
                             program=program) for each in ("one", "two"))
        async with Sender(folder / "edge.store", cluster.urls, name=name, copies=2,
                          program=program) as sender, following(one), serving(
                "127.0.0.1:0", 0.0, None)(one) as http:
            await soon(lambda: one.following)
            room = await sender.declare(ROOM, scale="0.1", unit="°C", labels={"a": "b"})
            await sender.take([*lines(room, range(1, 5)), "create plain exp 2 60 1"])
            assert room.short == (await sender.declare(ROOM)).short == short(ROOM)
            await soon(lambda: one.have == {room.short: 5, "plain": 1})
            assert names_of(folder / "one.store") == {ROOM: room.short}
            assert http.address is not None
            base = f"http://127.0.0.1:{http.address[1]}"
            async with gateway_to(layout({"only": [base]}, OFTEN)) as client:
                told = await client.get("/api/query", stream=ROOM, kind="sum")
                assert (told["lo"], told["hi"]) == (86, 86)
                names = await client.get("/api/names")
                assert sorted(names["names"]) == sorted([ROOM, "plain"])
                assert (await client.get("/api/streams", match="home/*/*"))["streams"][0]["unit"] == "°C"
            async with following(two), Sender(folder / "other.store", cluster.urls, name=name, copies=2,
                                              program=program) as other:
                await soon(lambda: two.following)
                await sender.take(lines(room, range(5, 6)))
                await soon(lambda: two.have.get(room.short) == 6)
                again = await other.declare(ROOM, scale="0.5")
                await other.take(lines(again, range(1, 3)))
                await soon(lambda: one.have.get(again.short) == two.have.get(again.short) == 3)
                for follower in (one, two):
                    assert list(follower.names.refused) == [again.short]
                    assert names_of(Path(follower.store.path)) == {ROOM: room.short}
    run(tried())
    one, two, edge = (read_names(f"{folder}/{each}.store.names.json") for each in ("one", "two", "edge"))
    assert one == two == edge


def _nothing(_link: MadeUp, _exchange: str, _key: str, _body: bytes, _properties: Any) -> None:
    """What is told to senders goes nowhere."""


class Judging(MadeUp):
    """A connection that looks at the names file of a follower when something is acknowledged."""

    def __init__(self, store: Path) -> None:
        super().__init__(_nothing)
        self.stood: list[dict[str, str]] = []
        self._store = store

    def basic_ack(self, tag: int, multiple: bool = False) -> None:
        """Takes down the names that stand by then."""
        super().basic_ack(tag, multiple)
        self.stood.append(names_of(self._store))


def test_names_are_on_the_disk_before_frames_are_acknowledged(folder: Path, program: str,
                                                              monkeypatch: pytest.MonkeyPatch) -> None:
    """Also where the disk refuses them at first: then the frames come again."""
    monkeypatch.setattr(module, "LOOK", 0.02)
    store = folder / "r.store"
    came = written(folder / "edge.store", described(ROOM))[short(ROOM)]
    blocked = folder / "r.store.names.json.new"
    blocked.mkdir()
    links: list[Judging] = []

    def made(_url: str) -> MadeUp:
        links.append(Judging(store))
        return links[-1]

    async def work() -> None:
        nodes(monkeypatch, made)
        follower = Follower(store, ["amqp://one"], kind=QUORUM, follower="r", program=program)
        given: list[Judging] = []

        def gives() -> bool:
            link = links[-1] if links else None
            if link is not None and link.consume is not None and link not in given:
                given.append(link)
                link.consume(link, SimpleNamespace(delivery_tag=1), properties("s", 1, came),
                             message(frame(f"create {short(ROOM)} exp 2 60 1", 1)))
            return follower.have == {short(ROOM): 1}
        task = asyncio.ensure_future(follower.run())
        try:
            await soon(lambda: gives() or follower.trouble)
            assert follower.trouble and not any(link.stood for link in links) and not follower.have
            shutil.rmtree(blocked)
            await soon(gives)
            await soon(lambda: links[-1].stood)
        finally:
            task.cancel()
            with suppress(asyncio.CancelledError):
                await task
        assert links[-1].stood[0] == {ROOM: short(ROOM)} and not follower.trouble
    run(work())
