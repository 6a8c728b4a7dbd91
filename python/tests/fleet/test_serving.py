"""Questions to a follower, answered from a copy of its store."""

from __future__ import annotations

import asyncio
import json
from contextlib import suppress
from decimal import Decimal
from pathlib import Path
from typing import Any

import pytest

pytest.importorskip("aiohttp", reason="questions to a follower: python3-aiohttp is missing")

import aiohttp  # noqa: E402

from summarystore.fleet.errors import FleetError  # noqa: E402
from summarystore.fleet.following import Follower  # noqa: E402
from summarystore.fleet.frames import event_of  # noqa: E402
from summarystore.fleet.serving import AS_OF, COPIED, serving  # noqa: E402

from ..waiting import soon  # noqa: E402

RANGE = {"from": "0", "to": "30"}
NOWHERE = ["amqp://127.0.0.1:1"]


def frames(lines: list[str], first: int) -> bytes:
    """The frames of lines, with numbers from this one on."""
    events = [event_of(line) for line in lines]
    return b"".join(event.frame(number) for number, event in enumerate(events, first) if event is not None)


class Asking:
    """Asks one follower."""

    def __init__(self, session: aiohttp.ClientSession, base: str) -> None:
        self._session, self._base = session, base
        self.copied: float | None = None
        self.as_of: float | None = None

    async def get(self, path: str, status: int = 200, /, **words: str) -> Any:
        """An answer."""
        async with self._session.get(self._base + path, params=words) as answer:
            assert answer.status == status, await answer.text()
            self.copied = float(answer.headers[COPIED]) if COPIED in answer.headers else None
            self.as_of = float(answer.headers[AS_OF]) if AS_OF in answer.headers else self.as_of
            return json.loads(await answer.text(), parse_float=Decimal)


def test_answers_come_from_a_copy(folder: Path, program: str) -> None:
    async def tried() -> None:
        follower = Follower(folder / "r.store", NOWHERE, program=program)
        working = asyncio.ensure_future(follower.run())
        async with serving("127.0.0.1:0", 0.0, None)(follower) as http, aiohttp.ClientSession() as session:
            assert http.address is not None
            asking = Asking(session, f"http://127.0.0.1:{http.address[1]}")
            await soon(lambda: follower.store.pid is not None)      # it has the store by then
            await follower.store.take(frames(["create a exp 2 60 1", "append a 10 5", "append a 20 7"], 1))
            follower.version += 1
            answer = await asking.get("/api/query", 200, stream="a", kind="sum", **RANGE)
            assert (answer["lo"], answer["hi"], answer["exact"]) == (12, 12, True)
            first = asking.copied
            assert first is not None
            await follower.store.take(frames(["append a 30 -2"], 4))
            follower.version += 1
            answer = await asking.get("/api/query", 200, stream="a", kind="sum", **RANGE)
            assert answer["lo"] == 10 and asking.copied is not None and asking.copied > first
            assert [row["name"] for row in (await asking.get("/api/streams"))["streams"]] == ["a"]
            assert len((await asking.get("/api/windows", stream="a"))["windows"]) == 3
            rows = (await asking.get("/api/series", stream="a", kind="max", step="10"))["rows"]
            assert [row["hi"] for row in rows] == [5, 7, -2]
            assert (await asking.get("/api/query", 404, stream="b", kind="sum"))["error"] == "unknown_stream"
            health = await asking.get("/healthz", 503)
            assert health["status"] == "no_broker" and health["broker"].startswith("not connected")
            assert health["names_refused"] == {} and health["as_of"] is None and asking.as_of == 0
            await asking.get("/api/append", 404)
            many = await asyncio.gather(*(asking.get("/api/windows", stream="a") for _ in range(20)))
            assert all(each == many[0] for each in many)
            working.cancel()
            with suppress(asyncio.CancelledError):
                await working
        assert sorted(file.name for file in folder.iterdir()) == ["r.store"]
    asyncio.run(tried())


def test_an_address_that_can_be_reached_wants_tokens() -> None:
    with pytest.raises(FleetError, match="tokens"):
        serving("0.0.0.0:8088", 1.0, None)
    with pytest.raises(FleetError, match="HOST:PORT"):
        serving("8088", 1.0, None)
