"""Streams whose newest time lies ahead of the clock, and what mends them while the service serves."""

from __future__ import annotations

import asyncio
import time
from pathlib import Path

import pytest

from summarystore.server.configuration import parse
from summarystore.server.errors import ConfigurationError
from summarystore.server.intake import Incoming

from ..waiting import run, soon
from .serving import Client, over_http

NAME = "home/living room/temperature"
AT = f"/api/streams/{NAME}"
MAPPING = '[[mapping]]\nmatch = "home/**"\nscale = 0.1\nunit = "°C"\nlabels = { of = "house" }\n'
AHEAD = 10 ** 9


async def write(client: Client, at: int, value: object = "21.5", status: int = 200) -> None:
    await client.post("/api/append", {"stream": NAME, "time": at, "value": value}, status)


async def spoil(path: Path) -> int:
    """A stream that has a right reading and one far ahead of the clock."""
    now = int(time.time())
    async with over_http('[limits]\nfuture = "100000d"\n' + MAPPING, path) as client:
        await write(client, now - 60)
        await write(client, now + AHEAD)
    return now


async def change(client: Client, body: object, status: int = 200, name: str = NAME) -> str:
    return await client.text("PATCH", f"/api/streams/{name}", status, json=body)


def test_a_stream_is_gone_on_with(path: Path) -> None:
    async def work() -> None:
        now = await spoil(path)
        async with over_http(MAPPING, path) as client:
            await write(client, now, status=400)
            await change(client, {"restart": f"{NAME}~2"})
            await write(client, now)
            await change(client, {"restart": "other"}, 409, f"{NAME}~2")        # isn't ahead
        async with over_http(MAPPING, path) as client:      # is known after a new start
            await write(client, now + 1)
            counts = {NAME: 2, f"{NAME}~2": 2}
            for name, count in counts.items():
                assert (await client.get("/api/query", stream=name, kind="count"))["lo"] == count
            listed = {each["name"]: each for each in (await client.get("/api/streams"))["streams"]}
            assert listed[f"{NAME}~2"]["labels"] == {"of": "house", "restarts": NAME}
            assert listed[f"{NAME}~2"]["unit"] == "°C" and listed[NAME]["last"] == now + AHEAD
    run(work())


@pytest.mark.parametrize("way", ["restart", "rename", "drop"])
def test_what_waits_for_the_clock_is_stored_then(path: Path, way: str) -> None:
    """Readings without a time wait where their stream is far ahead, and go on when it is mended."""
    async def work() -> None:
        await spoil(path)
        async with over_http(MAPPING, path) as client:
            readings = [Incoming(NAME, value) for value in ("1", "2")]
            waiting = asyncio.create_task(client.service.intake.append_many(readings, wait=True))
            await soon(lambda: client.service.intake.ahead == (2, 1))
            told = await client.post("/api/append", {"stream": NAME, "value": 3}, 503)
            assert told["error"] == "ahead" and told["not_stored"] == [0]
            if way == "drop":
                await client.text("DELETE", AT)
            else:
                await change(client, {way: f"{NAME}~2"})
            assert all(outcome.good for outcome in await waiting)
            name = f"{NAME}~2" if way == "restart" else NAME
            assert (await client.get("/api/query", stream=name, kind="sum"))["lo"] == 3
            assert client.service.intake.queued == 0
    run(work())


def test_a_stream_is_renamed_and_its_name_is_taken_anew(path: Path) -> None:
    async def work() -> None:
        now = await spoil(path)
        async with over_http(MAPPING, path) as client:
            await client.post("/api/landmark", {"stream": NAME, "action": "open",
                                                "time": now + AHEAD + 1}, 400)
            await change(client, {"rename": "aside"})
            await write(client, now)
            await change(client, {"rename": "aside"}, 409)      # it stands
            await change(client, {"rename": "x"}, 404, "nobody")
        async with over_http(MAPPING, path) as client:
            await write(client, now + 1)
            for name, count in (("aside", 2), (NAME, 2)):
                assert (await client.get("/api/query", stream=name, kind="count"))["lo"] == count
            assert (await client.get("/api/query", stream=NAME, kind="max"))["hi"] < 22
        Path(f"{path}.names.json").unlink()
        async with over_http(MAPPING, path) as client:      # the name is that of the stream that had it last
            await write(client, now + 2)
            assert (await client.get("/api/query", stream=NAME, kind="count"))["lo"] == 3
    run(work())


def test_a_stream_is_dropped(path: Path, caplog: pytest.LogCaptureFixture) -> None:
    async def work() -> None:
        now = await spoil(path)
        async with over_http(MAPPING, path) as client:
            told = await client.text("DELETE", AT)
            assert told == f'{{"stream":"{NAME}","dropped":true,"values":2}}'
            assert f"stream dropped: stream={NAME!r} values=2 by=127.0.0.1" in caplog.text
            await client.text("DELETE", AT, 404)
            assert (await client.get("/api/streams"))["streams"] == []
            await write(client, now - 60, "3")      # not taken for the one that was dropped
            assert (await client.get("/api/query", stream=NAME, kind="sum"))["lo"] == 3
    run(work())


@pytest.mark.parametrize("body", [b"", b"[]", b"{}", b'{"rename":1}', b'{"name":"a"}',
                                  b'{"rename":"a","restart":"b"}', b'{"rename":""}', b'{"rename":"a\\nb"}'])
def test_what_is_no_change(path: Path, body: bytes) -> None:
    async def work() -> None:
        async with over_http(MAPPING, path) as client:
            await write(client, 10)
            await client.text("PATCH", AT, 400, data=body)
    run(work())


def test_who_may_mend(path: Path, folder: Path) -> None:
    tokens = folder / "tokens"
    tokens.write_text(f"write {'w' * 16}\nadmin {'a' * 16}\n")
    tokens.chmod(0o600)

    async def work() -> None:
        async with over_http(f'[tokens]\nfile = "{tokens}"\n' + MAPPING, path) as client:
            write, admin = ({"Authorization": f"Bearer {letter * 16}"} for letter in "wa")
            await client.post("/api/append", {"stream": NAME, "value": 1}, headers=write)
            for method in ("DELETE", "PATCH"):
                assert "admin" in await client.text(method, AT, 401, headers=write)
            await client.text("DELETE", AT, headers=admin)
    run(work())


@pytest.mark.parametrize("rows", [1, 8])
def test_a_mapping_restarts(path: Path, rows: int) -> None:
    """Readings one by one and in columns go into the stream that the mapping names, and the next ones too."""
    async def work() -> None:
        now = await spoil(path)
        text = MAPPING + 'restart = "{stream}~2"\n'
        lines = [[{"stream": NAME, "time": now - 50 + 10 * part + at, "value": 5} for at in range(rows)]
                 for part in range(3)]
        async with over_http(text, path) as client:
            for part in lines[:2]:
                assert (await client.post("/api/append", {"readings": part}))["stored"] == rows
        async with over_http(text, path) as client:
            assert (await client.post("/api/append", {"readings": lines[2]}))["stored"] == rows
            for name, count in ((NAME, 2), (f"{NAME}~2", 3 * rows)):
                assert (await client.get("/api/query", stream=name, kind="count"))["lo"] == count
            assert len((await client.get("/api/streams"))["streams"]) == 2
    run(work())


@pytest.mark.parametrize("name", ["x", "{stream}", "{stream}{stream}", "{1}~2"])
def test_what_is_no_name_of_a_restart(name: str) -> None:
    with pytest.raises(ConfigurationError, match="restart"):
        parse(f'{MAPPING}restart = "{name}"\n', "a.toml")
