"""Names that are new: a body may have thousands of them, and the service goes on meanwhile."""

from __future__ import annotations

import asyncio
import json
import time
from collections.abc import AsyncIterator
from contextlib import asynccontextmanager, suppress
from pathlib import Path
from typing import Any

from summarystore import aio

from ..waiting import run, within
from .serving import Client, over_http

MAPPING = '[limits]\nlines = 20000\n[[mapping]]\nmatch = "home/**"\nscale = 0.1\ntarget = "exp 2 1 1"\n'
MANY = 3500
MOST = 4096
PAUSE = 2.0
"""The loop may be held up for so long on a busy machine. Where it writes all names for each it is minutes."""


class Pauses:
    """How long the loop was held up at most."""

    def __init__(self) -> None:
        self.longest = 0.0

    async def watch(self) -> None:
        """Looks again and again, as a watchdog does."""
        before = time.monotonic()
        while True:
            await asyncio.sleep(0.01)
            now = time.monotonic()
            self.longest, before = max(self.longest, now - before), now


@asynccontextmanager
async def watched() -> AsyncIterator[Pauses]:
    """Watches the loop."""
    pauses = Pauses()
    task = asyncio.ensure_future(pauses.watch())
    try:
        yield pauses
    finally:
        task.cancel()
        with suppress(asyncio.CancelledError):
            await task


def body(names: range, second: int) -> str:
    return "".join(f"home n{name}=1 {second}\n" for name in names)


def written(path: Path) -> tuple[int, int]:
    """Which file of names it is."""
    found = Path(f"{path}.names.json").stat()
    return found.st_ino, found.st_mtime_ns


async def posted(client: Client, text: str, status: int = 204) -> Any:
    return await within(client.post("/write?precision=s", text, status))


def test_a_body_of_new_names(path: Path) -> None:
    async def work() -> None:
        async with over_http(MAPPING, path) as client, watched() as pauses:
            asked = asyncio.ensure_future(posted(client, body(range(MANY), 1)))
            while not asked.done():
                assert (await client.get("/healthz"))["status"] == "ok"
            await asked
            assert pauses.longest < PAUSE
            assert len((await client.get("/api/names"))["names"]) == MANY
        before = written(path)
        names = json.loads(Path(f"{path}.names.json").read_text("utf-8"))["streams"]
        assert len(names) == MANY
        async with over_http(MAPPING, path) as client, watched() as pauses:
            await posted(client, body(range(MANY), 2))
            assert written(path) == before      # they are there
            await posted(client, body(range(MANY, MOST), 2))
            full = written(path)
            assert full != before
            told = await posted(client, body(range(MOST, MOST + MANY), 3), 400)
            assert {each["code"] for each in told["refused"]} == {"full"} and told["stored"] == 0
            assert written(path) == full and pauses.longest < PAUSE
        async with over_http(MAPPING.replace("scale", 'unit = "W"\nscale'), path) as client, \
                watched() as pauses:
            await posted(client, body(range(MOST), 4))
            assert pauses.longest < PAUSE
        names = json.loads(Path(f"{path}.names.json").read_text("utf-8"))["streams"]
        assert len(names) == MOST and {each["unit"] for each in names.values()} == {"W"}
    run(work())


def test_a_kill_between_names_and_streams(path: Path) -> None:
    """What was declared and not made is made by the next run, without another write."""
    async def work() -> None:
        async with await aio.open(path) as store:
            codec = store._translator.declare("home/n0", None)
            store._translator.unmade("home/n0", codec)
        async with over_http(MAPPING, path) as client:
            await posted(client, body(range(5), 1))
            assert len((await client.get("/api/names"))["names"]) == 5
    run(work())


def test_what_tasks_declare_together_is_written_once(path: Path) -> None:
    async def work() -> None:
        async with await aio.open(path) as store:
            await store.create("first", "exp 2 1 1", unit="W")
            files = {written(path)}

            async def made(number: int) -> None:
                await store.create(f"a {number}", "exp 2 1 1", unit="W")
                files.add(written(path))
            found = await asyncio.gather(*map(made, range(200)), store.create("bad", "exp 1 1 1", unit="W"),
                                         store.create("first", "exp 2 1 1", scale="0.5"),
                                         return_exceptions=True)
            assert [type(error).__name__ for error in found if error] == ["TargetError", "StreamExistsError"]
            assert len(files) <= 3 and len(await store.list()) == 201
            await asyncio.gather(*(store.describe_soon(f"a {number}", unit="kW") for number in range(200)))
            files.add(written(path))
            assert len(files) <= 4
            told = store.description("a 7")
            assert told is not None and told.unit == "kW"
    run(work())
