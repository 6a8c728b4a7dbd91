"""Many clients at once, while the program and the service are killed: nothing acknowledged is lost.

The short form takes half a minute. With SUMMARYSTORE_LONG=1 it takes what the service is to stand: ten
thousand readings a second from fifty clients for a minute, beside twenty readers.
"""

from __future__ import annotations

import asyncio
import os
import random
import signal
import time
from contextlib import suppress
from pathlib import Path

import aiohttp
import pytest

from ..waiting import run
from .running import Running

LONG = bool(os.environ.get("SUMMARYSTORE_LONG"))
SECONDS = 60.0 if LONG else 12.0
CLIENTS = 50 if LONG else 20
READERS = 20 if LONG else 5
A_SECOND = 200 if LONG else 100
"""Readings of each client."""
ROWS = 100
START = 1_764_410_400
CONFIG = '[[mapping]]\nmatch = "load/*"\nscale = 0.1\ntarget = "power 1 1 8 1"\n'


def resident(pid: int) -> int:
    """The memory of a process in MiB."""
    text = Path(f"/proc/{pid}/status").read_text("ascii")
    return int(text.partition("VmRSS:")[2].split()[0]) // 1024


class Load:
    """Clients and readers of one service, and what they were told."""

    def __init__(self, service: Running, session: aiohttp.ClientSession) -> None:
        self.service = service
        self.session = session
        self.base = service.base
        self.end = time.monotonic() + SECONDS
        self.sent = [0] * CLIENTS
        self.took: list[float] = []
        self.statuses: dict[int, int] = {}
        self.cut_off = 0

    async def client(self, number: int) -> None:
        """Sends batches in their time. One whose fate isn't known is sent again, whole."""
        begin = time.monotonic()
        while time.monotonic() < self.end:
            first = self.sent[number]
            body = "".join(f"load c{number}={(at * 7 + number) % 100 / 10} {START + at}\n"
                           for at in range(first, first + ROWS))
            while not await self.write(body):
                await asyncio.sleep(0.1)
            self.sent[number] += ROWS
            ahead = begin + self.sent[number] / A_SECOND - time.monotonic()
            await asyncio.sleep(max(0.0, ahead))

    async def write(self, body: str) -> bool:
        """Whether each line of a body has its fate: stored, or refused since it was there before."""
        try:
            async with self.session.post(f"{self.base}/write?precision=s", data=body) as answer:
                said = await answer.text()
        except (aiohttp.ClientError, asyncio.TimeoutError, OSError):
            self.cut_off += 1
            return False
        self.statuses[answer.status] = self.statuses.get(answer.status, 0) + 1
        assert answer.status in (204, 503) or answer.status == 400 and '"code":"late"' in said, said
        return answer.status != 503

    async def reader(self, number: int) -> None:
        """Asks again and again."""
        chance = random.Random(number)
        while time.monotonic() < self.end:
            await asyncio.sleep(0.1)
            stream = f"load/c{chance.randrange(CLIENTS)}"
            query = f"/api/series?stream={stream}&kind=mean&rows=100" if number % 2 else \
                f"/api/query?stream={stream}&kind=max&from={START}"
            begin = time.monotonic()
            try:
                async with self.session.get(self.base + query) as answer:
                    await answer.read()
            except (aiohttp.ClientError, asyncio.TimeoutError, OSError):
                continue
            assert answer.status in (200, 404, 503)
            if answer.status == 200:
                self.took.append(time.monotonic() - begin)

    async def killer(self) -> None:
        """Kills the program every few seconds, and now and then the service, which is started again."""
        for turn in range(1, 1000):
            await asyncio.sleep(2)
            if time.monotonic() > self.end - 3:
                return
            if turn % 3:
                pid = await self.pid()
                if pid is not None:
                    with suppress(ProcessLookupError):      # it has ended meanwhile
                        os.kill(pid, signal.SIGKILL)
            else:
                await asyncio.to_thread(self.start_again)

    async def pid(self) -> int | None:
        """The process of the program."""
        try:
            async with self.session.get(self.base + "/healthz") as answer:
                told = await answer.json()
        except (aiohttp.ClientError, asyncio.TimeoutError, OSError):
            return None
        found = told["store"]["pid"]
        return int(found) if found else None

    def start_again(self) -> None:
        """Kills the service at once. Its program ends by itself when it has done what it was given."""
        self.service.end(signal.SIGKILL)
        self.service.start_again()
        self.base = self.service.base


async def _run(service: Running) -> Load:
    timeout = aiohttp.ClientTimeout(total=30)
    async with aiohttp.ClientSession(timeout=timeout, connector=aiohttp.TCPConnector(limit=0)) as session:
        load = Load(service, session)
        before = resident(service.process.pid)
        await asyncio.gather(*map(load.client, range(CLIENTS)), *map(load.reader, range(READERS)),
                             load.killer())
        after = resident(service.process.pid)
        assert after < before + 150, (before, after)
        _tell(load, before, after)
        return load


def _tell(load: Load, before: int, after: int) -> None:
    took = sorted(load.took) or [0.0]
    print(f"{sum(load.sent)} readings of {CLIENTS} clients in {SECONDS:.0f} s, "
          f"{sum(load.sent) / SECONDS:.0f} a second; answers {load.statuses}, {load.cut_off} cut off; "
          f"{len(took)} questions, p50 {took[len(took) // 2] * 1000:.0f} ms, "
          f"p99 {took[len(took) * 99 // 100] * 1000:.0f} ms; memory {before} MiB, then {after} MiB")


@pytest.mark.filterwarnings("ignore::ResourceWarning")
def test_nothing_is_lost(folder: Path, path: Path) -> None:
    service = Running(folder, "--listen=127.0.0.1:0", f"--store={path}", config=CONFIG)
    try:
        load = run(_run(service), SECONDS + 600)
        for number, sent in enumerate(load.sent):
            expected = sum((at * 7 + number) % 100 for at in range(sent))
            for kind, truth in (("count", sent), ("sum", expected)):
                status, told = service.ask(f"/api/query?stream=load/c{number}&kind={kind}")
                assert status == 200 and told["exact"], told
                value = told["lo"] if kind == "count" else round(told["lo"] * 10)
                assert value == truth, (number, kind, value, truth)
        service.end_in_time()
    finally:
        service.process.kill()
        service.process.wait()
