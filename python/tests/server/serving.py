"""A service over HTTP in the loop of a test: the real server on a port of the loopback."""

from __future__ import annotations

import json
from collections.abc import AsyncIterator, Mapping
from contextlib import asynccontextmanager
from decimal import Decimal
from pathlib import Path
from typing import Any

import aiohttp

from summarystore.server.app import Service
from summarystore.server.assembly import assemble
from summarystore.server.configuration import parse

HTTP = '[http]\nlisten = "127.0.0.1:0"\n'


class Client:
    """A client of one service."""

    def __init__(self, service: Service, session: aiohttp.ClientSession, base: str) -> None:
        self.service = service
        self.session = session
        self.base = base
        self.headers: Mapping[str, str] = {}
        """Of the last answer."""

    @property
    def port(self) -> int:
        """Where it listens."""
        return int(self.base.rpartition(":")[2])

    async def text(self, method: str, path: str, status: int = 200, **more: Any) -> str:
        """An answer as text. The status has to be this one."""
        async with self.session.request(method, self.base + path, **more) as answer:
            said = await answer.text()
            assert answer.status == status, (answer.status, said)
            self.headers = answer.headers
            return said

    async def get(self, path: str, status: int = 200, /, **words: str) -> Any:
        """What a question gets, with exact numbers."""
        return json.loads(await self.text("GET", path, status, params=words), parse_float=Decimal)

    async def post(self, path: str, body: object, status: int = 200, **more: Any) -> Any:
        """What a body gets: JSON, or text as it is."""
        data = body if isinstance(body, (bytes, str)) else json.dumps(body)
        said = await self.text("POST", path, status, data=data, **more)
        return json.loads(said, parse_float=Decimal) if said else None


@asynccontextmanager
async def over_http(text: str, path: Path) -> AsyncIterator[Client]:
    """A service of this configuration, and a client of it."""
    service = Service(parse(text if "[http]" in text else HTTP + text, "test.toml"), str(path))
    http = assemble(service)
    await service.start()
    try:
        assert http.address is not None
        async with aiohttp.ClientSession() as session:
            yield Client(service, session, f"http://127.0.0.1:{http.address[1]}")
    finally:
        await service.stop()
