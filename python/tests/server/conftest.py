"""What the tests of the service share: services over a true program, within the test's event loop."""

from __future__ import annotations

from collections.abc import AsyncIterator, Callable
from contextlib import AbstractAsyncContextManager, asynccontextmanager
from importlib.util import find_spec
from pathlib import Path
from typing import TYPE_CHECKING, TypeAlias

import pytest

if TYPE_CHECKING:
    from summarystore.server.app import Service

if find_spec("aiohttp") is None:    # the gate says so
    collect_ignore_glob = ["test_*.py"]

Serving: TypeAlias = "Callable[[str], AbstractAsyncContextManager[Service]]"

ANY = """
[[mapping]]
match = "home/**"
scale = 0.1
unit = "°C"
target = "exp 2 60 1"
"""


@pytest.fixture
def serving(path: Path) -> Serving:
    """Services of this configuration, over the store of the test."""
    from summarystore.server.app import Service
    from summarystore.server.configuration import parse

    @asynccontextmanager
    async def made(text: str = ANY) -> AsyncIterator[Service]:
        service = Service(parse(text, "test.toml"), str(path))
        await service.start()
        try:
            yield service
        finally:
            await service.stop()
    return made
