"""Messages of the service that say what was meant."""

from __future__ import annotations

from pathlib import Path

import pytest

from summarystore.server.configuration import parse
from summarystore.server.errors import ConfigurationError

from ..waiting import run
from .conftest import ANY
from .serving import over_http


def test_what_was_meant(path: Path) -> None:
    async def work() -> None:
        async with over_http(ANY, path) as client:
            await client.post("/api/append", {"stream": "home/a", "time": 1, "value": 1})
            for address in ("/api/query", "/api/series"):
                for words in ({"stream": "home/a"}, {"streams": "*", "from": "0"}):
                    told = await client.get(address, 400, kind="avg", **words)
                    assert "is `mean` meant?" in told["reason"] and "count" in told["reason"]
            told = await client.post("/api/append", "[]", 400)
            assert '"stream": NAME' in told["reason"] and '"readings"' in told["reason"]
            assert '"action"' in (await client.post("/api/landmark", "7", 400))["reason"]
            told = await client.get("/api/query", 400, stream="home/a", kind="sum", **{"from": "29.03.2026"})
            assert "2026-03-29" in told["reason"]
            told = await client.get("/api/query", 400, stream="home/a", kind="sum",
                                    **{"from": "2026-03-29 10:00"})
            assert "zone=" not in told["reason"] and "ISO 8601 with a zone" in told["reason"]
    run(work())


def test_a_target_of_a_mapping() -> None:
    with pytest.raises(ConfigurationError, match="as `power 1 1 4 1`"):
        parse('[[mapping]]\nmatch = "a"\ntarget = "power 1 1 4"\n', "a.toml")
