"""Four services over the real program, and a gateway to them, in the loop of a test."""

from __future__ import annotations

from collections.abc import AsyncIterator, Mapping, Sequence
from contextlib import AsyncExitStack, asynccontextmanager
from decimal import Decimal
from pathlib import Path

import aiohttp

from summarystore import Interval
from summarystore.fleet.gateway import Gateway
from summarystore.fleet.layout import parse
from summarystore.server.globs import matches

from ..server.serving import Client, over_http

T = 1_764_410_400
SHARDS = ("north", "east", "south", "west")
STEPS = {"kitchen": 1, "cellar": 60, "attic": 1}
"""Where streams stand, and the seconds that one step of their times has."""
MAPPINGS = """
[[mapping]]
match = "cellar/*"
scale = 0.1
time = "minute"
target = "exp 2 1 1"
[[mapping]]
match = "attic/*"
scale = 0.5
time = "ms"
since = "2020-01-01"
target = "power 1 1 1 1"
[[mapping]]
match = "**"
scale = 0.1
unit = "°C"
target = "exp 2 2 1"
"""
Readings = Mapping[str, Sequence[tuple[int, Decimal]]]


def shard_of(name: str) -> str:
    """The shard that a name goes to."""
    return SHARDS[sum(name.encode()) % len(SHARDS)]


def of_range(readings: Readings, pattern: str, first: int, last: int, shards: Sequence[str] = SHARDS
             ) -> list[Decimal]:
    """The values of a pattern in a range, by going through all of them."""
    return [value for name, rows in readings.items() if matches(pattern, name) and shard_of(name) in shards
            for time, value in rows if first <= time <= last]


def holds(kind: str, told: Mapping[str, object], values: Sequence[Decimal]) -> bool:
    """Whether an answer holds the truth of these values."""
    if kind not in ("count", "sum") and not values:
        return bool(told["none"] or told["maybe_none"])
    if told["none"]:
        return False
    found = Interval(told["lo"], told["hi"])
    if kind == "mean":
        return found.lo * len(values) <= sum(values) <= found.hi * len(values)
    truths = {"count": len(values), "sum": sum(values), "min": min(values, default=None),
              "max": max(values, default=None)}
    return truths[kind] in found


def layout(bases: Mapping[str, Sequence[str]], more: str = "", without: Mapping[str, str] | None = None
           ) -> str:
    """The configuration of a gateway."""
    text = '[http]\nlisten = "127.0.0.1:0"\n' + (more or "[asking]\nseconds = 20\n")
    for name, replicas in bases.items():
        listed = ", ".join(f'"{base}"' for base in replicas)
        text += f'[[shard]]\nname = "{name}"\nreplicas = [{listed}]\n'
        if without and name in without:
            text += f'without = ["{without[name]}"]\n'
    return text


class GatewayClient(Client):
    """A client of a gateway."""

    def __init__(self, gateway: Gateway, session: aiohttp.ClientSession, base: str) -> None:
        self.gateway = gateway
        self.session = session
        self.base = base
        self.headers = {}


@asynccontextmanager
async def gateway_to(text: str) -> AsyncIterator[GatewayClient]:
    """A gateway of this configuration."""
    gateway = Gateway(parse(text, "fleet.toml"))
    await gateway.start()
    try:
        assert gateway.http.address is not None
        async with aiohttp.ClientSession() as session:
            yield GatewayClient(gateway, session, f"http://127.0.0.1:{gateway.http.address[1]}")
    finally:
        await gateway.stop()


async def load(client: Client, readings: Readings, shard: str | None = None) -> None:
    """Hands the readings of a shard to its service."""
    rows = [{"stream": name, "time": time, "value": str(value)} for name, found in readings.items()
            if shard is None or shard_of(name) == shard for time, value in found]
    if rows:
        told = await client.post("/api/append", {"readings": rows})
        assert told["stored"] == len(rows), told


@asynccontextmanager
async def fleet(folder: Path, readings: Readings, more: str = ""
                ) -> AsyncIterator[tuple[GatewayClient, Mapping[str, Client]]]:
    """Four shards with these readings, and a gateway to them."""
    async with AsyncExitStack() as stack:
        clients = {}
        for shard in SHARDS:
            clients[shard] = await stack.enter_async_context(over_http(MAPPINGS, folder / f"{shard}.store"))
            await load(clients[shard], readings, shard)
        bases = {shard: [client.base] for shard, client in clients.items()}
        yield await stack.enter_async_context(gateway_to(layout(bases, more))), clients
