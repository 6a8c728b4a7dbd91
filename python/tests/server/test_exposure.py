"""What the service shows, to whom, and how much it holds of what others send."""

from __future__ import annotations

import asyncio
import os
import subprocess
import sys
import tomllib
from pathlib import Path

import pytest

from summarystore.server.configuration import parse
from summarystore.server.errors import ConfigurationError
from summarystore.server.http import Http

from ..conftest import HOME
from ..waiting import SECONDS, run, soon, within
from .conftest import ANY, Serving
from .real import mosquitto
from .serving import Client, over_http
from .test_graphite import MAPPING, listening


def checked(folder: Path, text: str) -> subprocess.CompletedProcess[str]:
    """What the command says of a configuration that it begins with."""
    (folder / "service.toml").write_text(text)
    return subprocess.run([sys.executable, "-m", "summarystore.server.main", "--config=service.toml",
                           "--store=a.store", "--listen=127.0.0.1:0", "--check"], cwd=folder, check=False,
                          env={**os.environ, "PYTHONPATH": str(HOME / "src")}, capture_output=True, text=True,
                          timeout=SECONDS)


@pytest.mark.parametrize("address", ["0.0.0.0:2003", "[::]:2003", "10.1.2.3:2003"])
def test_each_port_beyond_this_machine(folder: Path, program: str, address: str) -> None:
    """Graphite's lines have no tokens: that anyone may send them is to be said, also beside tokens."""
    (folder / "tokens").write_text("write 0123456789abcdef\n")
    (folder / "tokens").chmod(0o600)
    text = f'[graphite]\nlisten = "{address}"\n'
    for more in ("", f'[tokens]\nfile = "{folder}/tokens"\n'):
        done = checked(folder, text + more)
        assert done.returncode == 2 and "can be reached from elsewhere" in done.stderr, done.stderr
        assert "[graphite]" in done.stderr
    assert checked(folder, text + "anyone = true\n").returncode == 0
    assert checked(folder, '[graphite]\nlisten = "localhost:2003"\n').returncode == 0


@pytest.mark.parametrize("mode", [0o644, 0o620, 0o604])
def test_a_password_that_others_can_read(folder: Path, path: Path, program: str, mode: int) -> None:
    """It is refused at the start, and one that becomes so is no more sent."""
    password = folder / "password"
    password.write_text("#secret \n")
    password.chmod(0o600)
    broker = mosquitto(folder)
    broker.start()
    text = (f'[mqtt]\nbroker = "127.0.0.1:{broker.port}"\ntopics = ["#"]\nuser = "a"\n'
            f'password_file = "{password}"\n')

    async def work() -> None:
        async with over_http(text, path) as client:
            await soon(lambda: "connected" == _mqtt(client))
            password.chmod(mode)
            broker.end()
            broker.start()
            await soon(lambda: "others can read it" in _mqtt(client))
        with pytest.raises(ConfigurationError, match="others can read it"):
            async with over_http(text, path):
                pass
    try:
        run(work())
        assert "others can read it" in checked(folder, text).stderr
    finally:
        broker.end()


def _mqtt(client: Client) -> str:
    return next(each.state for each in client.service.listeners if each.name == "mqtt")


def test_health_shows_nothing_of_this_machine(folder: Path, program: str) -> None:
    async def work() -> None:
        store = folder / "any.store"
        store.write_bytes(b"no store at all\n" * 100)
        async with over_http("", store) as client:
            told = await client.get("/health", 503)
            assert told["status"] == "fail" and "damaged" in told["message"]
            assert str(folder) not in str(told)
            store.unlink()
            await soon(lambda: client.service.supervisor.taking)
            assert (await client.get("/health"))["status"] == "pass"
    run(work())


@pytest.mark.parametrize("character", "\u202e\u202d\u2066\u2069\u200f\u061c\x00\x85\u2028")
def test_names_that_look_like_others(path: Path, character: str) -> None:
    async def work() -> None:
        async with over_http(ANY, path) as client:
            told = await client.post("/api/append", {"stream": f"home/a{character}b", "value": 1}, 400)
            assert told["refused"][0]["code"] == "name"
            await client.post("/api/append", {"stream": "home/👩\u200d🔧/Größe שלום", "value": 1})
    run(work())


def test_bodies_together_are_bounded(path: Path) -> None:
    """Many clients whose bodies come slowly hold no more than is allowed, and others come in again after."""
    async def work() -> None:
        small = ANY + "[limits]\nbody = 100000\nbodies = 300000\nbody_seconds = 60\n"
        async with over_http(small, path) as client:
            held = next(each.held for each in client.service.listeners if isinstance(each, Http))
            head = b"POST /write?precision=s HTTP/1.1\r\nHost: localhost\r\nContent-Length: 100000\r\n\r\n"
            line = b"home v=1 1\n"
            opened = [await asyncio.open_connection("127.0.0.1", client.port) for _ in range(10)]
            for _, writer in opened:
                writer.write(head + b"#" * 98_000)
            refused = [asyncio.ensure_future(reader.readline()) for reader, _ in opened]
            await soon(lambda: sum(each.done() for each in refused) == 7)
            assert {each.result() for each in refused if each.done()} == {
                b"HTTP/1.1 503 Service Unavailable\r\n"}
            assert held.size <= 300_000
            for (_, writer), each in zip(opened, refused):
                if not each.done():
                    writer.write(b"\n" + line + b"#" * (2000 - 1 - len(line)))
            good = [await within(each) for each in refused]
            assert good.count(b"HTTP/1.1 204 No Content\r\n") == 3
            await soon(lambda: held.size == 0)
            await client.post("/write?precision=s", "home v=1 2\n", 204)
            for _, writer in opened:
                writer.close()
    run(work())


def test_a_silent_connection_of_graphite_ends(serving: Serving) -> None:
    async def work() -> None:
        async with listening(serving, MAPPING.replace("line = 200", "silent_seconds = 1")
                             ) as (service, listener):
            reader, writer = await asyncio.open_connection("127.0.0.1", listener.port)
            writer.write(b"servers.a.load 1 10\n")
            assert await within(reader.read()) == b""
            await soon(lambda: ", 0 " in listener.state)
            assert service.counters.of("connections") == {("slow",): 1}
            assert await service.store().query("servers.a.load", "count") == 1
            writer.close()
    run(work())


def test_limits_that_dont_go_together() -> None:
    with pytest.raises(ConfigurationError, match="of all bodies"):
        parse("[limits]\nbody = 1000\nbodies = 999\n", "a.toml")


def test_packages_of_which_private_parts_are_used_are_bounded() -> None:
    found = tomllib.loads((HOME / "pyproject.toml").read_text("utf-8"))["project"]["optional-dependencies"]
    wanted = {each.split(">")[0].split("<")[0]: each for group in found.values() for each in group}
    for name in ("aiohttp", "paho-mqtt", "pika"):
        assert ",<" in wanted[name], wanted[name]
