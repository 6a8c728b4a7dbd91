"""Clients that are slow, many, or say what isn't HTTP: each is bounded, and the others go on."""

from __future__ import annotations

import asyncio
import socket
from pathlib import Path

import pytest

from ..waiting import run, soon, within
from .conftest import ANY
from .serving import Client, over_http

SMALL = ANY + """
[limits]
connections = 4
body = 100000
lines = 100
line = 1000
name = 20
"""
FAST = SMALL + """
header_seconds = 3
body_seconds = 3
write_seconds = 3
idle_seconds = 4
"""
Streams = tuple[asyncio.StreamReader, asyncio.StreamWriter]


async def connected(client: Client) -> Streams:
    return await asyncio.open_connection("127.0.0.1", client.port)


async def ended(streams: Streams) -> bytes:
    """What comes until the other side ends the connection, which it has to."""
    try:
        return await within(streams[0].read())
    except ConnectionError:
        return b""
    finally:
        streams[1].close()


@pytest.mark.parametrize("said", [b"", b"GET /healthz HTTP/1.1\r\nHost: local"])
def test_heads_that_dont_come(path: Path, said: bytes) -> None:
    async def work() -> None:
        async with over_http(FAST, path) as client:
            streams = await connected(client)
            for byte in said:
                streams[1].write(bytes([byte]))
                await asyncio.sleep(0)
            await ended(streams)
            assert client.service.counters.of("connections") == {("slow",): 1}
            assert (await client.get("/healthz"))["status"] == "ok"
    run(work())


def test_a_head_that_drips_after_an_answer(path: Path) -> None:
    async def work() -> None:
        async with over_http(FAST, path) as client:
            reader, writer = await connected(client)
            writer.write(b"GET /ping HTTP/1.1\r\nHost: localhost\r\n\r\n")
            assert (await reader.readuntil(b"\r\n\r\n")).startswith(b"HTTP/1.1 204")
            writer.write(b"GET /ping HT")
            await ended((reader, writer))
            assert client.service.counters.of("connections") == {("slow",): 1}
    run(work())


def test_a_connection_that_says_nothing_more(path: Path) -> None:
    async def work() -> None:
        async with over_http(FAST, path) as client:
            reader, writer = await connected(client)
            writer.write(b"GET /ping HTTP/1.1\r\nHost: localhost\r\n\r\n")
            await reader.readuntil(b"\r\n\r\n")
            assert await ended((reader, writer)) == b""
    run(work())


def test_a_body_that_doesnt_come(path: Path) -> None:
    async def work() -> None:
        async with over_http(FAST, path) as client:
            reader, writer = await connected(client)
            writer.write(b"POST /write HTTP/1.1\r\nHost: localhost\r\nContent-Length: 50\r\n\r\nhome v=1")
            said = await ended((reader, writer))
            assert said.startswith(b"HTTP/1.1 408") and b'"slow"' in said
            assert (await client.get("/api/streams"))["streams"] == []
    run(work())


def test_an_answer_that_nobody_takes(path: Path) -> None:
    async def work() -> None:
        async with over_http(SMALL.replace("2 60 1", "2 4096 1") + "write_seconds = 1\n", path) as client:
            for at in range(0, 60):
                lines = "".join(f"home v={at} {at * 100 + each}\n" for each in range(100))
                await client.post("/write?precision=s", lines, 204)
            loop = asyncio.get_running_loop()
            with socket.socket() as deaf:
                deaf.setsockopt(socket.SOL_SOCKET, socket.SO_RCVBUF, 4096)
                deaf.setblocking(False)
                await loop.sock_connect(deaf, ("127.0.0.1", client.port))
                asked = b"GET /api/windows?stream=home/v HTTP/1.1\r\nHost: localhost\r\n\r\n"
                await loop.sock_sendall(deaf, asked * 20)
                await soon(lambda: client.service.counters.of("connections") == {("slow",): 1})
            assert len((await client.get("/api/windows", stream="home/v"))["windows"]) > 2000
    run(work())


def test_slow_readers_hold_nobody_up(path: Path) -> None:
    """More clients than there are cursors take nothing of their windows, and others are answered."""
    async def work() -> None:
        text = ANY.replace("2 60 1", "2 4096 1") + "[limits]\nwrite_seconds = 600\n"
        async with over_http(text, path) as client:
            lines = "".join(f"home v={at} {at}\n" for at in range(1, 4097))
            await client.post("/write?precision=s", lines, 204)
            loop, asked = asyncio.get_running_loop(), client.service.counters
            deaf = [socket.socket() for _ in range(9)]
            for each in deaf:
                each.setsockopt(socket.SOL_SOCKET, socket.SO_RCVBUF, 4096)
                each.setblocking(False)
                await loop.sock_connect(each, ("127.0.0.1", client.port))
                await loop.sock_sendall(each, b"GET /api/windows?stream=home/v HTTP/1.1\r\nHost: localhost"
                                              b"\r\n\r\n")
            for each in deaf:
                assert (await within(loop.sock_recv(each, 12))).startswith(b"HTTP/1.1 200")
            found = await within(client.get("/api/series", stream="home/v", kind="sum"))
            assert found["from"] == 1 and found["to"] == 4096
            assert len((await within(client.get("/api/windows", stream="home/v")))["windows"]) > 2000
            assert not asked.of("connections")
            for each in deaf:
                each.close()
    run(work())


async def well(client: Client) -> bool:
    """Whether it takes one more connection."""
    async with client.session.get(client.base + "/healthz") as answer:
        return answer.status == 200


def test_too_many_connections(path: Path) -> None:
    async def work() -> None:
        async with over_http(SMALL, path) as client:
            held = [await connected(client) for _ in range(4)]
            for reader, writer in held:
                writer.write(b"GET /ping HTTP/1.1\r\nHost: localhost\r\n\r\n")
                assert (await reader.readuntil(b"\r\n\r\n")).startswith(b"HTTP/1.1 204")
            said = await ended(await connected(client))
            assert said.startswith(b"HTTP/1.1 503") and b"Retry-After" in said
            for streams in held:
                streams[1].close()

            async def until_well() -> None:
                while not await well(client):
                    await asyncio.sleep(0.02)
            await within(until_well())
    run(work())


def test_requests_without_reading_the_answers(path: Path) -> None:
    async def work() -> None:
        async with over_http(FAST, path) as client:
            reader, writer = await connected(client)
            writer.write(b"GET /openapi.json HTTP/1.1\r\nHost: localhost\r\n\r\n" * 1000)
            await ended((reader, writer))
            assert client.service.counters.of("connections") == {("slow",): 1}
    run(work())


@pytest.mark.parametrize("said", [
    b"nonsense\r\n\r\n", b"\x16\x03\x01\x02\x00\x01\x00", b"GET / HTTP/9.9\r\n\r\n",
    b"GET /\xff\xfe HTTP/1.1\r\n\r\n",
    b"GET / HTTP/1.1\r\n" + b"X: y\r\n" * 5000 + b"\r\n", b"GET /" + b"a" * 20000 + b" HTTP/1.1\r\n\r\n",
    b"POST /write HTTP/1.1\r\nHost: a\r\nContent-Length: -5\r\n\r\n",
    b"POST /write HTTP/1.1\r\nHost: localhost\r\nTransfer-Encoding: chunked\r\n\r\nzz\r\n"])
def test_what_isnt_http(path: Path, said: bytes) -> None:
    async def work() -> None:
        async with over_http(FAST, path) as client:
            reader, writer = await connected(client)
            writer.write(said)
            writer.write_eof()
            told = await ended((reader, writer))
            assert told == b"" or told.startswith((b"HTTP/1.1 4", b"HTTP/1.0 4")), told[:200]
            assert (await client.get("/healthz"))["status"] == "ok"
    run(work())


def test_bodies_that_are_too_large(path: Path) -> None:
    async def work() -> None:
        async with over_http(SMALL, path) as client:
            assert (await client.post("/write", b"x" * 100_001, 413))["error"] == "too_large"

            async def parts() -> object:
                for _ in range(20):
                    yield b"#" * 10_000
            async with client.session.post(client.base + "/write", data=parts()) as answer:
                assert answer.status == 413
            many = "".join(f"home v=1 {at}\n" for at in range(101))
            assert (await client.post("/write?precision=s", many, 413))["error"] == "too_many"
            rows = [{"stream": "home/a", "value": 1}] * 101
            assert (await client.post("/api/append", {"readings": rows}, 413))["error"] == "too_many"
            told = await client.post("/write", "home v=1,w=" + "1" * 1000, 400)
            assert "at most 1000 characters" in told["reason"]
            told = await client.post("/write", "home," + "t" * 30 + "=1 v=1", 400)
            assert told["refused"][0]["code"] == "name"
            assert (await client.get("/api/streams"))["streams"] == []
    run(work())


def test_a_queue_that_is_full(path: Path) -> None:
    async def work() -> None:
        async with over_http(ANY + "[limits]\nqueue = 100\nlines = 100\n", path) as client:
            bodies = ["".join(f"home,a={series} v=1 {at}\n" for at in range(1, 61)) for series in range(8)]

            async def send(body: str) -> int:
                async with client.session.post(client.base + "/write?precision=s", data=body) as answer:
                    told = await answer.text()
                    if answer.status == 503:
                        assert answer.headers["Retry-After"] == "1" and '"busy"' in told
                    return answer.status

            found = await asyncio.gather(*map(send, bodies))
            assert set(found) <= {204, 503} and 204 in found
            streams = (await client.get("/api/streams"))["streams"]
            assert sum(stream["values"] for stream in streams) == 60 * found.count(204)
    run(work())
