"""Who may read, and who may write."""

from __future__ import annotations

import base64
import os
from pathlib import Path

import pytest

from summarystore.server.endpoints import Access
from summarystore.server.errors import ConfigurationError
from summarystore.server.tokens import Tokens, read_tokens

from ..waiting import run
from .conftest import ANY
from .serving import HTTP, over_http

READ, WRITE = "r" * 16, "w" * 16


def _file(folder: Path, text: str = f"# who\nread {READ}\n\nwrite {WRITE}\n", mode: int = 0o600) -> Path:
    file = folder / "tokens"
    file.write_text(text)
    file.chmod(mode)
    return file


def test_forms_of_tokens(folder: Path) -> None:
    tokens = read_tokens(str(_file(folder)))

    def allowed(access: Access, token: str = "", **words: str) -> bool:
        return tokens.allow(access, {"Authorization": token} if token else {}, words)

    basic = "Basic " + base64.b64encode(f"any:{READ}".encode()).decode()
    for token in (f"Bearer {READ}", f"bearer  {READ}", f"Token {READ}", basic):
        assert allowed(Access.READ, token) and not allowed(Access.WRITE, token)
    assert allowed(Access.READ, f"Token {WRITE}") and allowed(Access.WRITE, f"Token {WRITE}")
    assert allowed(Access.WRITE, u="any", p=WRITE) and not allowed(Access.WRITE, u=WRITE)
    for token in ("", "Bearer", "Bearer ", f"Bearer {READ}x", READ, f"Digest {READ}", "Basic !",
                  "Basic /w==", f"Bearer {'x' * 2000}", "Bearer \udcff"):
        assert not allowed(Access.READ, token), token
    assert allowed(Access.OPEN) and Tokens(None).allow(Access.WRITE, {}, {})
    admin = {"Authorization": f"Token {WRITE}"}
    assert not tokens.allow(Access.ADMIN, admin, {}) and Tokens(None).allow(Access.ADMIN, {}, {})
    assert not Tokens(None, anyone=True).allow(Access.ADMIN, {}, {})
    tokens = read_tokens(str(_file(folder, f"admin {WRITE}\n")))
    assert all(tokens.allow(access, admin, {}) for access in Access)


@pytest.mark.parametrize("text, mode, reason", [
    (f"read {READ}\n", 0o604, "others can read it"), (f"read {READ}\n", 0o644, "others"),
    (f"read {READ}\n", 0o620, "can write it"), ("", 0o600, "no token"), ("# none\n", 0o600, "no token"),
    ("read short\n", 0o600, "16 to"), (f"all {READ}\n", 0o600, "line 1"),
    (f"read {READ} x\n", 0o600, "line 1")])
def test_files_that_are_refused(folder: Path, text: str, mode: int, reason: str) -> None:
    with pytest.raises(ConfigurationError, match=reason) as met:
        read_tokens(str(_file(folder, text, mode)))
    assert READ not in str(met.value)


def test_files_that_cant_be_read(folder: Path) -> None:
    for name in ("none", "."):
        with pytest.raises(ConfigurationError):
            read_tokens(str(folder / name))
    os.mkfifo(folder / "pipe", 0o600)
    with pytest.raises(ConfigurationError):
        read_tokens(str(folder / "pipe"))
    (folder / "latin").write_bytes(b"read \xff" + READ.encode())
    (folder / "latin").chmod(0o600)
    with pytest.raises(ConfigurationError, match="UTF-8"):
        read_tokens(str(folder / "latin"))


def test_a_group_may_read_it(folder: Path) -> None:
    assert read_tokens(str(_file(folder, mode=0o640))).needed


def test_over_http(path: Path, folder: Path) -> None:
    async def work() -> None:
        async with over_http(ANY + f'[tokens]\nfile = "{_file(folder)}"\n', path) as client:
            read, write = ({"Authorization": f"Token {token}"} for token in (READ, WRITE))
            body = {"stream": "home/a", "value": 1}
            none: dict[str, str] = {}
            for headers, address, status in ((none, "/api/streams", 401), (read, "/api/streams", 200),
                                             (write, "/api/streams", 200), (none, "/api/events", 401),
                                             (none, "/healthz", 200), (none, "/openapi.json", 200)):
                await client.text("GET", address, status, headers=headers)
            assert (await client.post("/api/append", body, 401))["error"] == "token"
            assert client.headers["WWW-Authenticate"] == "Bearer"
            await client.post("/api/append", body, 401, headers=read)
            await client.post("/api/append", body, headers=write)
            await client.post(f"/write?u=x&p={READ}", "home/b v=1", 401)
            await client.post(f"/write?u=x&p={WRITE}", "home/b v=1", 204)
            assert await client.get("/healthz") == {"status": "ok"}
            told = await client.text("GET", "/healthz", headers=read)
            assert '"readings":{"stored":2}' in told and READ not in told
            _file(folder, f"write {READ}\n")
            config = folder / "a.toml"
            config.write_text(ANY + f'[tokens]\nfile = "{folder}/tokens"\n')
            object.__setattr__(client.service.configuration, "file", str(config))
            client.service.reload()
            await client.text("GET", "/api/streams", 401, headers=write)
            _file(folder, "broken")
            client.service.reload()
            await client.text("GET", "/api/streams", 200, headers=read)
    run(work())


def test_pages_from_elsewhere(path: Path) -> None:
    """A browser says where a page is from. By a name of its own a page could reach this machine."""
    async def work() -> None:
        async with over_http(HTTP + 'hosts = ["ours.example"]\n' + ANY, path) as client:
            body = {"stream": "home/a", "value": 1}
            for origin in ("http://evil.example", "null", "http://127.0.0.1:1"):
                told = await client.post("/api/append", body, 403, headers={"Origin": origin})
                assert told["error"] == "other_origin"
            await client.post("/api/append", body, headers={"Origin": client.base})
            for host in ("evil.example", f"evil.example:{client.port}", "ours.example.evil"):
                await client.text("GET", "/api/streams", 403, headers={"Host": host})
            for host in ("ours.example", "localhost", f"localhost:{client.port}", "[::1]:80",
                         "192.168.1.7:8087"):
                await client.text("GET", "/api/streams", 200, headers={"Host": host})
    run(work())
