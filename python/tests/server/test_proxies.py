"""The examples of caddy and nginx before the service, each with the real server and a certificate made here.

All is asked by curl as somebody from elsewhere would: by the name of the example, over TLS and HTTP/2.
"""

from __future__ import annotations

import json
import os
import subprocess
from collections.abc import Callable, Iterator
from pathlib import Path
from time import monotonic
from typing import NamedTuple

import pytest

from ..conftest import HOME
from ..ports import free_port
from ..waiting import SECONDS, in_time
from .real import Server, found, needs
from .running import Running

FILES = HOME / "service"
NAME = "readings.example"
READ, WRITE = "read-read-read-read", "write-write-write-write"
CONFIGURATION = """
[store]
path = "{folder}/any.store"
[http]
listen = "127.0.0.1:0"
[tokens]
file = "{folder}/tokens"
[[mapping]]
match = "home/*"
scale = 0.1
target = "exp 2 60 1"
"""
CADDY = """{{
    admin off
    http_port {plain}
    storage file_system {folder}/caddy
}}
"""
NGINX = """
daemon off;
{user}
pid {folder}/nginx.pid;
worker_processes 1;
events {{}}
http {{
    access_log off;
    client_body_temp_path {folder}/body;
    proxy_temp_path {folder}/proxy;
    fastcgi_temp_path {folder}/fastcgi;
    uwsgi_temp_path {folder}/uwsgi;
    scgi_temp_path {folder}/scgi;
    include {folder}/site.conf;
}}
"""


class Place(NamedTuple):
    """Where a proxy is tried."""

    folder: Path
    service: int
    """The port of the service."""
    plain: int
    secure: int


def changed(text: str, **pairs: tuple[str, str]) -> str:
    """A text in which each of some pieces, which has to stand in it, is another."""
    for old, new in pairs.values():
        assert old in text, old
        text = text.replace(old, new)
    return text


def caddy(place: Place) -> Server:
    """caddy by its example, of which the ports and the certificate are others."""
    folder = place.folder
    site = changed((FILES / "Caddyfile").read_text("utf-8"),
                   name=(f"\n{NAME} {{\n", f"\nhttps://{NAME}:{place.secure} {{\nbind 127.0.0.1\n"
                                           f"tls {folder}/certificate.pem {folder}/key.pem\n"),
                   service=("127.0.0.1:8087", f"127.0.0.1:{place.service}"))
    file = folder / "Caddyfile"
    file.write_text(CADDY.format(folder=folder, plain=place.plain) + site)
    return Server([str(found("caddy")), "run", "--adapter", "caddyfile", "--config", str(file)], place.secure,
                  folder)


def nginx(place: Place) -> Server:
    """nginx by its example, of which the ports and the certificate are others."""
    folder = place.folder
    live = f"/etc/letsencrypt/live/{NAME}"
    site = changed((FILES / "nginx.conf").read_text("utf-8"),
                   plain=("listen 80;", f"listen 127.0.0.1:{place.plain};"),
                   secure=("listen 443 ssl", f"listen 127.0.0.1:{place.secure} ssl"),
                   plain_six=("    listen [::]:80;\n", ""),
                   secure_six=("    listen [::]:443 ssl http2;\n", ""),
                   certificate=(f"{live}/fullchain.pem", f"{folder}/certificate.pem"),
                   key=(f"{live}/privkey.pem", f"{folder}/key.pem"),
                   service=("127.0.0.1:8087", f"127.0.0.1:{place.service}"))
    (folder / "site.conf").write_text(site)
    file = folder / "nginx.conf"
    file.write_text(NGINX.format(folder=folder, user="user root;" if os.geteuid() == 0 else ""))
    return Server([str(found("nginx")), "-e", "stderr", "-c", str(file)], place.secure, folder)


class Curl:
    """Asks by the name of the example, with the certificate of the test."""

    def __init__(self, place: Place) -> None:
        self._words = ["curl", "--silent", "--show-error", "--noproxy", "*", "--max-time", str(SECONDS),
                       "--cacert", str(place.folder / "certificate.pem"),
                       *(word for port in (place.secure, place.plain)
                         for word in ("--resolve", f"{NAME}:{port}:127.0.0.1"))]
        self.base = f"https://{NAME}:{place.secure}"
        self.plain = f"http://{NAME}:{place.plain}"

    def words(self, address: str, *more: str, token: str = READ) -> list[str]:
        """The words of its command line."""
        return [*self._words, "--header", f"Authorization: Bearer {token}", *more, address]

    def ask(self, path: str, *more: str, token: str = READ) -> tuple[int, str]:
        """The status and the text of an answer."""
        words = self.words(self.base + path, "--write-out", "\n%{http_code}", *more, token=token)
        done = subprocess.run(words, capture_output=True, text=True, check=True)
        text, _, status = done.stdout.rpartition("\n")
        return int(status), text

    def shown(self, address: str, what: str, *more: str) -> str:
        """One thing that curl knows of an answer."""
        done = subprocess.run(self.words(address, "--output", os.devnull, "--write-out", what, *more),
                              capture_output=True, text=True, check=True)
        return done.stdout


@pytest.fixture(params=[caddy, nginx], ids=["caddy", "nginx"])
def curl(request: pytest.FixtureRequest, folder: Path, program: str) -> Iterator[Curl]:
    """A service behind a proxy, and one who asks it."""
    made: Callable[[Place], Server] = request.param
    needs("curl", "openssl", made.__name__)
    subprocess.run(["openssl", "req", "-x509", "-newkey", "rsa:2048", "-nodes", "-days", "1", "-subj",
                    f"/CN={NAME}", "-addext", f"subjectAltName=DNS:{NAME}", "-keyout", folder / "key.pem",
                    "-out", folder / "certificate.pem"], capture_output=True, check=True)
    tokens = folder / "tokens"
    tokens.write_text(f"read {READ}\nwrite {WRITE}\n")
    tokens.chmod(0o600)
    service = Running(folder, config=CONFIGURATION.format(folder=folder), SUMMARYSTORE=program)
    try:
        place = Place(folder, int(service.base.rpartition(":")[2]), free_port(), free_port())
        proxy = made(place)
        proxy.start()
        try:
            yield Curl(place)
        finally:
            proxy.end()
    finally:
        service.end()


def lines_until(process: subprocess.Popen[str], text: str) -> list[str]:
    """The lines that a process writes, up to one that has a text. Each has to come at once."""
    assert process.stdout is not None
    lines: list[str] = []
    while not lines or text not in lines[-1]:
        line = process.stdout.readline()
        assert line, lines
        lines.append(line)
    return lines


def test_a_proxy(curl: Curl) -> None:
    with subprocess.Popen(curl.words(f"{curl.base}/api/events", "--no-buffer"), stdout=subprocess.PIPE,
                          text=True) as events:
        try:
            lines_until(events, '"state":"open"')       # the stream stands before anything is written
            _writes_and_asks(curl)
            began = monotonic()
            assert lines_until(events, "home/hall")[-2:-1] == ["event: reading\n"]
            in_time(began, SECONDS / 4)     # and not when the answer ends
        finally:
            events.kill()
    _is_safe(curl)


def _writes_and_asks(curl: Curl) -> None:
    """A write as a client of InfluxDB sends it, one by JSON, and a question."""
    status, said = curl.ask("/write?precision=s", "--data-binary", "home hall=21.5 1764410400", token=WRITE)
    assert (status, said) == (204, "")
    body = {"stream": "home/hall", "time": 1764410460, "value": "21.6"}
    status, said = curl.ask("/api/append", "--data", json.dumps(body), "--header", f"Origin: {curl.base}",
                            token=WRITE)
    assert status == 200 and json.loads(said)["stored"] == 1
    status, said = curl.ask("/api/query?stream=home/hall&kind=max")
    assert status == 200 and json.loads(said)["hi"] == 21.6


def _is_safe(curl: Curl) -> None:
    """What the service refuses is refused through a proxy, too, and TLS isn't left out."""
    assert curl.ask("/api/streams", token="wrong" * 4)[0] == 401
    assert curl.ask("/api/append", "--data", "{}", token=READ)[0] == 401
    assert curl.ask("/api/streams", "--header", "Origin: https://elsewhere.example")[0] == 403
    assert curl.ask("/write", "--data-binary", "x" * 4000, token=WRITE)[0] == 400
    assert curl.shown(curl.base + "/", "%{http_code} %{http_version} %{content_type}", "--compressed") == (
        "200 2 text/html; charset=utf-8")
    assert curl.shown(curl.plain + "/api/streams", "%{http_code} %{redirect_url}").startswith(
        f"308 https://{NAME}")
