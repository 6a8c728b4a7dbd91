"""The command `summarystored`: how it begins, goes on whatever happens, and ends."""

from __future__ import annotations

import os
import signal
import socket
import subprocess
import sys
import time
from collections.abc import Callable, Iterator
from contextlib import suppress
from pathlib import Path

import pytest

from summarystore.program import check

from ..conftest import HOME
from ..waiting import SECONDS, ended, until
from .conftest import ANY
from .running import Running

LISTEN = "--listen=127.0.0.1:0"
Starting = Callable[..., Running]


@pytest.fixture
def starting(folder: Path, program: str) -> Iterator[Starting]:
    """Starts the command, and ends it with the test."""
    made: list[Running] = []

    def start(*words: str, **more: str) -> Running:
        made.append(Running(folder, *words, **more))
        return made[-1]
    yield start
    for each in made:
        if each.process.poll() is None:
            each.process.kill()
            each.process.wait()


def test_a_life(starting: Starting, path: Path) -> None:
    """Started, written to, read anew, its program killed, ended in order, and started again."""
    service = starting(LISTEN, f"--store={path}", config=ANY)
    assert service.ask("/api/append", {"stream": "home/a", "time": 1, "value": "21.5"})[0] == 200
    assert service.ask("/write?precision=s", b"home v=1 1\nnoise v=2 1\n")[0] == 400
    status, told = service.ask("/healthz")
    assert (status, told["status"]) == (200, "ok") and told["unmatched"]["readings"] == 1

    config = path.with_name("service.toml")
    config.write_text(ANY + '[[mapping]]\nmatch = "noise/**"\n')
    service.process.send_signal(signal.SIGHUP)
    service.until("mapping read anew")
    assert service.ask("/write?precision=s", b"noise v=2 1\n")[0] == 204
    config.write_text("[[mapping]]\n")
    service.process.send_signal(signal.SIGHUP)
    service.until("mapping kept as it was")
    assert "match" in service.ask("/healthz")[1]["mapping"]["error"]
    assert service.ask("/write?precision=s", b"noise v=3 2\n")[0] == 204

    os.kill(told["store"]["pid"], signal.SIGKILL)
    assert service.ask("/api/append", {"stream": "home/a", "time": 2, "value": "21.6"})[0] in (200, 503)
    until(lambda: service.ask("/healthz")[1]["store"]["opened"] == 2)
    assert service.ask("/api/query?stream=home/a&kind=count")[1]["lo"] in (1, 2)

    assert service.end_in_time() == 0
    assert check(path).streams == 3
    assert not [line for line in service.log.splitlines() if "Traceback" in line]
    config.write_text(ANY)
    service.start_again()
    assert len(service.ask("/api/streams")[1]["streams"]) == 3
    assert service.end_in_time(signal.SIGINT) == 0


def test_it_ends_in_time_whatever_is_under_way(starting: Starting, path: Path) -> None:
    service = starting(LISTEN, f"--store={path}", config=ANY)
    host, _, port = service.base.rpartition("//")[2].rpartition(":")
    pid = service.ask("/healthz")[1]["store"]["pid"]
    with socket.create_connection((host, int(port))) as listening, \
            socket.create_connection((host, int(port))) as writing:
        listening.sendall(b"GET /api/events HTTP/1.1\r\nHost: localhost\r\n\r\n")
        assert listening.recv(100).startswith(b"HTTP/1.1 200")
        os.kill(pid, signal.SIGSTOP)        # it answers no more
        body = b'{"stream":"home/a","value":1}'
        writing.sendall(b"POST /api/append HTTP/1.1\r\nHost: localhost\r\nContent-Length: %d\r\n\r\n%b"
                        % (len(body), body))
        time.sleep(0.3)
        service.end_in_time()
        with suppress(ConnectionError):     # what wasn't read may end it so
            assert not writing.recv(1000).startswith(b"HTTP/1.1 200")
    assert "program killed, since it doesn't end" in service.log
    assert not Path(f"/proc/{pid}").exists()


@pytest.mark.parametrize("words, reason", [
    ([], "where the store is has to be said"), (["--config=none"], "No such file"),
    (["--store=a", "--listen=8087"], "HOST:PORT"), (["--store=a", "--program=none"], "no program at none"),
    (["--store=a", "--listen=0.0.0.0:0"], "can be reached from elsewhere")])
def test_mistakes(folder: Path, program: str, words: list[str], reason: str) -> None:
    done = _done(folder, *words)
    assert done.returncode == 2 and reason in done.stderr and not (folder / "a").exists(), done.stderr


def _done(folder: Path, *words: str) -> subprocess.CompletedProcess[str]:
    return subprocess.run([sys.executable, "-m", "summarystore.server.main", *words], cwd=folder, check=False,
                          env={**os.environ, "PYTHONPATH": str(HOME / "src")}, capture_output=True, text=True,
                          timeout=SECONDS)


def test_the_configuration_is_looked_over(folder: Path, program: str) -> None:
    (folder / "tokens").write_text("read 0123456789abcdef\n")
    (folder / "tokens").chmod(0o644)
    (folder / "good.toml").write_text(ANY)
    (folder / "bad.toml").write_text(f'[tokens]\nfile = "{folder}/tokens"\n')
    assert _done(folder, "--config=good.toml", "--check").returncode == 0
    done = _done(folder, "--config=bad.toml", "--check")
    assert done.returncode == 2 and "others can read it" in done.stderr
    assert _done(folder, "--config=bad.toml", "--store=a").returncode == 2


def test_an_address_that_is_taken(starting: Starting, path: Path) -> None:
    with socket.socket() as other:
        other.bind(("127.0.0.1", 0))
        other.listen()
        service = starting(f"--listen=127.0.0.1:{other.getsockname()[1]}", f"--store={path}")
        assert ended(service.process) == 1
        assert "not started: reason=" in service.log and "store stopped" in service.log


def test_a_store_that_isnt_one(starting: Starting, path: Path) -> None:
    """The service stays up, says so, refuses what it can't do, and goes on when it can."""
    path.write_bytes(b"no store at all\n" * 100)
    service = starting(LISTEN, f"--store={path}", config=ANY)
    status, told = service.ask("/healthz")
    assert (status, told["status"]) == (503, "store_damaged") and told["store"]["reason"]
    status, told = service.ask("/api/append", {"stream": "home/a", "value": 1})
    assert (status, told["error"]) == (503, "store_unavailable")
    assert service.ask("/api/streams")[0] == 503
    path.unlink()
    until(lambda: service.ask("/healthz")[0] == 200)
    assert service.ask("/api/append", {"stream": "home/a", "value": 1})[0] == 200


def test_a_store_that_another_has(starting: Starting, path: Path, program: str) -> None:
    with subprocess.Popen([program, str(path), "sessions"], stdin=subprocess.PIPE, stdout=subprocess.PIPE
                          ) as other:
        assert other.stdin and other.stdout
        other.stdin.write(b"@0 list\n")
        other.stdin.flush()
        assert other.stdout.readline()
        service = starting(LISTEN, f"--store={path}", config=ANY)
        assert service.ask("/healthz")[1]["status"] == "store_locked"
        other.stdin.close()
        other.wait()
    until(lambda: service.ask("/healthz")[0] == 200)


def test_a_store_that_is_gone_isnt_made_anew(starting: Starting, path: Path) -> None:
    service = starting(LISTEN, f"--store={path}", config=ANY)
    pid = service.ask("/healthz")[1]["store"]["pid"]
    moved = path.with_name("moved.store")
    path.rename(moved)
    os.kill(pid, signal.SIGKILL)
    until(lambda: service.ask("/api/streams")[0] == 503)
    until(lambda: service.ask("/healthz")[1]["status"] == "store_gone")
    assert not path.exists()
    moved.rename(path)
    until(lambda: service.ask("/healthz")[0] == 200)


def test_systemd_is_told(starting: Starting, path: Path, folder: Path) -> None:
    with socket.socket(socket.AF_UNIX, socket.SOCK_DGRAM) as manager:
        manager.bind(str(folder / "notify"))
        manager.settimeout(SECONDS)
        service = starting(LISTEN, f"--store={path}", config=ANY, NOTIFY_SOCKET=str(folder / "notify"),
                           WATCHDOG_USEC="300000", JOURNAL_STREAM="8:1")
        assert manager.recv(1000).startswith(b"READY=1\nSTATUS=serving http://127.0.0.1:")
        assert [manager.recv(1000) for _ in range(3)] == [b"WATCHDOG=1"] * 3
        service.process.send_signal(signal.SIGHUP)
        told = [manager.recv(1000)]
        while not told[-1].startswith(b"READY=1"):
            told.append(manager.recv(1000))
        assert sum(fact.startswith(b"RELOADING=1\nMONOTONIC_USEC=") for fact in told) == 1
        service.end()
        while not manager.recv(1000).startswith(b"STOPPING=1"):
            pass
    assert all(line.startswith(("<6>", "<4>", "<3>")) for line in service.log.splitlines())


def test_readings_that_are_made_up(starting: Starting, folder: Path) -> None:
    service = starting("--demo", LISTEN, TMPDIR=str(folder))
    until(lambda: len(service.ask("/api/streams")[1]["streams"]) == 5)
    streams = service.ask("/api/streams?match=demo/*")[1]["streams"]
    assert all(stream["labels"] == {"source": "made up"} for stream in streams)
    until(lambda: all(stream["values"] > 4000 for stream in service.ask("/api/streams")[1]["streams"]))
    told = service.ask("/api/series?stream=demo/attic/temperature&kind=mean&rows=100")[1]
    assert len(told["rows"]) >= 99 and all(row["lo"] <= row["hi"] for row in told["rows"] if not row["none"])
    count = streams[0]["values"]
    until(lambda: service.ask("/api/streams")[1]["streams"][0]["values"] > count)
    service.end_in_time()
    assert not list(folder.glob("summarystored-demo-*"))


def test_a_disk_that_is_full(starting: Starting, folder: Path) -> None:
    disk = folder / "disk"
    disk.mkdir()
    mounted = subprocess.run(["mount", "-t", "tmpfs", "-o", "size=400k", "none", str(disk)], check=False,
                             capture_output=True)
    if mounted.returncode:
        pytest.skip("a file system in memory can't be mounted here")
    service = starting(LISTEN, f"--store={disk}/a.store", config=ANY.replace("2 60 1", "2 4096 1"))
    try:
        sent, status = 0, 200
        while status == 200:
            rows = [{"stream": "home/a", "time": sent + at, "value": 1} for at in range(1, 1001)]
            status, told = service.ask("/api/append", {"readings": rows})
            sent += 1000
            assert sent < 100_000
        assert status == 503 and told["error"] in ("interrupted", "store_unavailable")
        acknowledged = sent - 1000 + told.get("stored", 0)
        until(lambda: service.ask("/healthz")[1]["status"] == "store_full")
        assert "no space left" in service.ask("/healthz")[1]["store"]["reason"]
        subprocess.run(["mount", "-o", "remount,size=4m", str(disk)], check=True)
        until(lambda: service.ask("/healthz")[0] == 200)
        kept = service.ask("/api/query?stream=home/a&kind=count")[1]["lo"]
        assert acknowledged <= kept <= acknowledged + len(told.get("unknown", ()))
        assert service.ask("/api/append", {"stream": "home/a", "value": 1})[0] == 200
        service.end_in_time()
    finally:
        service.end(signal.SIGKILL)
        until(lambda: not subprocess.run(["umount", str(disk)], check=False).returncode)
