"""Ports for servers that tests start, on the loopback."""

from __future__ import annotations

import fcntl
import os
import random
import socket
import tempfile
from contextlib import suppress
from functools import cache
from pathlib import Path

_GIVEN: set[int] = set()
"""Those that this process has given out."""


def free_port() -> int:
    """A port on which nothing listens, and which no other test gets while this process lives.

    It lies below those that the system gives to whoever asks for any, so that it stays free while its server
    is started again.
    """
    try:
        first = int(Path("/proc/sys/net/ipv4/ip_local_port_range").read_text("ascii").split()[0])
    except OSError:
        first = 32768
    while True:
        port = random.SystemRandom().randrange(max(1024, first // 2), first)
        if port not in _GIVEN and _is_free(port) and _keep(port):
            _GIVEN.add(port)
            return port


def _is_free(port: int) -> bool:
    with socket.socket() as sock, suppress(OSError):
        sock.bind(("127.0.0.1", port))
        return True
    return False


@cache
def _locks() -> int:
    """A file with a byte for each port. Who has locked one has the port."""
    file = Path(tempfile.gettempdir(), f"summarystore-{os.getuid()}.ports")
    return os.open(file, os.O_CREAT | os.O_RDWR | os.O_NOFOLLOW, 0o600)


def _keep(port: int) -> bool:
    """Whether no other process of tests has it. The lock goes with this process."""
    locks = _locks()
    with suppress(BlockingIOError, PermissionError):
        fcntl.lockf(locks, fcntl.LOCK_EX | fcntl.LOCK_NB, 1, port)
        return True
    return False


def listens(port: int) -> bool:
    """Whether something does."""
    with socket.socket() as sock:
        return sock.connect_ex(("127.0.0.1", port)) == 0
