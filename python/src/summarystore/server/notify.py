"""What systemd is told, by the socket that it names: that the service is ready, alive, or stopping."""

from __future__ import annotations

import asyncio
import os
import socket
import time


class Notifier:
    """Tells systemd. Without its socket nothing is told."""

    def __init__(self) -> None:
        self._address = os.environ.get("NOTIFY_SOCKET", "")
        if self._address[:1] == "@":
            self._address = "\0" + self._address[1:]
        self._socket = socket.socket(socket.AF_UNIX, socket.SOCK_DGRAM) if self._address else None
        if self._socket is not None:
            self._socket.setblocking(False)

    def tell(self, *facts: str) -> bool:
        """Tells some facts, such as `READY=1`. Whether they were taken."""
        if self._socket is None:
            return False
        try:
            self._socket.sendto("\n".join(facts).encode(), self._address)
        except OSError:
            return False
        return True

    def ready(self, status: str) -> None:
        """The service takes readings."""
        self.tell("READY=1", f"STATUS={status}")

    def reloading(self) -> None:
        """The file is read anew. `ready` says that it has been."""
        self.tell("RELOADING=1", f"MONOTONIC_USEC={time.monotonic_ns() // 1000}")

    def stopping(self) -> None:
        """The service ends."""
        self.tell("STOPPING=1", "STATUS=stopping")

    @property
    def watched(self) -> float | None:
        """How often systemd wants to hear that the service is alive, in seconds. None: not at all."""
        given = os.environ.get("WATCHDOG_USEC", "")
        mine = os.environ.get("WATCHDOG_PID", str(os.getpid())) == str(os.getpid())
        if self._socket is None or not given.isdigit() or not int(given) or not mine:
            return None
        return int(given) / 1e6

    async def keep_alive(self) -> None:
        """Says again and again that the loop turns, as long as it does."""
        seconds = self.watched
        while seconds is not None:
            self.tell("WATCHDOG=1")
            await asyncio.sleep(seconds / 3)

    def close(self) -> None:
        """Ends it."""
        if self._socket is not None:
            self._socket.close()
