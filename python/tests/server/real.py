"""Real programs that tests talk to: brokers, collectors and others of Debian's packages."""

from __future__ import annotations

import getpass
import os
import shutil
import signal
import subprocess
from collections.abc import Sequence
from pathlib import Path

import pytest

from ..ports import free_port, listens
from ..waiting import ended, until


def needs(*programs: str) -> None:
    """Skips a test, and says why, where one of these programs isn't there."""
    for program in programs:
        if found(program) is None:
            pytest.skip(f"{program} is missing")


def found(program: str) -> str | None:
    """The path of a program, also of those that only an administrator has on the PATH."""
    return shutil.which(program, path=f"{os.environ.get('PATH', '')}:/usr/sbin:/sbin:/usr/local/sbin")


class Server:
    """A program that listens on a port: started, killed, and started again."""

    def __init__(self, words: Sequence[str], port: int, folder: Path) -> None:
        self._words = words
        self.port = port
        self._said = folder / f"{Path(words[0]).name}.said"
        self._process: subprocess.Popen[bytes] | None = None

    def start(self) -> None:
        """Starts it, and waits until it listens."""
        with open(self._said, "ab") as out:
            self._process = subprocess.Popen(self._words, stdin=subprocess.DEVNULL, stdout=out, stderr=out)
        until(self._listens, said=lambda: f"{self._words[0]} doesn't listen: {self.said[-1000:]}")

    def _listens(self) -> bool:
        if self._process is None or self._process.poll() is not None:
            pytest.fail(f"{self._words[0]} has ended: {self.said[-1000:]}")
        return listens(self.port)

    @property
    def said(self) -> str:
        """What it has written."""
        return self._said.read_text("utf-8", "replace")

    def end(self, number: int = signal.SIGTERM) -> None:
        """Ends it by a signal, and waits for that."""
        if self._process is not None:
            self._process.send_signal(number)
            ended(self._process, said=lambda: self.said[-1000:])
            self._process = None


def mosquitto(folder: Path, extra: str = "", anyone: bool = True) -> Server:
    """The broker mosquitto, which keeps on the disk what it has acknowledged."""
    needs("mosquitto")
    port = free_port()
    file = folder / "mosquitto.conf"
    file.write_text(f"user {getpass.getuser()}\nlistener {port} 127.0.0.1\n"
                    f"allow_anonymous {str(anyone).lower()}\npersistence true\n"
                    f"persistence_location {folder}/\nautosave_on_changes true\nautosave_interval 1\n"
                    f"max_queued_messages 0\nmax_inflight_messages 0\n{extra}")
    return Server([str(found("mosquitto")), "-c", str(file)], port, folder)
