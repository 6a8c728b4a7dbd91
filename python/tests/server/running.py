"""The command `summarystored` as a process of its own."""

from __future__ import annotations

import json
import os
import signal
import subprocess
import sys
import urllib.error
import urllib.request
from collections.abc import Sequence
from contextlib import suppress
from pathlib import Path
from typing import Any

from ..conftest import HOME
from ..ports import free_port
from ..waiting import SECONDS, ended, until

ENDS = 5.0
"""It ends within so many seconds, where the machine has a processor for it."""


def patience() -> float:
    """Within so many seconds it ends, on a machine that has other work."""
    return ENDS * max(1.0, 2 * os.getloadavg()[0] / (os.cpu_count() or 1))


def over_store(folder: Path, mappings: str) -> Running:
    """A run over a store of this folder, with these mappings."""
    config = f'[http]\nlisten = "127.0.0.1:{free_port()}"\n[store]\npath = "{folder}/a.store"\n{mappings}'
    return Running(folder, config=config)


class Running:
    """One run of it, with what it logged."""

    def __init__(self, folder: Path, *words: str, config: str | None = None, **more: str) -> None:
        self._log = folder / "log"
        self._words: Sequence[str] = words
        if config is not None:
            (folder / "service.toml").write_text(config)
            self._words = ["--config", str(folder / "service.toml"), *words]
        self._environment = {**os.environ, "PYTHONPATH": str(HOME / "src"), **more}
        self.process = self._start()

    def _start(self) -> subprocess.Popen[bytes]:
        with open(self._log, "ab") as log:
            return subprocess.Popen([sys.executable, "-m", "summarystore.server.main", *self._words],
                                    env=self._environment, stdin=subprocess.DEVNULL, stdout=log, stderr=log)

    def start_again(self) -> None:
        """Starts it once more, after it has ended."""
        self._log.unlink()
        self.process = self._start()

    def killed(self) -> None:
        """Kills it, and starts it once more."""
        self.process.kill()
        self.process.wait()
        self.start_again()

    def kill_program(self) -> bool:
        """Kills the store's program. Whether there was one."""
        try:
            pid = self.ask("/healthz")[1]["store"]["pid"]
        except OSError:     # it isn't up
            return False
        with suppress(ProcessLookupError):
            if pid is not None:
                os.kill(pid, signal.SIGKILL)
                return True
        return False

    @property
    def log(self) -> str:
        """What it has logged."""
        return self._log.read_text("utf-8")

    def until(self, text: str) -> None:
        """Waits until the log has this."""
        until(lambda: self._logged(text), said=lambda: self.log)

    def _logged(self, text: str) -> bool:
        here = text in self.log
        assert here or self.process.poll() is None, self.log
        return here

    @property
    def base(self) -> str:
        """Where it serves HTTP."""
        self.until("ready: address=")
        return self.log.partition("ready: address=")[2].partition(" ")[0].rstrip("/")

    def end(self, number: int = signal.SIGTERM, seconds: float = SECONDS) -> int:
        """Ends it by a signal. Gives its status."""
        self.process.send_signal(number)
        return ended(self.process, seconds, lambda: self.log)

    def end_in_time(self, number: int = signal.SIGTERM) -> int:
        """Ends it by a signal, within the seconds that it promises. Gives its status."""
        return self.end(number, patience())

    def ask(self, path: str, body: object = None) -> tuple[int, Any]:
        """The status and the JSON of an answer."""
        data = None if body is None else body if isinstance(body, bytes) else json.dumps(body).encode()
        request = urllib.request.Request(self.base + path, data)
        opener = urllib.request.build_opener(urllib.request.ProxyHandler({}))
        try:
            with opener.open(request, timeout=SECONDS) as answer:
                said = answer.read()
                return answer.status, json.loads(said) if said else None
        except urllib.error.HTTPError as error:
            with error:
                return error.code, json.loads(error.read())
