"""The page over the true service: the lines that it shows a stranger do what they say."""

from __future__ import annotations

import json
import os
import shlex
import shutil
import signal
import subprocess
import sys
import time
import urllib.error
import urllib.request
from collections.abc import Iterator
from pathlib import Path
from typing import Any

import pytest

pytest.importorskip("aiohttp", reason="the service: python3-aiohttp is missing")

import summarystore  # noqa: E402
from summarystore.server import page  # noqa: E402

from ..ports import free_port  # noqa: E402
from ..waiting import SECONDS, ended, until  # noqa: E402
from . import page_browser  # noqa: E402
from .page_browser import NBSP, Browser  # noqa: E402
from .page_clock import CLOCK  # noqa: E402

browser, chromium = page_browser.browser, page_browser.chromium

if page.chart_file() is None:
    pytest.skip("the page in a browser: libjs-chart.js is missing", allow_module_level=True)
if shutil.which("curl") is None:
    pytest.skip("the page over the true service: curl is missing", allow_module_level=True)


class Running:
    """The command `summarystored` in a process of its own, and the address that it says."""

    def __init__(self, folder: Path, mapping: str) -> None:
        self.folder = folder
        self.file = folder / "service.toml"
        self.process: subprocess.Popen[str] | None = None
        self.address = ""
        self.write(mapping)

    def write(self, mapping: str) -> None:
        """Writes the configuration."""
        self.file.write_text(f'[store]\npath = "{self.folder}/page.store"\n{mapping}', encoding="utf-8")

    def start(self, listen: str) -> None:
        """Starts it, and waits until it is ready."""
        words = ["-m", "summarystore.server.main", "--config", str(self.file), "--listen", listen]
        package = {**os.environ, "PYTHONPATH": str(Path(summarystore.__file__).parents[1])}
        self.process = subprocess.Popen([sys.executable, *words], env=package, text=True,
                                        stderr=subprocess.PIPE)
        assert self.process.stderr is not None
        for line in self.process.stderr:
            if " ready: address=" in line:
                self.address = line.partition("address=")[2].split()[0]
                return
        raise AssertionError(f"the service ended with {self.process.wait()}")

    def signal(self, number: signal.Signals) -> None:
        """Sends a signal."""
        assert self.process is not None
        self.process.send_signal(number)

    def stop(self) -> None:
        """Ends it."""
        if self.process is not None:
            self.process.terminate()
            ended(self.process)
            assert self.process.stderr is not None
            self.process.stderr.close()
            self.process = None

    def append(self, name: str, value: float) -> None:
        """Writes a reading. The stream counts seconds: it is a later one than that of the last."""
        time.sleep(1.1)
        self.ask("api/append", {"stream": name, "time": "now", "value": value})

    def is_open_again(self) -> bool:
        """Whether the store was opened a second time."""
        try:
            return bool(self.ask("healthz")["store"]["opened"] == 2)
        except OSError:     # it isn't well yet, or busy
            return False

    def ask(self, path: str, body: object = None) -> Any:
        """Asks the service, or tells it something."""
        data = None if body is None else json.dumps(body).encode()
        request = urllib.request.Request(f"{self.address}{path}", data, {"Content-Type": "application/json"})
        try:
            with urllib.request.urlopen(request, timeout=SECONDS) as answer:
                return json.load(answer)
        except urllib.error.HTTPError as error:
            error.add_note(error.read().decode())       # what the service says of it
            raise


@pytest.fixture()
def running(folder: Path, program: str, browser: Browser) -> Iterator[Running]:
    CLOCK.put()     # the true service has the true time
    browser.prepare()
    made = Running(folder, "")
    made.start(f"127.0.0.1:{free_port()}")      # it comes back there later
    yield made
    made.stop()


METERS = """
[[mapping]]
match = "home/*/power"
kind = "gauge"
integrate = "h"
unit = "W"
[[mapping]]
match = "home/*/energy"
kind = "counter"
unit = "kWh"
[[mapping]]
match = "home/*/temperature"
"""


def test_what_meters_are_asked(running: Running, browser: Browser) -> None:
    """A gauge has its integral and its mean by time, a counter its increase, and others have none of them."""
    running.write(METERS)
    running.signal(signal.SIGHUP)
    now = int(time.time())

    def append(kind: str, *values: int) -> bool:
        rows = [{"stream": f"home/hall/{kind}", "time": now - 3600 + 1800 * at, "value": value}
                for at, value in enumerate(values)]
        try:
            return bool(running.ask("api/append", {"readings": rows})["stored"] == len(rows))
        except urllib.error.HTTPError:
            return False
    until(lambda: append("temperature", 20, 21, 22))        # the signal is taken soon
    assert append("power", 100, 200, 0) and append("energy", 5, 7, 2)

    def seen(kind: str) -> bool:
        return browser.seen(f"label[for=kind-{kind}]")
    browser.open(f"{running.address}#stream=home/hall/power&kind=integral&range=day")
    browser.until(lambda: browser.text("#answer-integral") == f"150{NBSP}W·h")
    browser.until(lambda: browser.text("#answer-time_mean") == f"150{NBSP}W")
    caption = browser.text("#caption")
    assert caption.startswith("Integral over each") and caption.endswith("W·h")
    assert seen("time_mean") and not seen("increase")
    browser.open(f"{running.address}#stream=home/hall/energy&kind=increase&range=day")
    browser.until(lambda: browser.text("#answer-increase") == f"4{NBSP}kWh")
    assert seen("increase") and not seen("integral")
    browser.open(f"{running.address}#stream=home/hall/temperature&kind=increase&range=day")
    browser.until(lambda: browser.text("#answer-max") == "22")
    assert not seen("increase") and not seen("integral")


def test_what_the_page_shows_a_stranger_does_what_it_says(running: Running, browser: Browser) -> None:
    browser.open(running.address)
    mapping, line = browser.texts("#notice code")
    running.write(mapping)
    running.signal(signal.SIGHUP)

    def is_stored() -> bool:
        answer = subprocess.run([*shlex.split(line), "--silent", "--max-time", str(SECONDS)],
                                capture_output=True, text=True, check=True)
        return bool(json.loads(answer.stdout).get("stored") == 1)
    until(is_stored)        # the signal is taken soon
    browser.until(lambda: browser.text("#value") == f"21.5{NBSP}°C")
    assert browser.text("#path") == "home / living room" and browser.text("#name") == "temperature"
    name = "home/living room/temperature"
    running.append(name, 22.0)
    browser.until(lambda: browser.text("#value") == f"22.0{NBSP}°C")
    browser.until(lambda: browser.text("#answer-count") == "2")
    assert browser.text("#answer-mean") == f"21.75{NBSP}°C" and browser.text("#when").startswith("exactly")

    browser.find("#landmark").click()
    browser.find("#dialog-yes").click()
    browser.until(lambda: browser.text("#landmark-text") == "End the landmark")
    assert len(running.ask("api/landmarks?stream=home/living%20room/temperature")["landmarks"]) == 1
    browser.find("#landmark").click()
    browser.until(lambda: browser.seen("#dialog"))
    browser.find("#dialog-yes").click()
    browser.until(lambda: browser.text("#landmark-text") == "Mark from now")

    os.kill(running.ask("healthz")["store"]["pid"], signal.SIGKILL)
    browser.until(running.is_open_again)
    browser.until(lambda: not browser.seen("#banner"))
    running.append(name, 23.5)
    browser.until(lambda: browser.text("#value") == f"23.5{NBSP}°C")

    listen = running.address.removeprefix("http://").rstrip("/")
    running.stop()
    browser.until(lambda: browser.text("#state-text") == "Offline")
    running.start(listen)
    browser.until(lambda: browser.text("#state-text") == "Live")
    assert browser.text("#value") == f"23.5{NBSP}°C"


AHEAD = """
[limits]
future = "100000000000000d"
[[mapping]]
match = "home/*"
"""


def test_a_stream_that_lies_ahead_of_the_clock_is_shown(running: Running, browser: Browser) -> None:
    """Nanoseconds that were taken for seconds, beyond what a calendar of the browser has."""
    listen = running.address.removeprefix("http://").rstrip("/")
    running.stop()
    running.write(AHEAD)
    running.start(listen)
    running.ask("api/append", {"readings": [{"stream": "home/a", "time": at, "value": 21}
                                            for at in (1764410400, 1764410400000000000)]})
    running.ask("api/append", {"stream": "home/b", "time": "now", "value": 22})
    browser.open(running.address)
    browser.until(lambda: browser.text("#state-text") == "Live")
    browser.until(lambda: browser.text("#value") == "21")
    assert browser.text("#name") == "a" and "ahead of the clock" in browser.text("#when")
    assert "ahead of the clock" in browser.text("#streams")
    running.append("home/b", 23)
    browser.until(lambda: "23" in browser.text("#streams"))
    assert browser.text("#state-text") == "Live" and not browser.seen("#banner")
