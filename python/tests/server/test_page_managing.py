"""The page renames and drops streams, for who may."""

from __future__ import annotations

from pathlib import Path

import pytest

pytest.importorskip("aiohttp", reason="the service: python3-aiohttp is missing")

from summarystore.server import page  # noqa: E402

from . import page_browser  # noqa: E402
from .page_browser import AT_KITCHEN, NBSP, Browser  # noqa: E402
from .page_stand_in import StandIn  # noqa: E402
from .running import Running  # noqa: E402

browser, chromium, service = page_browser.browser, page_browser.chromium, page_browser.service
if page.chart_file() is None:
    pytest.skip("the page in a browser: libjs-chart.js is missing", allow_module_level=True)

ENTER = "\ue007"


def renamed(browser: Browser, name: str) -> None:
    """Gives the stream that is looked at this name."""
    browser.find("#rename").click()
    browser.until(lambda: browser.focused() == "dialog-field")
    browser.run("document.getElementById('dialog-field').select()")
    browser.press(name, ENTER)


def test_only_who_may_is_shown_how(browser: Browser, service: StandIn) -> None:
    browser.look(service.address + AT_KITCHEN)
    browser.until(lambda: "Target" in browser.texts("#facts dt"))
    assert not browser.seen("#drop") and not browser.seen("#rename")


def test_a_stream_is_renamed(browser: Browser, service: StandIn) -> None:
    service.admin = True
    browser.expect("409")
    browser.look(service.address + AT_KITCHEN)
    browser.until(lambda: browser.seen("#rename"))
    renamed(browser, "home/attic/temperature")
    browser.until(lambda: browser.text("#dialog-wrong") == "a stream 'home/attic/temperature' stands")
    browser.find("#dialog-no").click()
    assert "home/kitchen/temperature" in service.streams
    renamed(browser, "home/kitchen/heat & steam")
    browser.until(lambda: browser.text("#name") == "heat & steam")
    assert "home/kitchen/heat & steam" in service.streams
    assert "stream=home%2Fkitchen%2Fheat+%26+steam" in browser.driver.current_url
    assert "heat & steam" in browser.texts(".item-last") and len(browser.texts(".item-last")) == 8


def test_a_stream_is_dropped(browser: Browser, service: StandIn) -> None:
    service.admin = True
    browser.look(service.address + AT_KITCHEN)
    browser.until(lambda: browser.seen("#drop"))
    browser.find("#drop").click()
    assert f"3,456,000{NBSP}readings" in browser.text("#dialog-text") and not browser.seen("#dialog-field")
    browser.find("#dialog-no").click()
    assert "home/kitchen/temperature" in service.streams
    browser.find("#drop").click()
    browser.find("#dialog-yes").click()
    browser.until(lambda: browser.text("#count") == f"7{NBSP}streams")
    assert "home/kitchen/temperature" not in service.streams
    browser.until(lambda: browser.text("#name") == "humidity")


def test_over_the_true_service(browser: Browser, folder: Path, path: Path) -> None:
    """Who has a token to read sees no button, and who has one of `admin` drops a stream."""
    tokens = folder / "tokens"
    tokens.write_text("read reading-reading-77\nadmin administering-77\n")
    tokens.chmod(0o600)
    config = f'[tokens]\nfile = "{tokens}"\n[[mapping]]\nmatch = "home/**"\n'
    running = Running(folder, f"--store={path}", "--listen=127.0.0.1:0", config=config)
    browser.expect("401", "404")      # a picture may be asked for of what was dropped
    try:
        for name in ("home/a", "home/b"):
            body = {"stream": name, "time": 1764406800, "value": 5}
            assert running.ask("/api/append?p=administering-77", body)[0] == 200
        for token, may in (("reading-reading-77", False), ("administering-77", True)):
            browser.open(f"{running.base}/#stream=home%2Fa", "A token is wanted")
            browser.find("#token").click()
            browser.press(token, ENTER)
            browser.until(lambda: browser.text("#state-text") == "Live")
            browser.until(lambda: "Target" in browser.texts("#facts dt"))
            if not may:
                assert not browser.seen("#drop")
        browser.until(lambda: browser.seen("#drop"))
        browser.find("#drop").click()
        browser.find("#dialog-yes").click()
        browser.until(lambda: browser.text("#count") == f"1{NBSP}stream")
        left = running.ask("/api/names?p=reading-reading-77")[1]
        assert left["names"] == ["home/b"]
    finally:
        running.process.kill()
        running.process.wait()
