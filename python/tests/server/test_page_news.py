"""The page in Chromium: what comes by itself, landmarks, and where there is nothing to show."""

from __future__ import annotations

from decimal import Decimal

import pytest

pytest.importorskip("aiohttp", reason="the service: python3-aiohttp is missing")

from summarystore.server import page  # noqa: E402

from . import page_browser  # noqa: E402
from .page_browser import AT_KITCHEN, NBSP, Browser  # noqa: E402
from .page_clock import now  # noqa: E402
from .page_stand_in import StandIn, Stream, many, refusal  # noqa: E402

browser, chromium, service = page_browser.browser, page_browser.chromium, page_browser.service
if page.chart_file() is None:
    pytest.skip("the page in a browser: libjs-chart.js is missing", allow_module_level=True)

KITCHEN = "home/kitchen/temperature"
ENTER, ESCAPE = "\ue007", "\ue00c"


def test_readings_come_by_themselves(browser: Browser, service: StandIn) -> None:
    browser.look(service.address + AT_KITCHEN)
    service.append(KITCHEN, "35.7")
    browser.until(lambda: browser.text("#value") == f"35.7{NBSP}°C")
    browser.until(lambda: browser.text("[aria-current] .item-value") == f"35.7{NBSP}°C")
    browser.until(lambda: browser.text("#answer-max") == f"35.7{NBSP}°C")
    browser.until(lambda: browser.run("return Chart.getChart('canvas').scales.y.max >= 35.7"))
    service.append("garden/rain", "7.3")
    browser.until(lambda: f"7.3{NBSP}mm" in browser.texts(".item-value"))


def test_a_stream_that_is_new_appears(browser: Browser, service: StandIn) -> None:
    browser.look(service.address + AT_KITCHEN)
    service.streams["new/one"] = Stream("new/one", "V", 3, 0)
    service.append("new/one", "3.3")
    browser.until(lambda: browser.text("#count") == f"9{NBSP}streams")
    assert browser.text("#name") == "temperature"


def test_it_says_when_it_is_cut_off_and_comes_back(browser: Browser, service: StandIn) -> None:
    browser.look(service.address + AT_KITCHEN)
    browser.run("""
      const place = document.getElementById("state-text");
      window.states = [];
      const watch = new MutationObserver(() => window.states.push(place.textContent));
      watch.observe(place, { childList: true });""")
    service.cut()
    browser.until(lambda: browser.run("return window.states.at(-1)") == "Live")
    assert browser.run("return window.states[0]") == "Offline"
    service.stop_listening()
    browser.until(lambda: "No connection to the service" in browser.text("#banner-text"))
    assert browser.seen("#canvas") and browser.text("#value")
    browser.until(lambda: browser.seen("#banner-act"))
    browser.picture("offline")
    service.streams[KITCHEN].added.append((now(), Decimal("44.4")))
    service.listen_again()
    before, after = browser.run("""
      const state = () => document.getElementById("state").dataset.state;
      const before = state();
      document.getElementById("banner-act").click();
      return [before, state()];""")
    assert before != "offline" or after == "catching up"        # it may have tried by itself before
    browser.until(lambda: browser.text("#state-text") == "Live")
    browser.until(lambda: browser.text("#value") == f"44.4{NBSP}°C")
    assert not browser.seen("#banner")


def test_what_is_wrong_with_the_store_is_said(browser: Browser, service: StandIn) -> None:
    browser.look(service.address + AT_KITCHEN)
    service.emit("health", {"state": "damaged", "reason": "byte 96 of the file is wrong"})
    browser.until(lambda: browser.seen("#banner"))
    assert "The store is refused" in browser.text("#banner-text")
    assert "byte 96" in browser.text("#banner-text")
    service.emit("health", {"state": "open", "reason": ""})
    browser.until(lambda: not browser.seen("#banner"))


def test_a_landmark_is_opened_and_closed_after_asking(browser: Browser, service: StandIn) -> None:
    browser.look(service.address + AT_KITCHEN)
    button = browser.find("#landmark")
    assert button.text == "Mark from now"
    button.click()
    browser.until(lambda: browser.seen("#dialog"))
    assert browser.text("#dialog-title") == "Mark temperature from now?"
    browser.picture("dialog")
    browser.press(ESCAPE)
    browser.until(lambda: not browser.seen("#dialog"))
    assert service.told == []
    button.click()
    browser.find("#dialog-no").click()
    browser.until(lambda: not browser.seen("#dialog"))
    assert service.told == []
    button.click()
    browser.find("#dialog-yes").click()
    browser.until(lambda: button.text == "End the landmark")
    assert service.told == [("landmark", {"stream": KITCHEN, "action": "open"})]
    browser.until(lambda: "landmark" in browser.text("[aria-current] .item-flag"))
    button.click()
    browser.until(lambda: browser.text("#dialog-title") == "End the landmark on temperature?")
    browser.find("#dialog-yes").click()
    browser.until(lambda: button.text == "Mark from now")
    assert service.told[-1] == ("landmark", {"stream": KITCHEN, "action": "close"})


def test_landmarks_are_shaded(browser: Browser, service: StandIn) -> None:
    browser.look(service.address + AT_KITCHEN)
    assert browser.share((0xFD, 0xF2, 0xDB)) > 0.02
    assert browser.seen("#legend-landmark")
    browser.open(service.address + "#stream=garden%2Frain")
    browser.until(browser.answered)
    assert browser.share((0xFD, 0xF2, 0xDB)) == 0
    assert not browser.seen("#legend-landmark")


def test_why_a_landmark_was_refused_is_said_in_the_dialog(browser: Browser, service: StandIn) -> None:
    browser.look(service.address + AT_KITCHEN)
    browser.expect("403")
    service.failing = refusal(403, "forbidden", "the token reads only")
    browser.find("#landmark").click()
    browser.find("#dialog-yes").click()
    browser.until(lambda: browser.seen("#dialog-wrong"))
    assert browser.text("#dialog-wrong")
    assert browser.find("#dialog-yes").is_enabled()
    browser.press(ESCAPE)
    service.failing = None


def test_without_streams_it_shows_how_one_begins(browser: Browser) -> None:
    with StandIn([]) as service:
        browser.open(service.address)
        assert browser.text("#notice-title") == "No streams yet"
        line = browser.texts("#notice code")[0]
        assert line.startswith(f"curl {service.address}api/append ") and "home/living room" in line
        browser.picture("no-streams")
        service.streams[KITCHEN] = Stream(KITCHEN, "°C", 21, 2)
        service.append(KITCHEN, "21.5")
        browser.until(lambda: browser.text("#value") == f"21.5{NBSP}°C")


def test_without_a_mapping_it_shows_one(browser: Browser) -> None:
    with StandIn([]) as service:
        service.health.update(mapping={"entries": 0}, unmatched={"readings": 1234})
        browser.open(service.address)
        mapping, line = browser.texts("#notice code")
        assert mapping.startswith("[[mapping]]\nmatch = ") and line.startswith("curl ")
        assert f"1,234{NBSP}readings came under names" in browser.text("#notice-body")
        browser.picture("no-mapping")


def test_a_token_is_asked_for_and_kept_in_the_tab(browser: Browser) -> None:
    browser.expect("401")
    with StandIn(many(), token="a token of sixteen letters") as service:
        browser.open(service.address, "A token is wanted")
        assert browser.focused() == "token"
        browser.picture("token")
        browser.press("wrong", ENTER)
        browser.until(lambda: "doesn't accept" in browser.text("#token-wrong"))
        browser.press("a token of sixteen letters", ENTER)
        browser.until(lambda: browser.text("#state-text") == "Live")
        browser.driver.refresh()
        browser.until(lambda: browser.text("#state-text") == "Live")
        assert browser.run("return [localStorage.length, document.cookie]") == [0, ""]
        browser.find("#forget").click()
        browser.until(lambda: browser.text("#notice-title") == "A token is wanted")


def test_what_the_service_refuses_is_said_and_can_be_tried_again(browser: Browser, service: StandIn) -> None:
    browser.look(service.address + AT_KITCHEN)
    browser.expect("503")
    service.failing = refusal(503, "busy", "the queue is full")
    browser.find("label[for=kind-max]").click()
    browser.until(lambda: browser.seen("#over"))
    assert "the queue is full" in browser.text("#over-text")
    service.failing = None
    browser.find("#over-act").click()
    browser.until(lambda: not browser.seen("#over"))


def test_times_without_readings_lead_to_the_newest(browser: Browser, service: StandIn) -> None:
    browser.open(f"{service.address}{AT_KITCHEN}&from=1000000&to=2000000")
    browser.until(lambda: browser.seen("#over"))
    assert browser.text("#over-text").startswith("No reading in these times.")
    browser.find("#over-act").click()
    browser.until(lambda: not browser.seen("#over"))
    assert browser.seen_times()[1] == pytest.approx(now(), abs=2000)       # two pixels


def test_an_unknown_stream_is_said(browser: Browser, service: StandIn) -> None:
    browser.open(service.address + "#stream=nowhere")
    browser.until(lambda: "There is no stream “nowhere”." in browser.text("#notice-body"))
    browser.find("#notice button").click()
    browser.until(lambda: browser.seen("#canvas"))


def test_without_chart_js_there_are_tables(browser: Browser) -> None:
    browser.expect("chart.min.js")
    with StandIn(many(), has_chart=False) as service:
        browser.open(service.address + AT_KITCHEN)
        browser.until(lambda: len(browser.texts("#rows-body tr")) > 50)
        assert "apt install libjs-chart.js" in browser.text("#over-text")
