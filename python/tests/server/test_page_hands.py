"""The page in Chromium: what the mouse, fingers and keys do with its chart."""

from __future__ import annotations

import pytest

pytest.importorskip("aiohttp", reason="the service: python3-aiohttp is missing")

from summarystore.server import page  # noqa: E402

from . import page_browser  # noqa: E402
from .page_browser import AT_KITCHEN, NBSP, PHONE, Browser  # noqa: E402
from .page_clock import now  # noqa: E402
from .page_stand_in import DAY, StandIn  # noqa: E402

browser, chromium, service = page_browser.browser, page_browser.chromium, page_browser.service
if page.chart_file() is None:
    pytest.skip("the page in a browser: libjs-chart.js is missing", allow_module_level=True)

KITCHEN = "home/kitchen/temperature"
TAB, ENTER, ESCAPE, DOWN, LEFT, RIGHT, HOME, END, PAGE_UP = (
    "\ue004", "\ue007", "\ue00c", "\ue015", "\ue012", "\ue014", "\ue011", "\ue010", "\ue00e")


def lengths(service: StandIn) -> list[float]:
    """The lengths of the rows that the chart asked for, in order."""
    named = {"1d": DAY, "1w": 7 * DAY, "1mon": 30.4375 * DAY, "1y": 365.25 * DAY}
    return [named.get(query["step"]) or float(query["step"]) for path, query in service.asked
            if path == "/api/series" and query["stream"] == KITCHEN and query["kind"] == "max"]


def middle(browser: Browser) -> tuple[float, float]:
    """The middle of the chart, in pixels of the window."""
    x, y, width, height = browser.box()
    return round(x + width / 2), round(y + height / 2)


def seen_span(browser: Browser) -> float:
    """How long the times are that the chart shows."""
    left, right = browser.seen_times()
    return right - left


def test_the_wheel_zooms_and_asks_once_for_finer_rows(browser: Browser, service: StandIn) -> None:
    browser.look(service.address + AT_KITCHEN)
    before = lengths(service)
    x, y = middle(browser)
    browser.mouse("mouseMoved", x, y)
    at = "Chart.getChart('canvas').scales.x.getValueForPixel(400)"
    anchor = browser.run(f"const anchor = {at};" """
      const clientX = document.getElementById("canvas").getBoundingClientRect().x + 400;
      for (let turn = 0; turn < 11; turn += 1) {
        const more = { deltaY: -120, clientX, bubbles: true, cancelable: true };
        document.getElementById("canvas").dispatchEvent(new WheelEvent("wheel", more));
      }
      return anchor;""")
    browser.mouse("mouseWheel", browser.box()[0] + 400, y, deltaX=0, deltaY=-120)
    browser.until(lambda: seen_span(browser) == pytest.approx(DAY * 0.0998, rel=0.1))
    browser.quiet()
    assert browser.run(f"return {at}") == pytest.approx(anchor, abs=60)
    asked = lengths(service)[len(before):]
    assert asked and len(asked) <= 4 and asked[-1] < before[-1]
    browser.until(lambda: "from=" in browser.driver.current_url)
    assert not browser.run("return document.querySelector('[name=range]:checked')")


def test_a_drag_moves_and_sideways_wheels_too(browser: Browser, service: StandIn) -> None:
    browser.look(service.address + AT_KITCHEN)
    left, right = browser.seen_times()
    x, y = middle(browser)
    browser.mouse("mousePressed", x, y, button="left", buttons=1, clickCount=1)
    for by in range(0, 210, 30):
        browser.mouse("mouseMoved", x + by, y, button="left", buttons=1)
    browser.mouse("mouseReleased", x + 180, y, button="left", clickCount=1)
    width = browser.run("const { left, right } = Chart.getChart('canvas').chartArea; return right - left")
    moved = 180 / width * (right - left)
    browser.until(lambda: left - browser.seen_times()[0] == pytest.approx(moved, rel=0.05))
    browser.quiet()
    assert browser.run("return Chart.getChart('canvas').model.rows[0].time") < browser.seen_times()[0]
    browser.mouse("mouseWheel", x, y, deltaX=90, deltaY=0)
    browser.until(lambda: left - browser.seen_times()[0] == pytest.approx(moved / 2, rel=0.1))
    browser.find("#now").click()
    browser.quiet()
    assert browser.seen_times()[1] == pytest.approx(now(), abs=0.01 * DAY)


def test_fingers_pinch_and_move(browser: Browser, service: StandIn) -> None:
    browser.prepare(PHONE, touch=True)
    browser.look(service.address + AT_KITCHEN)
    browser.run("document.getElementById('canvas').scrollIntoView({ block: 'center' })")
    left, right = browser.seen_times()
    x, y = middle(browser)
    browser.touch("touchStart", (x - 40, y), (x + 40, y))
    for by in range(48, 88, 8):
        browser.touch("touchMove", (x - by, y), (x + by, y))
    browser.touch("touchEnd")
    browser.until(lambda: seen_span(browser) == pytest.approx((right - left) / 2, rel=0.1))
    browser.quiet()
    closer = browser.seen_times()
    browser.touch("touchStart", (x, y))
    for by in range(10, 90, 10):
        browser.touch("touchMove", (x + by, y))
    browser.touch("touchEnd")
    browser.until(lambda: browser.seen_times()[0] < closer[0] - 0.1 * (closer[1] - closer[0]))


def test_a_pointer_reads_what_is_below_it(browser: Browser, service: StandIn) -> None:
    browser.look(service.address + AT_KITCHEN)
    x, y, width, height = browser.box()
    browser.mouse("mouseMoved", x + width * 0.3, y + height / 2)
    browser.until(lambda: browser.seen("#tip"))
    words = browser.text("#tip-value")
    assert words.startswith("between ") and words.endswith(f"{NBSP}°C")
    told = words.removeprefix("between ").removesuffix(f"{NBSP}°C").split(" and ")
    low, high = (float(word) for word in told)
    lo, hi = browser.run("const { rows, cursor } = Chart.getChart('canvas').model;"
                         "return [Number(rows[cursor].lo), Number(rows[cursor].hi)]")
    assert low <= lo and hi <= high and high - low < (hi - lo) * 1.5 + 0.01
    assert browser.text("#reading") == f"{words}, {browser.text('#tip-time')}"
    browser.mouse("mouseMoved", x + width * 0.97, y + height / 2)
    browser.until(lambda: browser.text("#tip-value").startswith("exactly "))
    browser.picture("hover")
    browser.mouse("mouseMoved", 5, 5)
    browser.until(lambda: not browser.seen("#tip"))


def test_all_of_it_goes_by_keys(browser: Browser, service: StandIn) -> None:
    browser.look(service.address + AT_KITCHEN)
    browser.press(TAB)
    assert browser.focused() == "skip"
    browser.press(ENTER)
    assert browser.focused() == "canvas"
    browser.press(END)
    browser.until(lambda: browser.text("#reading").startswith("exactly "))
    last = browser.text("#tip-time")
    browser.press(LEFT)
    browser.until(lambda: browser.text("#tip-time") != last)
    browser.press(HOME)
    browser.until(lambda: browser.text("#reading").startswith("between "))
    left, right = browser.seen_times()
    browser.press("+")
    browser.until(lambda: seen_span(browser) == pytest.approx((right - left) * 0.6, rel=0.02))
    browser.quiet()
    assert browser.seen("#tip")                 # what was read still is, in finer rows
    browser.press("-")
    browser.press(PAGE_UP)
    browser.until(lambda: browser.seen_times()[0] == pytest.approx(left - 0.9 * (right - left), abs=300))
    browser.press("0")
    browser.until(lambda: browser.seen_times()[1] == pytest.approx(now(), abs=0.01 * DAY))
    assert seen_span(browser) == pytest.approx(DAY, abs=1)
    browser.press(ESCAPE)
    browser.until(lambda: not browser.seen("#tip"))
    browser.run("document.getElementById('kind-mean').focus()")
    browser.press(RIGHT)
    browser.until(lambda: browser.text("#caption").startswith("Least of each"))
    browser.press("/")
    browser.press("office", DOWN, ENTER)
    browser.until(lambda: browser.text("#name") == "carbon dioxide")


def test_the_order_of_the_focus_is_that_of_the_page(browser: Browser, service: StandIn) -> None:
    browser.look(service.address + AT_KITCHEN)
    order = []
    for _ in range(26):
        browser.press(TAB)
        order.append(browser.focused())
        seen = browser.run("""
          const focused = document.activeElement;
          const shown = focused.matches("input[type=radio]") ? focused.nextElementSibling : focused;
          const { width, height } = shown.getBoundingClientRect();
          const { outlineStyle, outlineWidth } = getComputedStyle(shown);
          return width > 8 && height > 8 && outlineStyle === "solid" && parseFloat(outlineWidth) >= 2;""")
        assert seen, order[-1]
    wanted = ["home", "state", "theme", "search", "kind-mean", "range-day", "earlier", "out", "in", "later",
              "landmark", "canvas"]
    assert [each for each in order if each in wanted] == wanted


def test_the_rows_are_there_as_a_table(browser: Browser, service: StandIn) -> None:
    browser.look(service.address + AT_KITCHEN)
    browser.find("#rows summary").click()
    browser.until(lambda: len(browser.texts("#rows-body tr")) > 100)
    known = browser.texts("#rows-body td:last-child")
    assert known[0] == "exactly" and known[-1] == "within"
