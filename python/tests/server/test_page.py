"""The page in Chromium over made-up streams: what is drawn, listed and told, and for whom."""

from __future__ import annotations

from datetime import datetime
from decimal import Decimal
from typing import Any
from zoneinfo import ZoneInfo

import pytest

pytest.importorskip("aiohttp", reason="the service: python3-aiohttp is missing")

from summarystore.server import page  # noqa: E402

from . import page_browser  # noqa: E402
from .page_browser import AT_KITCHEN, NBSP, PHONE, WIDE, Browser  # noqa: E402
from .page_clock import now  # noqa: E402
from .page_stand_in import DAY, StandIn, Stream  # noqa: E402

browser, chromium, service = page_browser.browser, page_browser.chromium, page_browser.service
if page.chart_file() is None:
    pytest.skip("the page in a browser: libjs-chart.js is missing", allow_module_level=True)

LIGHT_BAND, LIGHT_EXACT = (0xB3, 0xD5, 0xE7), (0x08, 0x51, 0x9C)
ENTER, ESCAPE = "\ue007", "\ue00c"


@pytest.mark.parametrize("size,dark", [(WIDE, False), (WIDE, True), (PHONE, False), (PHONE, True)])
def test_it_draws_the_band_and_what_is_exact(browser: Browser, service: StandIn, size: tuple[int, int],
                                             dark: bool) -> None:
    browser.prepare(size, dark=dark, touch=size == PHONE)
    browser.look(service.address + AT_KITCHEN)
    band, exact = ((0x26, 0x55, 0x79), (0xA8, 0xD8, 0xFF)) if dark else (LIGHT_BAND, LIGHT_EXACT)
    assert browser.share(band) > 0.005
    assert browser.share(exact) > 0.002
    assert browser.share((0xFF, 0x00, 0xFF)) == 0
    picture = browser.picture(f"chart-{size[0]}-{'dark' if dark else 'light'}")
    assert picture.shape[1] == size[0] * (2 if size == PHONE else 1)
    ground = picture[2, picture.shape[1] // 2]
    assert (ground.max() < 0.25) if dark else (ground.min() > 0.9)


def test_the_band_is_where_the_answers_say(browser: Browser, service: StandIn) -> None:
    """The colour of each row, looked at in the canvas: the band from lo to hi, and none of it outside."""
    browser.look(f"{service.address}{AT_KITCHEN}&kind=max&range=year")
    found: dict[str, int] = browser.run("""
      const chart = Chart.getChart("canvas");
      const { x, y } = chart.scales;
      const ratio = chart.currentDevicePixelRatio;
      const shown = (px, py) => [...chart.ctx.getImageData(px * ratio, py * ratio, 1, 1).data];
      const counts = { within: 0, above: 0, rows: 0 };
      for (const row of chart.model.rows) {
        const place = x.getPixelForValue(row.time + chart.model.step / 2);
        const [top, bottom] = [y.getPixelForValue(row.hi), y.getPixelForValue(row.lo)];
        const isSeen = place > chart.chartArea.left && place < chart.chartArea.right;
        if (row.none || bottom - top < 8 || !isSeen) continue;
        counts.rows += 1;
        if (shown(place, (3 * top + bottom) / 4)[3] > 150) counts.within += 1;
        if (shown(place, top - 4)[3] > 150) counts.above += 1;
      }
      return counts;""")
    assert found["rows"] > 30
    assert found["within"] == found["rows"]
    assert found["above"] < found["rows"] / 4      # a line of the grid, or the next row's band


def test_it_lists_the_streams_with_their_newest_values(browser: Browser, service: StandIn) -> None:
    browser.look(service.address + AT_KITCHEN)
    assert browser.texts(".item-last")[:3] == ["humidity", "rain", "moisture"]
    assert browser.text("#count") == f"8{NBSP}streams"
    values = browser.texts(".item-value")
    assert values[1].endswith("mm") and values[3].endswith("°C")
    assert browser.text("[aria-current] .item-last") == "temperature"
    browser.until(lambda: len(browser.driver.find_elements("css selector", ".spark-line")) >= 7)
    assert browser.text("#path") == "home / kitchen" and browser.text("#name") == "temperature"
    assert browser.texts("#labels span") == ["floor: 0", "sensor: SHT31"]
    assert browser.driver.title == "temperature · SummaryStore"
    browser.until(lambda: "First" in browser.texts("#facts dt"))
    facts = dict(zip(browser.texts("#facts dt"), browser.texts("#facts dd")))
    assert facts["Readings"] == "3,456,000" and facts["Kept in"] == f"1,207{NBSP}windows"


def test_a_search_finds_by_all_of_its_words(browser: Browser, service: StandIn) -> None:
    browser.look(service.address + AT_KITCHEN)
    browser.press("/")
    assert browser.focused() == "search"
    browser.press("temperature attic")
    assert browser.texts(".item-path") == ["home / attic"]
    assert browser.text("#count") == f"1 of 8{NBSP}streams"
    browser.press(ESCAPE)
    browser.until(lambda: len(browser.texts(".item-path")) == 8)
    browser.press("sht31")
    assert browser.texts(".item-path") == ["home / kitchen"]
    browser.press("x")
    assert browser.text("#count") == f"None of 8{NBSP}streams has these words"


def test_the_kind_can_be_chosen(browser: Browser, service: StandIn) -> None:
    browser.look(service.address + AT_KITCHEN)
    for kind, caption in [("min", "Least of each 5 minutes, °C"), ("max", "Greatest of each 5 minutes, °C"),
                          ("sum", "Sum of each 5 minutes, °C"), ("count", "Readings in each 5 minutes"),
                          ("mean", "Mean of each 5 minutes, °C")]:
        browser.find(f"label[for=kind-{kind}]").click()
        browser.until(lambda: browser.text("#caption") == caption)
        browser.quiet()
        assert f"kind={kind}" in browser.driver.current_url
        assert browser.run("return Chart.getChart('canvas').model.rows.length") > 100


@pytest.mark.parametrize("name,span,caption", [
    ("hour", 3600, "15 seconds"), ("day", DAY, "5 minutes"), ("week", 7 * DAY, "hour"),
    ("month", 30 * DAY, "3 hours"), ("year", 365 * DAY, "day"), ("all", 400 * DAY * 1.02, "week")])
def test_ranges_end_at_the_newest(browser: Browser, service: StandIn, name: str, span: float,
                                  caption: str) -> None:
    browser.look(service.address + AT_KITCHEN)
    browser.until(lambda: "First" in browser.texts("#facts dt"))
    browser.find(f"label[for=range-{name}]").click()
    browser.quiet()
    left, right = browser.seen_times()
    assert right - left == pytest.approx(span, rel=0.01)
    assert abs(right - now()) < span * 0.02 + 15
    assert browser.text("#caption") == f"Mean of each {caption}, °C"
    assert name == "day" or f"range={name}" in browser.driver.current_url      # a day is shown at first


def test_of_many_streams_only_those_in_sight_are_asked_for(browser: Browser) -> None:
    names = [f"hall {at // 50}/sensor {at}/temperature" for at in range(1000)]
    with StandIn([Stream(name, "°C", 20, 2) for name in names]) as service:
        browser.look(service.address)
        assert browser.text("#count") == f"1,000{NBSP}streams"
        browser.until(lambda: len(browser.driver.find_elements("css selector", ".spark-line")) >= 7)
        pictures = {query["stream"] for path, query in service.asked if path == "/api/series"}
        assert len(pictures) < 40
        browser.press("/", "hall 7 sensor 399", ENTER)
        browser.until(lambda: browser.text("#path") == "hall 7 / sensor 399")


def test_a_stream_that_is_silent_shows_its_last_day(browser: Browser, service: StandIn) -> None:
    browser.open(service.address + "#stream=garden%2Fsoil%2Fmoisture")
    browser.until(lambda: browser.text("#answer-count") not in ("", "…", "0"))
    _, right = browser.seen_times()
    assert right == pytest.approx(now() - 3 * DAY, abs=DAY * 0.02)
    assert "3 days ago" in browser.text("#when")


def test_numbers_keep_all_digits(browser: Browser) -> None:
    stream = Stream("big", "Wh", 9007199254740993.0, 0)
    stream.added.append((now(), Decimal("9007199254740993.1")))
    with StandIn([stream]) as service:
        browser.open(service.address)
        browser.until(lambda: browser.text("#value") == f"9,007,199,254,740,993.1{NBSP}Wh")
        assert browser.text("#when").startswith("exactly")


def test_a_narrow_telephone_has_all_of_it(browser: Browser, service: StandIn) -> None:
    browser.prepare((360, 740), touch=True)
    browser.open(service.address)
    browser.until(lambda: len(browser.texts(".item-last")) == 8)
    assert not browser.seen("#canvas")
    browser.until(lambda: len(browser.driver.find_elements("css selector", ".spark-line")) >= 7)
    browser.picture("list-360")
    wide = "return document.documentElement.scrollWidth <= innerWidth"
    assert browser.run(wide)
    browser.find(".streams li:nth-child(6) a").click()
    browser.until(lambda: browser.seen("#canvas"))
    browser.until(browser.answered)
    browser.picture("chart-360")
    assert browser.run(wide)
    small = browser.run("""
      return [...document.querySelectorAll("button, .ranges label, .kinds label, .item")]
        .map((each) => [each.id || each.textContent, each.getBoundingClientRect()])
        .filter(([, { width, height }]) => width && (width < 24 || height < 32)).map(([name]) => name)""")
    assert small == []
    browser.find("#back").click()
    browser.until(lambda: browser.seen(".item-last") and not browser.seen("#canvas"))


def offset_of(zone: str) -> str:
    """How far the clock of a zone is from UTC at present, as the page says it."""
    ahead = datetime.fromtimestamp(now(), ZoneInfo(zone)).utcoffset()
    assert ahead is not None
    minutes = round(ahead.total_seconds() / 60)
    hours, rest = divmod(abs(minutes), 60)
    return f"GMT{'-' if minutes < 0 else '+'}{hours}" + (f":{rest:02}" if rest else "")


@pytest.mark.parametrize("locale,zone,name,value", [
    ("de-DE", "Europe/Berlin", "Europe/Berlin", f"1.234.567,8{NBSP}W"),
    ("en-US", "America/New_York", "America/New_York", f"1,234,567.8{NBSP}W"),
    ("en-IN", "Asia/Kolkata", "Asia/Calcutta", f"12,34,567.8{NBSP}W")])
def test_numbers_and_times_are_the_readers_own(browser: Browser, locale: str, zone: str, name: str,
                                               value: str) -> None:
    browser.prepare(zone=zone, locale=locale)
    stream = Stream("power", "W", 1234567.8, 0)
    stream.added.append((now(), Decimal("1234567.8")))
    with StandIn([stream]) as service:
        browser.open(service.address)
        browser.until(lambda: browser.text("#value") == value)
        browser.until(lambda: browser.text("#zone") == f"{name}, {offset_of(zone)}")


def test_light_and_dark_can_be_chosen(browser: Browser, service: StandIn) -> None:
    browser.look(service.address + AT_KITCHEN)
    shown = "return document.documentElement.dataset.theme"
    assert browser.run(shown) == "light"
    button = browser.find("#theme")
    for label, theme in [("Colours: light", "light"), ("Colours: dark", "dark")]:
        button.click()
        assert button.get_attribute("aria-label") == label and browser.run(shown) == theme
    assert browser.share((0xA8, 0xD8, 0xFF)) > 0.002
    browser.driver.refresh()
    browser.until(lambda: browser.run(shown) == "dark")
    browser.until(lambda: browser.text("#state-text") == "Live")       # from then on the button is heard
    browser.find("#theme").click()
    assert browser.run(shown) == "light"


def test_everything_that_can_be_used_has_a_name(browser: Browser, service: StandIn) -> None:
    """The browser's own tree of what assistive programs are told."""
    browser.look(service.address + AT_KITCHEN)
    tree: list[dict[str, Any]] = browser.devtools("Accessibility.getFullAXTree")["nodes"]
    roles = {"application", "button", "link", "navigation", "radio", "radiogroup", "region", "searchbox",
             "textbox"}
    nameless = [node for node in tree if not node.get("ignored") and node["role"]["value"] in roles
                and not node.get("name", {}).get("value")]
    assert nameless == []
    assert {"banner", "navigation", "main", "contentinfo"} <= {node["role"]["value"] for node in tree}
    heads = browser.run("return [...document.querySelectorAll('h1, h2')].filter((e) => e.offsetParent)"
                        ".map((e) => e.tagName)")
    assert heads == ["H1", "H2"]


def test_the_address_holds_what_is_seen(browser: Browser, service: StandIn) -> None:
    browser.look(f"{service.address}{AT_KITCHEN}&kind=max&range=week")
    assert browser.text("#caption").startswith("Greatest of each hour")
    browser.find("#in").click()
    browser.quiet()
    browser.until(lambda: "from=" in browser.driver.current_url)
    address, times = browser.driver.current_url, browser.seen_times()
    browser.open(address)
    browser.until(browser.answered)
    assert browser.seen_times() == pytest.approx(times, abs=0.01)


def test_a_second_question_cancels_the_first(browser: Browser, service: StandIn) -> None:
    browser.look(service.address + AT_KITCHEN)
    service.slow = 0.4
    before = len(service.asked)
    browser.find("label[for=range-week]").click()
    browser.until(lambda: len(service.asked) > before)
    browser.find("label[for=range-hour]").click()
    browser.quiet()
    service.slow = 0
    rows = browser.run("const { rows, step } = Chart.getChart('canvas').model; return [rows.length, step]")
    assert rows[0] > 30 and rows[1] <= 60
