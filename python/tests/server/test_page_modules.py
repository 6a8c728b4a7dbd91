"""The modules of the page in Chromium: numbers, words, events and the marks of times."""

from __future__ import annotations

from typing import Any

import pytest

pytest.importorskip("aiohttp", reason="the service: python3-aiohttp is missing")

from summarystore.server import page  # noqa: E402

from . import page_browser  # noqa: E402
from .page_browser import NBSP, Browser  # noqa: E402
from .page_stand_in import DAY, StandIn  # noqa: E402

browser, chromium, service = page_browser.browser, page_browser.chromium, page_browser.service
if page.chart_file() is None:
    pytest.skip("the page in a browser: libjs-chart.js is missing", allow_module_level=True)


def module(browser: Browser, service: StandIn, script: str, *given: object) -> Any:
    if not browser.driver.current_url.startswith(service.address):
        browser.open(service.address)
    return browser.load(script, *given)


def test_decimal_text_is_rounded_outwards(browser: Browser, service: StandIn) -> None:
    cases: list[tuple[str, int, bool, str]] = [
        ("21.46", 1, False, "21.4"), ("21.46", 1, True, "21.5"), ("21.4", 1, True, "21.4"),
        ("-0.05", 1, False, "-0.1"), ("-0.05", 1, True, "0.0"), ("9.99", 1, True, "10.0"),
        ("9007199254740993", 0, True, "9007199254740993"), ("-7.5", 0, False, "-8"), ("-7.5", 0, True, "-7"),
        ("0.001", 2, True, "0.01"), ("0.000", 2, True, "0.00")]
    script = """const { rounded } = await import(new URL("static/numbers.js", location));
      return given[0].map(([text, digits, upwards]) => rounded(text, digits, upwards));"""
    assert module(browser, service, script, [case[:3] for case in cases]) == [case[3] for case in cases]


def test_intervals_are_told_in_words(browser: Browser, service: StandIn) -> None:
    cases = [
        ('"lo":21.4,"hi":21.7,"exact":false', "between 21.4 and 21.7"),
        ('"lo":21.5,"hi":21.5,"exact":true', "exactly 21.5"),
        ('"lo":null,"hi":null,"none":true,"exact":false', "no reading"),
        ('"lo":20.0,"hi":21,"exact":false,"maybe_none":true', "between 20 and 21, or no reading at all"),
        ('"lo":21.46666666666666666666,"hi":21.46666666666666666667,"exact":false',
         "between 21.466 and 21.467"),
        ('"lo":1796000000000.5,"hi":1796000000001.5,"exact":false',
         "between 1,796,000,000,000.5 and 1,796,000,000,001.5"),
        ('"lo":123456789012345678.9,"hi":123456789012345678.9,"exact":true',
         "exactly 123,456,789,012,345,678.9"),
        ('"lo":-3,"hi":25,"exact":false', "between -3 and 25"),
        ('"lo":1.23456,"hi":3.98765,"exact":false', "between 1.2 and 4.0"),
        ('"lo":1e21,"hi":1e21,"exact":true', "exactly 1,000,000,000,000,000,000,000")]
    script = """const { parseExactly, words } = await import(new URL("static/numbers.js", location));
      return given[0].map((text) => words(parseExactly(`{${text}}`)));"""
    assert module(browser, service, script, [text for text, _ in cases]) == [words for _, words in cases]


def test_intervals_are_told_as_short_as_they_can_be(browser: Browser, service: StandIn) -> None:
    cases = [
        ('"lo":21.4,"hi":21.7,"exact":false', f"21.4 – 21.7{NBSP}°C"),
        ('"lo":21.5,"hi":21.5,"exact":true', f"21.50{NBSP}°C"),
        ('"lo":21.46666666666666666666,"hi":21.46666666666666666667,"exact":false',
         f"≈{NBSP}21.467{NBSP}°C"),
        ('"lo":null,"hi":null,"none":true,"exact":false', "–")]
    script = """const { parseExactly, brief } = await import(new URL("static/numbers.js", location));
      return given[0].map((text) => brief(parseExactly(`{${text}}`), "°C", 2));"""
    assert module(browser, service, script, [text for text, _ in cases]) == [told for _, told in cases]


def test_events_are_read_however_they_are_cut(browser: Browser, service: StandIn) -> None:
    text = (': warm\n\nevent: reading\ndata: {"value":\ndata: 1}\n\ndata: plain\r\n\r\n'
            'event: lost\n\nid: 7\ndata:x\n\n')
    script = """const { EventReader } = await import(new URL("static/live.js", location));
      return given[1].map((size) => {
        const reader = new EventReader();
        const found = [];
        for (let at = 0; at < given[0].length; at += size) {
          found.push(...reader.read(given[0].slice(at, at + size)));
        }
        return found.map(({ event, data }) => [event, data]);
      });"""
    wanted = [["reading", '{"value":\n1}'], ["message", "plain"], ["message", "x"]]
    assert module(browser, service, script, text, [1, 2, 3, 7, 1000]) == [wanted] * 5


@pytest.mark.parametrize("zone,start,span,most,labels", [
    ("Europe/Berlin", "2026-03-29T00:00+01:00", DAY / 4, 6,
     "00:00 Sun 29 Mar|01:00|03:00|04:00|05:00|06:00|07:00"),
    ("Europe/Berlin", "2026-03-28T20:00+01:00", DAY, 8,
     "21:00 Sat 28 Mar|00:00 Sun 29 Mar|03:00|06:00|09:00|12:00|15:00|18:00|21:00"),
    ("America/New_York", "2026-10-31T12:00-04:00", 2 * DAY, 8,
     "12:00 Sat 31 Oct|18:00|00:00 Sun 1 Nov|06:00|12:00|18:00|00:00 Mon 2 Nov|06:00"),
    ("Asia/Kolkata", "2026-02-24T00:00+05:30", 12 * DAY, 6,
     "25 Feb 2026|27 Feb|1 Mar|3 Mar|5 Mar|7 Mar"),
    ("UTC", "2025-11-15T00:00+00:00", 150 * DAY, 6, "Dec 2025|Jan 2026|Feb|Mar|Apr"),
    ("UTC", "1958-03-29T00:00+00:00", 44 * 365.25 * DAY, 5, "1960|1970|1980|1990|2000"),
    ("UTC", "2026-01-01T10:00:00+00:00", 20, 5,
     "10:00:00 Thu 1 Jan|10:00:05|10:00:10|10:00:15|10:00:20"),
])
def test_marks_stand_on_the_readers_clock(browser: Browser, service: StandIn, zone: str, start: str,
                                          span: float, most: int, labels: str) -> None:
    browser.prepare(zone=zone)
    script = """const { marks } = await import(new URL("static/times.js", location));
      const from = Date.parse(given[0]) / 1000;
      return marks(from, from + given[1], given[2]).map(({ label }) => label.join(" "));"""
    found = module(browser, service, script, start, span, most)
    assert "|".join(found) == labels
