"""The rows of the page's chart: of the reader's zone, in whole steps of the stream, and their shapes."""

from __future__ import annotations

import datetime
import zoneinfo
from collections.abc import Sequence
from decimal import Decimal
from typing import Any

import pytest

pytest.importorskip("aiohttp", reason="the service: python3-aiohttp is missing")

from summarystore.server import page  # noqa: E402

from . import page_browser  # noqa: E402
from .page_browser import PHONE, Browser  # noqa: E402
from .page_stand_in import DAY, StandIn  # noqa: E402

browser, chromium, service = page_browser.browser, page_browser.chromium, page_browser.service
if page.chart_file() is None:
    pytest.skip("the page in a browser: libjs-chart.js is missing", allow_module_level=True)

KITCHEN = "home/kitchen/temperature"
POWER = "home/meter/power"
MODEL = "const { model } = Chart.getChart('canvas'); "


def rows(browser: Browser) -> Sequence[tuple[float, float]]:
    """Where the rows of the chart begin and end."""
    return [(begin, end) for begin, end in browser.run(
        MODEL + "return model.rows.map((row) => [row.time, row.until ?? row.time + model.step])")]


def asked(service: StandIn, name: str = KITCHEN) -> Sequence[dict[str, str]]:
    """The series that the chart asked for, the newest last."""
    return [query for path, query in service.asked
            if path == "/api/series" and query["stream"] == name and query["kind"] == "max"]


def over(service: StandIn, name: str, first: str, last: str, zone: str, more: str = "") -> str:
    """The address of a stream from one day of a zone to another."""
    begin, end = (datetime.datetime.fromisoformat(day).replace(tzinfo=zoneinfo.ZoneInfo(zone)).timestamp()
                  for day in (first, last))
    return f"{service.address}#stream={name}&from={begin}&to={end}{more}"


@pytest.mark.parametrize("zone", ["Europe/Berlin", "Asia/Kathmandu", "Australia/Lord_Howe", "UTC"])
def test_days_of_the_readers_zone(browser: Browser, service: StandIn, zone: str) -> None:
    """Each row goes from midnight to midnight there, also where clocks change."""
    browser.prepare(zone=zone)
    browser.look(over(service, KITCHEN, "2026-01-20", "2026-08-20", zone))
    where = zoneinfo.ZoneInfo(zone)
    assert asked(service)[-1]["step"] == "1d"
    assert asked(service)[-1]["zone"] == zone.replace("Kathmandu", "Katmandu")      # as browsers call it
    found = rows(browser)
    assert len(found) > 200 and all(end == begin for (_, end), (begin, _) in zip(found, found[1:]))
    for begin, end in found:
        shown = [datetime.datetime.fromtimestamp(time, where) for time in (begin, end)]
        assert [f"{each:%H:%M}" for each in shown] == ["00:00"] * 2
        assert shown[1].date() - shown[0].date() == datetime.timedelta(days=1)
    assert browser.text("#caption") == "Mean of each day, °C"


@pytest.mark.parametrize("first, last, step, told", [
    ("2025-12-01", "2026-11-30", "1d", "day"), ("2022-01-01", "2026-01-01", "1w", "week"),
    ("2012-01-01", "2026-01-01", "1mon", "month"), ("1900-01-01", "2026-01-01", "1y", "year")])
def test_longer_rows(browser: Browser, service: StandIn, first: str, last: str, step: str, told: str) -> None:
    service.streams[KITCHEN].days = 130 * 365
    browser.look(over(service, KITCHEN, first, last, "Europe/Berlin"))
    assert asked(service)[-1]["step"] == step
    assert browser.text("#caption") == f"Mean of each {told}, °C"
    berlin = zoneinfo.ZoneInfo("Europe/Berlin")
    starts = [datetime.datetime.fromtimestamp(begin, berlin) for begin, _ in rows(browser)]
    assert all((start.hour, start.minute) == (0, 0) for start in starts if start.year > 1894)


@pytest.mark.parametrize("within, zone, step, apart, of_utc", [
    (3600, "Europe/Berlin", "1d", None, False), (86400, "Europe/Berlin", "86400", DAY, True),
    (86400, "UTC", "1d", None, False), (3600, "Asia/Kathmandu", "86400", DAY, True),
    (900, "Asia/Kathmandu", "1d", None, False), (5400, "Europe/Berlin", "86400", DAY, True)])
def test_rows_are_whole_steps_of_the_stream(browser: Browser, service: StandIn, within: int, zone: str,
                                            step: str, apart: float | None, of_utc: bool) -> None:
    service.streams[KITCHEN].within = within
    browser.prepare(zone=zone)
    browser.look(over(service, KITCHEN, "2026-01-20", "2026-08-20", zone))
    assert asked(service)[-1]["step"] == step
    assert all(begin % within == 0 and end % within == 0 for begin, end in rows(browser))
    if apart is not None:
        assert {end - begin for begin, end in rows(browser)} == {apart}
    assert browser.text("#caption").endswith(" of UTC, °C") is of_utc


def test_short_rows_are_whole_steps_too(browser: Browser, service: StandIn) -> None:
    service.streams[KITCHEN].within = 900
    browser.look(f"{service.address}#stream={KITCHEN}&range=day")
    assert 900 % float(asked(service)[-1]["step"]) == 0
    assert all(begin // 900 == (end - 1) // 900 for begin, end in rows(browser))
    browser.look(f"{service.address}#stream={KITCHEN}&range=week")
    assert all(begin % 900 == 0 and end % 900 == 0 for begin, end in rows(browser))


def test_a_zone_that_the_service_does_not_know(browser: Browser, service: StandIn) -> None:
    """Then rows are 24 hours of the reader's clock."""
    browser.expect("400")
    service.unknown_zone = "Europe/Berlin"
    browser.look(over(service, KITCHEN, "2026-01-20", "2026-08-20", "Europe/Berlin"))
    assert asked(service)[-1]["step"] == "86400" and len(rows(browser)) > 200


def test_the_axis_begins_at_nought(browser: Browser, service: StandIn) -> None:
    """Where nothing is below, for each kind; and the strip lies under it."""
    service.streams["home/cold"] = type(service.streams[KITCHEN])("home/cold", "°C", -8, 3)
    for name, kind, isat in ((KITCHEN, "mean", True), (POWER, "min", True), (POWER, "sum", True),
                             ("home/cold", "mean", False)):
        browser.look(f"{service.address}#stream={name}&kind={kind}&range=week")
        least = browser.run("return Chart.getChart('canvas').scales.y.min")
        assert (least == 0) is isat, (name, kind, least)
    top, bottom = browser.run("""const { chartArea, scales } = Chart.getChart('canvas');
      return [chartArea.bottom, scales.x.bottom]""")
    assert bottom - top > 20
    under, over_it = browser.run("""const chart = Chart.getChart("canvas");
      const { chartArea: area } = chart;
      const ratio = chart.currentDevicePixelRatio; const context = chart.canvas.getContext('2d');
      const x = (at) => (area.left + (area.right - area.left) * (at + 0.5) / 40) * ratio;
      const filled = (y) => [...Array(40).keys()]
        .filter((at) => context.getImageData(x(at), y * ratio, 1, 1).data[3] > 0).length;
      return [filled(area.bottom + 3), filled(area.bottom - 3)]""")
    assert under > 35 and over_it < 8       # the mean of a cold place stands above it


def test_units_stand_on_the_picture(browser: Browser, service: StandIn) -> None:
    browser.look(f"{service.address}#stream={POWER}&with={KITCHEN}&range=day")
    browser.until(lambda: browser.run(MODEL + "return model.otherUnit") == "°C")
    assert browser.run(MODEL + "return model.unit") == "W"
    browser.run("document.getElementById('kind-count').click()")
    browser.quiet()
    assert browser.run(MODEL + "return [model.unit, model.otherUnit]") == ["", ""]


@pytest.mark.parametrize("size", [PHONE, (1280, 900)])
def test_numbers_do_not_break_in_tiles(browser: Browser, service: StandIn, size: tuple[int, int]) -> None:
    browser.prepare(size, touch=size == PHONE)
    service.streams[POWER].base, service.streams[POWER].swing = 4_123_456.5, 1_234_567.5
    browser.look(f"{service.address}#stream={POWER}&range=all")
    found: Any = browser.run("""return [...document.querySelectorAll(".answer")]
      .filter((tile) => tile.checkVisibility()).map((tile) => [
      [...tile.querySelectorAll(".number")].map((part) => part.getClientRects().length),
      tile.scrollWidth <= tile.clientWidth, tile.textContent])""")
    assert len(found) == 5
    for rects, fits, text in found:
        assert rects and set(rects) == {1} and fits, text


def test_facts_show_the_step(browser: Browser, service: StandIn) -> None:
    service.streams[KITCHEN].within = 3600
    browser.look(f"{service.address}#stream={KITCHEN}")
    assert "Within3,600, a whole hour" in browser.text("#facts")
    browser.look(f"{service.address}#stream={POWER}")
    assert "Within" not in browser.text("#facts")


def test_what_a_mapping_shows(browser: Browser, service: StandIn) -> None:
    """It decides the kind that is shown first, and how it is drawn; hands may choose another."""
    door = service.streams["garden/rain"]
    shape = MODEL + "return [model.shape, model.kind]"
    for shows, kind, drawn in (("sum", "sum", "bars"), ("mean", "mean", "bands"),
                               ("state", "mean", "states")):
        door.shows = shows
        browser.look(f"{service.address}#stream=garden/rain&range=week")
        assert browser.run(shape) == [drawn, kind]
    browser.run("document.getElementById('kind-count').click()")
    browser.quiet()
    assert browser.run(shape) == ["bands", "count"]
    browser.look(f"{service.address}#stream=garden/rain&range=week&kind=max")
    assert browser.run(shape) == ["states", "max"]


def test_bars_stand_on_nought(browser: Browser, service: StandIn) -> None:
    """From the ground of the chart up to what is surely there."""
    browser.look(f"{service.address}#stream={POWER}&kind=sum&range=week")
    found = browser.run(MODEL + """const chart = Chart.getChart('canvas');
      const { x, y } = chart.scales;
      const ratio = chart.currentDevicePixelRatio;
      const context = chart.canvas.getContext('2d');
      const row = model.rows.findLast((each) => !each.none && each.time + model.step < model.to);
      const at = x.getPixelForValue(row.time + model.step / 3);
      const alpha = (value) =>
        context.getImageData(at * ratio, y.getPixelForValue(value) * ratio, 1, 1).data[3];
      return [Number(row.lo), alpha(row.lo * 0.1), alpha(row.lo * 0.9), alpha(row.hi * 1.02)]""")
    assert found[0] > 0 and found[1] == found[2] == 255


def test_states_have_their_words(browser: Browser, service: StandIn) -> None:
    door = service.streams["garden/rain"]
    door.shows, door.words, door.base, door.swing = "state", {"0": "shut", "1": "open"}, 0.5, 0.0
    door.added = [(door.last + at, Decimal(at % 2)) for at in range(1, 20)]
    browser.look(f"{service.address}#stream=garden/rain&range=hour")
    labels = browser.run("return Chart.getChart('canvas').scales.y.ticks.map(({ label }) => label)")
    assert {"shut", "open"} <= set(labels)


def test_small_pictures_on_the_phone(browser: Browser, service: StandIn) -> None:
    browser.prepare(PHONE, touch=True)
    browser.open(service.address)
    browser.until(lambda: browser.run("return document.querySelectorAll('.item .spark-line').length") >= 5)
    wide, high = browser.run("""const box = document.querySelector('.item .sparkline');
      return [box.getBoundingClientRect().width, box.getBoundingClientRect().height]""")
    assert wide >= 80 and high >= 25
