"""The page with several streams in one chart: by their units, in the address, and as a file."""

from __future__ import annotations

import csv
import io
import os
from decimal import Decimal
from pathlib import Path

import pytest

pytest.importorskip("aiohttp", reason="the service: python3-aiohttp is missing")

from summarystore.server import page  # noqa: E402

from . import page_browser  # noqa: E402
from .page_browser import AT_KITCHEN, PHONE, Browser  # noqa: E402
from .page_stand_in import StandIn, Stream  # noqa: E402

browser, chromium, service = page_browser.browser, page_browser.chromium, page_browser.service
if page.chart_file() is None:
    pytest.skip("the page in a browser: libjs-chart.js is missing", allow_module_level=True)

ATTIC, HUMIDITY = "home/attic/temperature", "garden/greenhouse/humidity"
ENTER = "\ue007"
LIGHT_A = (0xB1, 0x4A, 0x06)


def add(browser: Browser, name: str) -> None:
    """Adds a stream as a reader does, and waits for its answer."""
    browser.find("#other").click()
    browser.press(name, ENTER)
    browser.until(lambda: any(name.replace("/", " / ") in text and "…" not in text
                              for text in browser.texts("#others li")))


def model(browser: Browser, expression: str) -> object:
    return browser.run(f"const {{ model, scales }} = Chart.getChart('canvas'); return {expression}")


def test_a_second_stream_is_drawn(browser: Browser, service: StandIn) -> None:
    browser.look(service.address + AT_KITCHEN)
    before = browser.share(LIGHT_A)
    add(browser, ATTIC)
    assert browser.share(LIGHT_A) > before + 0.001
    assert model(browser, "model.others.map(({ name, scale }) => [name, scale])") == [[ATTIC, "y"]]
    assert not model(browser, "scales.y2.options.display")
    top = model(browser, "Math.max(...model.others[0].rows.filter((row) => row.time >= model.from && "
                         "row.time < model.to).map((row) => Number(row.hi)))")
    assert isinstance(top, (int, float)) and float(str(model(browser, "scales.y.max"))) >= top
    assert model(browser, "model.others[0].step === model.step")
    browser.find("#canvas").click()
    browser.press("\ue010")     # the last row
    browser.until(lambda: browser.text("#tip-others").startswith("temperature: "))
    assert "temperature: " in browser.text("#reading")


def test_another_unit_has_a_scale_on_the_right(browser: Browser, service: StandIn) -> None:
    browser.look(service.address + AT_KITCHEN)
    add(browser, HUMIDITY)
    assert model(browser, "model.others.map(({ scale }) => scale)") == ["y2"]
    assert model(browser, "scales.y2.options.display")
    assert browser.texts(".other-answer")[0].endswith(", on the right")
    add(browser, "home/meter/power")
    assert browser.texts(".other-answer")[1] == "not drawn: W would be a third scale"
    assert model(browser, "model.others.length") == 1
    browser.find("label[for=kind-count]").click()       # readings have no unit
    browser.until(lambda: model(browser, "model.others.map(({ scale }) => scale)") == ["y", "y"])


def test_the_address_keeps_what_is_seen(browser: Browser, service: StandIn) -> None:
    browser.look(service.address + AT_KITCHEN)
    add(browser, HUMIDITY)
    add(browser, ATTIC)
    browser.find("label[for=range-week]").click()
    browser.find("label[for=kind-max]").click()
    browser.until(lambda: all(word in browser.driver.current_url for word in ("range=week", "kind=max")))
    kept = browser.driver.current_url
    browser.open(service.address)
    browser.open(kept)
    browser.until(lambda: len(browser.texts("#others li")) == 2)
    browser.until(lambda: model(browser, "model.others.every(({ rows }) => rows.length > 10)"))
    assert model(browser, "model.others.map(({ name }) => name)") == [HUMIDITY, ATTIC]
    assert browser.run("return document.getElementById('range-week').checked")
    assert browser.run("return document.getElementById('kind-max').checked")
    browser.find(".leave").click()
    browser.until(lambda: len(browser.texts("#others li")) == 1)
    assert "humidity" not in browser.driver.current_url and "attic" in browser.driver.current_url
    assert browser.focused() == "other"
    more = f"&with=no/such&with={ATTIC}&with={ATTIC}&with=home/kitchen/temperature"
    browser.open(f"{service.address}{AT_KITCHEN}{more}")
    browser.until(lambda: len(browser.texts("#others li")) == 1)


def test_news_of_another_stream_are_drawn(browser: Browser, service: StandIn) -> None:
    browser.look(service.address + AT_KITCHEN + "&range=hour&kind=max")
    add(browser, ATTIC)
    service.append(ATTIC, "99.5")
    greatest = "Math.max(...model.others[0].rows.map((row) => Number(row.hi)))"
    browser.until(lambda: model(browser, greatest) == 99.5)


def test_what_is_seen_is_saved(browser: Browser, service: StandIn, folder: Path) -> None:
    """Each row of both streams, with all of its digits, as the service gave it."""
    browser.devtools("Page.setDownloadBehavior", behavior="allow", downloadPath=str(folder))
    browser.look(service.address + AT_KITCHEN + "&range=week")
    add(browser, HUMIDITY)
    browser.find("#csv").click()
    browser.until(lambda: [name for name in os.listdir(folder) if name.endswith(".csv")])
    (name,) = os.listdir(folder)
    assert name.startswith("temperature mean ")
    rows = list(csv.DictReader(io.StringIO((folder / name).read_text("utf-8"))))
    for stream, unit in (("home/kitchen/temperature", "°C"), (HUMIDITY, "%")):
        own = [row for row in rows if row["stream"] == stream]
        assert len(own) > 50 and {(row["kind"], row["unit"]) for row in own} == {("mean", unit)}
        assert all(Decimal(row["lo"]) <= Decimal(row["hi"]) for row in own)
        assert any(row["lo"] != row["hi"] for row in own)
        assert own == sorted(own, key=lambda row: row["from"]) and own[0]["from"].endswith("Z")


def test_names_in_the_file_are_no_formulas(browser: Browser) -> None:
    name = '=1+1,"x"'
    with StandIn([Stream(name, "@", 20, 2)]) as service:
        browser.look(service.address)
        text = browser.load("""
          const { csvOf } = await import("./static/csv.js");
          const row = { time: 0, lo: "1.50", hi: "-2", none: false, maybe_none: true };
          const rows = [row, { ...row, none: true }];
          return csvOf([{ name: given[0], kind: "mean", unit: "@", rows, step: 60 }], 0, 60)""", name)
        lines = list(csv.reader(io.StringIO(str(text))))
        moments = ["1970-01-01T00:00:00.000Z", "1970-01-01T00:01:00.000Z"]
        assert lines[1:] == [[f"'{name}", "mean", "'@", *moments, "1.50", "-2", "true"]]


def test_on_a_phone_nothing_is_cut_off(browser: Browser, service: StandIn) -> None:
    browser.prepare(PHONE, touch=True)
    browser.look(f"{service.address}{AT_KITCHEN}&with={HUMIDITY}&with={ATTIC}")
    browser.until(lambda: len(browser.texts("#others li")) == 2)
    assert browser.run("return document.documentElement.scrollWidth <= innerWidth")
