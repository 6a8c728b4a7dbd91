"""Chromium without a window, for the tests of the page."""

from __future__ import annotations

import io
import os
import shutil
from collections.abc import Callable, Iterator
from importlib import import_module
from pathlib import Path
from typing import Any

import pytest

from ..waiting import SECONDS, until
from .page_clock import AT, CLOCK
from .page_stand_in import StandIn, many

WIDE, PHONE = (1280, 860), (390, 844)
CHROMIUM, DRIVER = shutil.which("chromium"), shutil.which("chromedriver")
PICTURES = os.environ.get("SUMMARYSTORE_PICTURES")
"""A folder for pictures of the page, where somebody wants to look at them."""
SLOW = float(os.environ.get("SUMMARYSTORE_TEST_SLOW", "1"))
"""How many times slower than it is the processor seems to the page, to find what a busy machine would."""
AT_KITCHEN = "#stream=home%2Fkitchen%2Ftemperature"
NBSP = "\u00a0"


def started(start: Callable[[], Any]) -> Any:
    """A browser. Its driver gives it a minute to come up, which on a busy machine is too short."""
    refused: Any = import_module("selenium.common.exceptions").SessionNotCreatedException
    for _ in range(4):
        try:
            return start()
        except refused:
            continue
    return start()


class Browser:
    """One Chromium. What a test does with it is undone before the next test."""

    def __init__(self) -> None:
        webdriver: Any = import_module("selenium.webdriver")
        service: Any = import_module("selenium.webdriver.chrome.service")
        options = webdriver.ChromeOptions()
        options.binary_location = str(CHROMIUM)
        for word in ("--headless=new", "--no-sandbox", "--disable-gpu", "--disable-dev-shm-usage",
                     "--hide-scrollbars", "--force-color-profile=srgb", "--window-size=1280,860",
                     "--accept-lang=en-GB", "--disable-background-networking"):
            options.add_argument(word)
        options.set_capability("goog:loggingPrefs", {"browser": "ALL"})
        self.driver: Any = started(
            lambda: webdriver.Chrome(service=service.Service(str(DRIVER)), options=options))
        self.driver.set_script_timeout(SECONDS)
        self.driver.set_page_load_timeout(SECONDS)
        self._clock = ""
        self._expected: tuple[str, ...] = ()

    def close(self) -> None:
        """Ends it."""
        self.driver.quit()

    def devtools(self, command: str, **parameters: object) -> Any:
        """A command of the browser's own protocol."""
        return self.driver.execute_cdp_cmd(command, parameters)

    def prepare(self, size: tuple[int, int] = WIDE, *, dark: bool = False, zone: str = "Europe/Berlin",
                locale: str = "en-GB", touch: bool = False) -> None:
        """Another reader: the size of the window, the colours, the zone and the locale."""
        width, height = size
        self.driver.get("about:blank")
        self.driver.get_log("browser")
        self._put_clock()
        self.devtools("Emulation.setCPUThrottlingRate", rate=SLOW)
        self.devtools("Emulation.setTimezoneOverride", timezoneId=zone)
        self.devtools("Emulation.setDeviceMetricsOverride", width=width, height=height, mobile=touch,
                      deviceScaleFactor=2 if touch else 1)
        self.devtools("Emulation.setTouchEmulationEnabled", enabled=touch)
        scheme = {"name": "prefers-color-scheme", "value": "dark" if dark else "light"}
        self.devtools("Emulation.setEmulatedMedia", features=[scheme])
        agent = self.driver.execute_script("return navigator.userAgent")
        self.devtools("Emulation.setUserAgentOverride", userAgent=agent, acceptLanguage=locale)
        self.devtools("Emulation.setLocaleOverride", locale=locale)

    def _put_clock(self) -> None:
        """Each page that is opened from now on has the clock of the test."""
        if self._clock:
            self.devtools("Page.removeScriptToEvaluateOnNewDocument", identifier=self._clock)
        made = self.devtools("Page.addScriptToEvaluateOnNewDocument", source=CLOCK.script)
        self._clock = made["identifier"]

    def open(self, address: str, text: str = "Live") -> None:
        """Opens the page anew, and waits until its state is as named."""
        origin = address.split("#")[0]
        self.devtools("Storage.clearDataForOrigin", origin=origin, storageTypes="all")
        self.driver.get("about:blank")
        self.driver.get(address)
        self.until(lambda: self.text("#state-text") == text)

    def run(self, script: str, *given: object) -> Any:
        """Runs a script in the page."""
        return self.driver.execute_script(script, *given)

    def load(self, script: str, *given: object) -> Any:
        """Runs the body of an asynchronous function in the page: it may import modules."""
        body = ("const done = arguments[arguments.length - 1]; const given = [...arguments].slice(0, -1);"
                f"(async () => {{ {script} }})().then((found) => done({{ found }}),"
                " (error) => done({ error: String(error) }))")
        answer = self.driver.execute_async_script(body, *given)
        assert "error" not in answer, answer["error"]
        found: Any = answer.get("found")
        return found

    def find(self, selector: str) -> Any:
        """The first element of a selector."""
        return self.driver.find_element("css selector", selector)

    def text(self, selector: str) -> str:
        """The text of the first element, also of one that isn't seen."""
        found = self.run("return document.querySelector(arguments[0])?.textContent ?? ''", selector)
        return str(found).strip()

    def texts(self, selector: str) -> list[str]:
        """The texts of all elements that are seen."""
        script = """return [...document.querySelectorAll(arguments[0])]
          .filter((each) => each.checkVisibility()).map((each) => each.textContent.trim())"""
        return [str(text) for text in self.run(script, selector)]

    def seen(self, selector: str) -> bool:
        """Whether an element is there and is seen."""
        found = self.driver.find_elements("css selector", selector)
        return bool(found) and found[0].is_displayed()

    def until(self, call: Callable[[], Any], seconds: float = SECONDS) -> None:
        """Waits until something is so."""
        until(call, seconds, self.state)

    def state(self) -> str:
        """What the page shows, for a test that fails."""
        return str(self.run("return document.body.innerText"))[:1500]

    def look(self, address: str) -> None:
        """Opens the page at a stream, and waits for its rows and answers."""
        self.open(address)
        self.until(self.answered)
        self.quiet()

    def answered(self) -> bool:
        """Whether the answers over what is seen are there."""
        return self.text("#answer-count") not in ("", "…")

    def seen_times(self) -> tuple[float, float]:
        """The times that the chart shows."""
        left, right = self.run("const { min, max } = Chart.getChart('canvas').scales.x; return [min, max]")
        return left, right

    def box(self) -> tuple[float, float, float, float]:
        """Where the chart is in the window: left, top, width and height."""
        script = "const box = document.getElementById('canvas').getBoundingClientRect();"
        x, y, width, height = self.run(f"{script} return [box.x, box.y, box.width, box.height]")
        return x, y, width, height

    def mouse(self, kind: str, x: float, y: float, **more: object) -> None:
        """Something that the mouse does."""
        self.devtools("Input.dispatchMouseEvent", type=kind, x=x, y=y, **more)

    def touch(self, kind: str, *places: tuple[float, float]) -> None:
        """Something that fingers do."""
        points = [{"x": x, "y": y, "id": at} for at, (x, y) in enumerate(places)]
        self.devtools("Input.dispatchTouchEvent", type=kind, touchPoints=points)

    def press(self, *keys: str) -> None:
        """Presses keys, wherever the focus is."""
        chains: Any = import_module("selenium.webdriver.common.action_chains")
        chains.ActionChains(self.driver).send_keys(*keys).perform()

    def focused(self) -> str:
        """Which element has the focus, by its id or its text."""
        return str(self.run("const e = document.activeElement; return e.id || e.textContent.trim()"))

    def quiet(self) -> None:
        """Waits until the rows are there that what was done before asked for."""
        self.until(lambda: self.run("return document.getElementById('plot').dataset.rows") == "done")

    def picture(self, name: str) -> Any:
        """What is seen, as an image of matplotlib's: rows of red, green, blue from 0 to 1."""
        import matplotlib.image
        data = self.driver.get_screenshot_as_png()
        if PICTURES:
            Path(PICTURES, f"{name}.png").write_bytes(data)
        return matplotlib.image.imread(io.BytesIO(data))[:, :, :3]

    def share(self, colour: tuple[int, int, int], within: int = 6) -> float:
        """How much of the canvas has a colour, about."""
        script = """
          const [colour, within] = arguments;
          const canvas = document.getElementById("canvas");
          const { data } = canvas.getContext("2d").getImageData(0, 0, canvas.width, canvas.height);
          const ground = getComputedStyle(document.querySelector(".chart-card")).backgroundColor
            .match(/\\d+/g).map(Number);
          let found = 0;
          for (let at = 0; at < data.length; at += 4) {
            const alpha = data[at + 3] / 255;
            const near = (part) =>
              Math.abs(data[at + part] * alpha + ground[part] * (1 - alpha) - colour[part]) <= within;
            if (near(0) && near(1) && near(2)) found += 1;
          }
          return found / (data.length / 4);"""
        return float(self.run(script, list(colour), within))

    def expect(self, *words: str) -> None:
        """Errors in the console with one of these words are no fault, up to the end of the test."""
        self._expected = ("net::ERR_", "willReadFrequently", *words)    # a test may end its service

    def errors(self) -> list[str]:
        """What the console has of other errors since it was asked last."""
        said = [str(line["message"]) for line in self.driver.get_log("browser")
                if line["level"] in ("SEVERE", "WARNING")]
        return [line for line in said if not any(word in line for word in self._expected)]


@pytest.fixture(scope="session")
def chromium() -> Iterator[Browser]:
    """The browser of all tests."""
    pytest.importorskip("selenium", reason="the page in a browser: python3-selenium is missing")
    if CHROMIUM is None or DRIVER is None:
        pytest.skip("the page in a browser: chromium or chromium-driver is missing")
    made = Browser()
    try:
        yield made
    finally:
        made.close()


@pytest.fixture()
def browser(chromium: Browser) -> Iterator[Browser]:
    """The browser as a reader has it at a desk. Errors in the console fail the test at its end."""
    CLOCK.put(AT)
    chromium.expect()
    chromium.prepare()
    yield chromium
    found = chromium.errors()
    assert not found, found


@pytest.fixture()
def service(browser: Browser) -> Iterator[StandIn]:
    """A service of made-up streams, by the browser's clock."""
    with StandIn(many()) as made:
        yield made
