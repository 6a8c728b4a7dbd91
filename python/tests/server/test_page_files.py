"""The files of the page: how they are served, and that nothing of them breaks the page's own policy."""

from __future__ import annotations

import gzip
import http.client
import re
from collections.abc import Iterator
from html.parser import HTMLParser
from importlib import resources

import pytest

pytest.importorskip("aiohttp", reason="the service: python3-aiohttp is missing")

from summarystore.server import page  # noqa: E402

from ..waiting import SECONDS  # noqa: E402
from .page_stand_in import StandIn, many  # noqa: E402

STATIC = resources.files("summarystore.server").joinpath("static")


@pytest.fixture(scope="module")
def service() -> Iterator[StandIn]:
    with StandIn(many()[:1]) as made:
        yield made


def get(service: StandIn, path: str, method: str = "GET", **headers: str
        ) -> tuple[http.client.HTTPResponse, bytes]:
    """A request whose path is sent as it is."""
    connection = http.client.HTTPConnection("127.0.0.1", service.port, timeout=SECONDS)
    connection.putrequest(method, path, skip_accept_encoding=True)
    for name, value in headers.items():
        connection.putheader(name.replace("_", "-"), value)
    connection.endheaders()
    response = connection.getresponse()
    body = response.read()
    connection.close()
    return response, body


@pytest.mark.parametrize("path", sorted(page.ADDRESSES))
def test_each_address_has_its_file_and_its_type(service: StandIn, path: str) -> None:
    if path.endswith(page.CHART) and page.chart_file() is None:
        pytest.skip("Chart.js: libjs-chart.js is missing")
    response, body = get(service, path)
    name = path.removeprefix("/static/")
    kind = page.PAGE if path == "/" else page.FILES.get(name, page.SCRIPT)
    assert response.status == 200
    assert response.getheader("Content-Type") == f"{kind}; charset=utf-8"
    assert response.getheader("Content-Security-Policy") == page.POLICY
    assert response.getheader("X-Content-Type-Options") == "nosniff"
    assert response.getheader("Cache-Control") == "no-cache"
    if path == "/":
        assert body == STATIC.joinpath("index.html").read_bytes()
    elif name in page.FILES:
        assert body == STATIC.joinpath(name).read_bytes()
    else:
        assert body.startswith(b"/*!\n * Chart.js v3.")


def test_a_file_that_the_client_has_is_not_sent_again(service: StandIn) -> None:
    first, body = get(service, "/static/page.css")
    tag = str(first.getheader("ETag"))
    again, nothing = get(service, "/static/page.css", If_None_Match=tag)
    assert (again.status, nothing, again.getheader("ETag")) == (304, b"", tag)
    assert again.getheader("Content-Security-Policy") == page.POLICY
    other, all_of_it = get(service, "/static/page.css", If_None_Match='"another"')
    assert (other.status, all_of_it) == (200, body)
    several, _ = get(service, "/static/page.css", If_None_Match=f'"another", W/{tag}')
    assert several.status == 304


def test_a_compressed_file_has_a_tag_of_its_own(service: StandIn) -> None:
    plain, body = get(service, "/static/page.js")
    packed, data = get(service, "/static/page.js", Accept_Encoding="br, gzip")
    assert packed.getheader("Content-Encoding") == "gzip" and gzip.decompress(data) == body
    assert packed.getheader("ETag") != plain.getheader("ETag")
    assert packed.getheader("Vary") == "Accept-Encoding"


def test_head_tells_the_length_without_the_file(service: StandIn) -> None:
    response, body = get(service, "/", "HEAD")
    assert (response.status, body) == (200, b"")
    assert int(str(response.getheader("Content-Length"))) == len(STATIC.joinpath("index.html").read_bytes())


@pytest.mark.parametrize("path", [
    "/static/", "/static", "/static/index.html", "/static/../page.py", "/static/..%2fpage.py",
    "/static/%2e%2e/page.py", "/static//etc/passwd", "/static/page.js%00", "/static/page.js/",
    "/static/PAGE.JS", "/index.html", "/..", "//",
])
def test_no_other_path_is_a_file(service: StandIn, path: str) -> None:
    response, _ = get(service, path)
    assert response.status == 404


def test_the_table_has_the_files_that_there_are() -> None:
    assert {each.name for each in STATIC.iterdir()} == {*page.FILES, "index.html"}


def test_without_chart_js_its_address_says_what_is_missing() -> None:
    with StandIn(many()[:1], has_chart=False) as service:
        response, body = get(service, f"/static/{page.CHART}")
    assert response.status == 404
    assert b"apt install libjs-chart.js" in body and b'"error":"not_installed"' in body


class Marks(HTMLParser):
    """The elements of the page with their attributes."""

    def __init__(self) -> None:
        super().__init__()
        self.found: list[tuple[str, dict[str, str | None]]] = []

    def handle_starttag(self, tag: str, attrs: list[tuple[str, str | None]]) -> None:
        self.found.append((tag, dict(attrs)))


def marks() -> list[tuple[str, dict[str, str | None]]]:
    parser = Marks()
    parser.feed(STATIC.joinpath("index.html").read_text(encoding="utf-8"))
    return parser.found


def test_the_page_has_no_script_and_no_style_of_its_own() -> None:
    for tag, attributes in marks():
        assert tag != "style" and "style" not in attributes, attributes
        assert not [name for name in attributes if name.startswith("on")], attributes
        assert tag != "script" or attributes.get("src"), attributes
    for name, kind in page.FILES.items():
        text = STATIC.joinpath(name).read_text(encoding="utf-8")
        assert not re.search(r"(inner|outer|insertAdjacent)HTML|document\.write|\beval\(|new Function", text)
        assert not re.search(r"(https?:)?//(?!www\.w3\.org/2000/svg)[a-z0-9-]+\.[a-z]", text), name


def test_what_the_page_loads_is_in_the_table() -> None:
    loaded = {attributes["src"] for tag, attributes in marks() if tag == "script"}
    loaded |= {attributes["href"] for tag, attributes in marks() if tag == "link"}
    assert {f"/{name}" for name in loaded} <= page.ADDRESSES
    for name in page.FILES:
        text = STATIC.joinpath(name).read_text(encoding="utf-8")
        for other in re.findall(r'from "\./([a-z.]+)"', text):
            assert other in page.FILES, f"{name} imports {other}"


def test_each_control_has_a_name_and_each_name_its_element() -> None:
    found = marks()
    names = [attributes["id"] for _, attributes in found if attributes.get("id")]
    assert len(names) == len(set(names))
    for tag, attributes in found:
        for key in ("aria-labelledby", "aria-describedby"):
            assert set((attributes.get(key) or "").split()) <= set(names), attributes
        if tag == "input":
            assert attributes.get("aria-label"), attributes
        if tag == "button" and "round" in (attributes.get("class") or ""):
            assert attributes.get("aria-label"), attributes


def colours() -> dict[str, dict[str, str]]:
    """The colours of page.css by their names, light and dark."""
    text = STATIC.joinpath("page.css").read_text(encoding="utf-8")
    light, dark = (re.search(rf"^{re.escape(selector)} \{{(.*?)^\}}", text, re.M | re.S)
                   for selector in (":root", ':root[data-theme="dark"]'))
    assert light and dark
    return {name: dict(re.findall(r"--([a-z-]+): (#[0-9a-f]{6,8});", block[1]))
            for name, block in (("light", light), ("dark", dark))}


def rgb(colour: str, ground: str) -> tuple[float, float, float]:
    """The parts of a colour over a ground, from 0 to 1."""
    alpha = int(colour[7:9], 16) / 255 if len(colour) == 9 else 1.0
    red, green, blue = (alpha * int(colour[at:at + 2], 16) + (1 - alpha) * int(ground[at:at + 2], 16)
                        for at in (1, 3, 5))
    return red / 255, green / 255, blue / 255


def luminance(parts: tuple[float, float, float]) -> float:
    """How light a colour is, as WCAG says."""
    red, green, blue = (part / 12.92 if part <= 0.04045 else float(((part + 0.055) / 1.055) ** 2.4)
                        for part in parts)
    return 0.2126 * red + 0.7152 * green + 0.0722 * blue


def contrast(one: str, ground: str, below: str) -> float:
    """The contrast of a colour on a ground that lies over an opaque one."""
    lights = sorted(luminance(parts) for parts in (rgb(one, below), rgb(ground, below)))
    return (lights[1] + 0.05) / (lights[0] + 0.05)


TEXTS = {
    "page": "ink muted accent landmark-edge", "surface": "ink muted accent bad landmark-edge",
    "sunken": "ink muted accent", "bad-soft": "ink", "accent-soft": "ink accent", "accent": "accent-ink",
    "ink": "surface", "landmark": "landmark-edge", "raised": "ink",
}
"""Grounds, and what is written on them."""
SHAPES = {
    "page": "focus",
    "surface": "focus edge good waiting bad exact middle band-edge cursor landmark-edge "
               "other-a other-b other-c other-d",
    "band": "exact", "landmark": "exact",
}
"""Grounds, and the lines and lamps on them."""


@pytest.mark.parametrize("theme", ["light", "dark"])
def test_texts_and_shapes_can_be_seen(theme: str) -> None:
    known = colours()[theme]
    assert set(colours()["light"]) == set(colours()["dark"])
    found = {(one, ground): (contrast(known[one], known[ground], known["surface"]), least)
             for least, table in ((4.5, TEXTS), (3.0, SHAPES))
             for ground, names in table.items() for one in names.split()}
    assert {pair: round(value, 2) for pair, (value, least) in found.items() if value < least} == {}
