"""The page and what belongs to it: a fixed table of files, each read once when the service begins.

No path of a request reaches the file system. What the page may load stands in `POLICY`: its own
files and nothing else. Chart.js is served from Debian's package, or from a file that is named.
"""

from __future__ import annotations

import gzip
import hashlib
import logging
from collections.abc import Iterable, Sequence
from dataclasses import dataclass
from importlib import resources
from pathlib import Path

from aiohttp import web

from .endpoints import Access, ApiError, Endpoint, Handler

log = logging.getLogger("summarystored")

POLICY = ("default-src 'none'; script-src 'self'; style-src 'self'; connect-src 'self'; "
          "img-src 'self' data:; base-uri 'none'; form-action 'none'; frame-ancestors 'none'; "
          "require-trusted-types-for 'script'; trusted-types 'none'")

HEADERS = {
    "Content-Security-Policy": POLICY,
    "X-Content-Type-Options": "nosniff",
    "Referrer-Policy": "no-referrer",
    "Cross-Origin-Opener-Policy": "same-origin",
    "Cross-Origin-Resource-Policy": "same-origin",
    "Permissions-Policy": "camera=(), geolocation=(), microphone=()",
    "Cache-Control": "no-cache",
    "Vary": "Accept-Encoding",
}

SCRIPT, STYLE, PICTURE, PAGE = "text/javascript", "text/css", "image/svg+xml", "text/html"

FILES = {
    "icon.svg": PICTURE, "page.css": STYLE,
    **{f"{name}.js": SCRIPT for name in (
        "api", "csv", "detail", "dialog", "dom", "facts", "gestures", "list", "live", "loading",
        "managing", "marking", "notices", "numbers", "others", "page", "painting", "plot", "reader",
        "shapes", "sparkline", "steps", "theme", "times", "view")},
}
"""The files of the page beside `index.html`, at `/static/`."""

CHART = "chart.min.js"
CHART_PLACES = tuple(Path("/usr/share") / place / CHART
                     for place in ("javascript/chart.js", "nodejs/chart.js/dist"))
"""Where Debian's packages libjs-chart.js and node-chart.js have it."""

ADDRESSES = frozenset({"/", f"/static/{CHART}", *(f"/static/{name}" for name in FILES)})
"""All addresses of the page. They hold nothing of the store, and so need no token."""


@dataclass(frozen=True)
class Content:
    """The bytes of one file, as they are and compressed, with a tag for each form."""

    kind: str
    plain: bytes
    packed: bytes
    tag: str

    @classmethod
    def of(cls, kind: str, data: bytes) -> Content:
        """That of a file with these bytes."""
        return cls(kind, data, gzip.compress(data, 9, mtime=0), hashlib.sha256(data).hexdigest()[:32])

    def reply(self, request: web.Request) -> web.Response:
        """What a request gets: the file, or that the client has it already."""
        is_packed = "gzip" in request.headers.get("Accept-Encoding", "").lower()
        tag = f"{self.tag}-gzip" if is_packed else self.tag
        headers = {**HEADERS, "ETag": f'"{tag}"'}
        if any(known.value in (tag, "*") for known in request.if_none_match or ()):
            return web.Response(status=304, headers=headers)
        if is_packed:
            headers["Content-Encoding"] = "gzip"
        return web.Response(body=self.packed if is_packed else self.plain, headers=headers,
                            content_type=self.kind, charset="utf-8")


def chart_file(places: Iterable[Path] = CHART_PLACES) -> Path | None:
    """The first of some places that has Chart.js."""
    return next((place for place in places if place.is_file()), None)


def routes(chart: Path | None = None, places: Iterable[Path] = CHART_PLACES) -> Sequence[Endpoint]:
    """The addresses of the page. `chart` is a file of Chart.js, else it is looked for in some places."""
    folder = resources.files(__package__).joinpath("static")
    table = {f"/static/{name}": _serving(Content.of(kind, folder.joinpath(name).read_bytes()))
             for name, kind in FILES.items()}
    table["/"] = _serving(Content.of(PAGE, folder.joinpath("index.html").read_bytes()))
    table[f"/static/{CHART}"] = _chart(chart or chart_file(places))
    return [Endpoint("GET", address, handler, Access.OPEN) for address, handler in table.items()]


def _serving(content: Content) -> Handler:
    async def serve(request: web.Request) -> web.StreamResponse:
        return content.reply(request)
    return serve


def _chart(path: Path | None) -> Handler:
    try:
        if path is None:
            raise FileNotFoundError("Chart.js isn't installed (on Debian: apt install libjs-chart.js)")
        return _serving(Content.of(SCRIPT, path.read_bytes()))
    except OSError as error:
        reason = f"{error}: the page shows tables in the place of its chart"
    log.warning("page without a chart: reason=%s", reason)

    async def refuse(request: web.Request) -> web.StreamResponse:
        raise ApiError(404, "not_installed", reason)
    return refuse
