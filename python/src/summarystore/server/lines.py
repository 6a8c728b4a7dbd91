"""`POST /api/lines` and `GET /api/descriptions`: what `summarystore.connect` asks.

Questions come as lines of the program and go to it as they are; what changes a store isn't among them. The
descriptions are those of the names file, in its form.
"""

from __future__ import annotations

from collections.abc import Sequence

from aiohttp import web

from ..namesfile import FORMAT, shown
from ..remote import LISTING, MOST_LINES
from ..wire import LONGEST_LINE, SESSIONS, Reply
from . import asked, exactjson
from .answers import json_answer
from .app import Service
from .bodies import body_of
from .endpoints import Access, ApiError, Endpoint

ONE = frozenset(("query", "estimate", "certify", "last"))
MOST_WINDOWS = 100_000


def lines_of(body: bytes) -> Sequence[str]:
    """The lines of a body. Raises where one of them isn't a question."""
    try:
        given = exactjson.loads(body)
    except ValueError as error:
        raise asked.bad(str(error)) from None
    lines = given.get("lines") if isinstance(given, dict) else None
    if not isinstance(lines, list) or not 0 < len(lines) <= MOST_LINES:
        raise asked.bad(f"`lines` is a list of 1 to {MOST_LINES} questions")
    for line in lines:
        if not isinstance(line, str) or len(line) > LONGEST_LINE or not line.isprintable():
            raise asked.bad("a question is one line of the program")
        if line.partition(" ")[0] not in ONE | LISTING:
            raise asked.bad(f"not a question: {line[:40]!r}")
    if sum(line.partition(" ")[0] in LISTING for line in lines) > SESSIONS:
        raise asked.bad(f"at most {SESSIONS} questions together have rows")
    return lines


class Lines:
    """The handlers."""

    def __init__(self, service: Service) -> None:
        self._service = service

    async def ask(self, request: web.Request) -> web.StreamResponse:
        """`POST /api/lines`."""
        lines = lines_of(await body_of(request, self._service.configuration.limits))
        await self._bound([line.split(" ")[1] for line in lines if line.startswith("windows ")])
        found: Sequence[Reply] = await self._service.ask(lambda store: store.replies(lines))
        return json_answer({"replies": [{"head": reply.head, "rows": reply.rows} for reply in found]})

    async def _bound(self, names: Sequence[str]) -> None:
        """Refuses windows that are too many for one answer: /api/windows gives them in pieces."""
        if not names:
            return
        streams = await self._service.ask(lambda store: store.list())
        if any(stream.short_name in names and stream.windows > MOST_WINDOWS for stream in streams):
            raise ApiError(400, "too_many_rows", f"a stream of more than {MOST_WINDOWS} windows is read by "
                                                 "/api/windows")

    async def descriptions(self, request: web.Request) -> web.StreamResponse:
        """`GET /api/descriptions`: of all streams that are described."""
        store = self._service.store()
        streams = await self._service.ask(lambda store: store.list())
        names = {stream.name: stream.short_name for stream in streams}
        told = {name: store.description(name) for name in names}
        return json_answer({"summarystore": FORMAT, "names": names, "streams": {
            name: shown(names[name], description) for name, description in told.items() if description}})


def endpoints(service: Service) -> Sequence[Endpoint]:
    """The addresses."""
    lines = Lines(service)
    return [Endpoint("POST", "/api/lines", lines.ask, Access.READ),
            Endpoint("GET", "/api/descriptions", lines.descriptions, Access.READ)]
