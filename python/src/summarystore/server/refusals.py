"""Readings that were refused: all of them counted, and the first names listed, at `/api/refused`.

Those that came by HTTP aren't among it: their sender was told.
"""

from __future__ import annotations

import logging
import time
from collections.abc import Sequence
from dataclasses import dataclass

from aiohttp import web

from .answers import table_answer
from .app import Service
from .counters import Counters
from .endpoints import Access, Endpoint
from .meaning import seconds_of
from .outcomes import Result

SHOWN = 200
"""So many characters of a name and of a reason are kept."""

log = logging.getLogger("summarystored")


@dataclass
class Refused:
    """A name whose readings were refused for one reason: the last of them, how often, and when (ns)."""

    source: str
    name: str
    code: str
    reason: str
    count: int = 0
    last: int = 0


class Refusals:
    """Names and why their readings were refused, in bounded memory."""

    def __init__(self, counters: Counters, most: int) -> None:
        self._counters = counters
        self._most = most
        self._listed: dict[tuple[str, str, str], Refused] = {}
        self.unlisted = 0
        """How many refusals aren't listed, since the list is full."""

    def add(self, source: str, name: str, code: str, reason: str) -> None:
        """A reading that was refused before the intake had it."""
        self._counters.add("readings", source, Result.REFUSED.value)
        self._counters.add("refused", source, code)
        self.list(source, name, code, reason)

    def list(self, source: str, name: str, code: str, reason: str) -> None:
        """One that the intake refused, and has counted."""
        key = source, name[:SHOWN], code
        found = self._listed.get(key)
        if found is None:
            if len(self._listed) >= self._most:
                self.unlisted += 1
                return
            found = self._listed[key] = Refused(*key, reason[:SHOWN])
            log.warning("reading refused: name=%r source=%s code=%s reason=%r", found.name, source, code,
                        found.reason)
        found.reason = reason[:SHOWN]
        found.count += 1
        found.last = time.time_ns()

    def all(self) -> Sequence[Refused]:
        """Those that are listed, the most frequent first."""
        return sorted(self._listed.values(), key=lambda each: -each.count)


def endpoints(service: Service) -> Sequence[Endpoint]:
    """The address of the list."""
    async def refused(request: web.Request) -> web.StreamResponse:
        lists = [listener.refusals for listener in service.listeners if hasattr(listener, "refusals")]
        rows = [{"source": each.source, "name": each.name, "code": each.code, "reason": each.reason,
                 "count": each.count, "last": seconds_of(each.last)}
                for found in lists for each in found.all()]
        whole = {"refused": rows, "unlisted": sum(found.unlisted for found in lists)}
        return table_answer(request, whole, rows)
    return [Endpoint("GET", "/api/refused", refused, Access.READ)]
