"""`GET /api/access`: what whoever asks may do, so that a page shows no more than that."""

from __future__ import annotations

from collections.abc import Sequence

from aiohttp import web

from .answers import json_answer
from .app import Service
from .endpoints import Access, Endpoint

ASKED = (Access.READ, Access.WRITE, Access.ADMIN)


def endpoints(service: Service) -> Sequence[Endpoint]:
    """The address."""
    async def access(request: web.Request) -> web.StreamResponse:
        return json_answer({each.value: service.tokens.allow(each, request.headers, request.query)
                            for each in ASKED})
    return [Endpoint("GET", "/api/access", access, Access.OPEN)]
