"""What an address by HTTP is: method, path, what it needs, and what answers.

A module with addresses of its own gives them by a function that takes the service:

    def endpoints(service: Service) -> Sequence[Endpoint]:
        async def found(request: web.Request) -> web.StreamResponse:
            ...
        return [Endpoint("GET", "/metrics/find", found, Access.READ)]

A handler raises `ApiError` for what the client is to be told: it becomes the status and the body
`{"error": code, "reason": sentence}`. So do the errors of the package, by `answers.py`. Who has no
token for `access` doesn't come to the handler.
"""

from __future__ import annotations

import enum
from collections.abc import Awaitable, Callable
from dataclasses import dataclass

from aiohttp import web

Handler = Callable[[web.Request], Awaitable[web.StreamResponse]]


class Access(enum.Enum):
    """What is needed to ask at an address: nothing, or a token to read, to write, or to drop and rename
    streams. Each of these may do what those before it may."""

    OPEN = "open"
    READ = "read"
    WRITE = "write"
    ADMIN = "admin"

    def allows(self, asked: Access) -> bool:
        """Whether who has this access may have that."""
        order = list(Access)
        return order.index(self) >= order.index(asked)


@dataclass(frozen=True)
class Endpoint:
    """One address."""

    method: str
    path: str
    handler: Handler
    access: Access = Access.READ


class ApiError(Exception):
    """What a client is told: a status, a word and a sentence, and when it may come again."""

    def __init__(self, status: int, code: str, reason: str, retry_after: int | None = None) -> None:
        super().__init__(status, code, reason)
        self.status = status
        self.code = code
        self.reason = reason
        self.retry_after = retry_after
