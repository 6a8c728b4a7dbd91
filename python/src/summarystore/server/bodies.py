"""The body of a request: as much as is allowed, in the time that is allowed, and unpacked."""

from __future__ import annotations

import asyncio
import zlib

from aiohttp import web

from .configuration import Limits
from .endpoints import ApiError

HELD = "summarystore.held"
"""Where an application has its `Held`, and a request what is held of its body."""
WINDOWS = {"gzip": 31, "x-gzip": 31, "deflate": 15}


class Held:
    """How many bytes of bodies are under way. Each is held until its request is answered."""

    def __init__(self, most: int) -> None:
        self._most = most
        self.size = 0

    def take(self, count: int) -> None:
        """More bytes are held, where there is room for them."""
        if self.size + count > self._most:
            told = f"bodies of {self.size} bytes are under way, and at most {self._most} are taken together"
            raise ApiError(503, "busy", told, 1)
        self.size += count

    def give(self, count: int) -> None:
        """They aren't held any more."""
        self.size -= count


class _Plain:
    """Bytes as they are."""

    def __init__(self, most: int, held: Held) -> None:
        self._most = most
        self._held = held
        self._parts: list[bytes] = []
        self.size = 0

    def add(self, data: bytes) -> None:
        if self.size + len(data) > self._most:
            raise ApiError(413, "too_large", f"a body has at most {self._most} bytes")
        self._held.take(len(data))
        self.size += len(data)
        self._parts.append(data)

    def end(self) -> bytes:
        return b"".join(self._parts)


class _Packed(_Plain):
    """Bytes that were packed. Never more of them are unpacked than are allowed."""

    def __init__(self, most: int, held: Held, window: int) -> None:
        super().__init__(most, held)
        self._window = window
        self._unpacking = zlib.decompressobj(window)
        self._any = False

    def add(self, data: bytes) -> None:
        while data:
            if self._unpacking.eof:     # a packed file may have several parts
                self._unpacking = zlib.decompressobj(self._window)
            try:
                super().add(self._unpacking.decompress(data, self._most - self.size + 1))
            except zlib.error as error:
                raise ApiError(400, "bad_encoding", f"the body can't be unpacked: {error}") from None
            self._any = True
            data = self._unpacking.unconsumed_tail or self._unpacking.unused_data

    def end(self) -> bytes:
        if self._any and not self._unpacking.eof:
            raise ApiError(400, "bad_encoding", "the body can't be unpacked: its end is missing")
        return super().end()


async def body_of(request: web.Request, limits: Limits, as_it_is: str = "") -> bytes:
    """The body of a request. It counts as held until the request is answered. One that is packed by
    `as_it_is` stays so."""
    encoding = request.headers.get("Content-Encoding", "identity").strip().lower()
    if encoding == as_it_is:
        encoding = "identity"
    if encoding != "identity" and encoding not in WINDOWS:
        raise ApiError(415, "bad_encoding", f"a body is packed by gzip or deflate, or not at all: {encoding}")
    if request.content_length is not None and request.content_length > limits.body:
        raise ApiError(413, "too_large", f"a body has at most {limits.body} bytes")
    held: Held = request.config_dict[HELD]
    packed = encoding != "identity"
    taken = _Packed(limits.body, held, WINDOWS[encoding]) if packed else _Plain(limits.body, held)
    request[HELD] = taken
    try:
        async with asyncio.timeout(limits.body_seconds):
            while data := await request.content.readany():
                taken.add(data)
    except TimeoutError:
        raise ApiError(408, "slow", f"the body didn't come within {limits.body_seconds:g} s") from None
    return taken.end()


def let_go(request: web.Request) -> None:
    """A request is answered: what was held of its body isn't any more."""
    taken = request.pop(HELD, None)
    if taken is not None:
        request.config_dict[HELD].give(taken.size)


def text_of(data: bytes) -> str:
    """A body as text."""
    try:
        return data.decode("utf-8")
    except UnicodeDecodeError as error:
        raise ApiError(400, "bad_encoding", f"byte {error.start} of the body isn't UTF-8") from None
