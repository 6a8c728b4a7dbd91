"""What comes to a follower: messages of frames, and which of them are its own."""

from __future__ import annotations

from collections.abc import Mapping
from typing import Any, NamedTuple
from zlib import crc32

from .frames import SIZE, frames_in, name_of, number_of


NAMED = "named"
"""The header with the long name of a stream."""
MARK = "mark"
"""The header of a follower's mark."""


class Delivery(NamedTuple):
    """One message: frames of one stream with numbers one after the other."""

    tag: int
    offset: int | None
    """Its place in the log. None where the queue is emptied."""
    sender: str
    name: str
    """Of what is no message of a sender's it is empty."""
    first: int
    frames: bytes
    named: str = ""
    """What says the long name of the stream, where it has one."""
    mark: str = ""
    """Of a follower's mark, which is no message of a sender's."""

    @property
    def size(self) -> int:
        """How many frames it has."""
        return len(self.frames) // SIZE

    @property
    def last(self) -> int:
        """The number of its last frame."""
        return self.first + self.size - 1


class Part(NamedTuple):
    """Which names are a follower's: those whose hash has this remainder."""

    number: int = 0
    of: int = 1

    def has(self, name: str) -> bool:
        """Whether a name is in it."""
        return self.of == 1 or crc32(name.encode()) % self.of == self.number


def delivery_of(method: Any, properties: Any, body: bytes) -> Delivery:
    """A message as it came."""
    frames = frames_in(body)
    tag, offset = int(method.delivery_tag), offset_of(properties.headers)
    headers = properties.headers or {}
    if frames is None:
        mark = headers.get(MARK)
        return Delivery(tag, offset, "", "", 0, b"", mark=mark if isinstance(mark, str) else "")
    named = headers.get(NAMED)
    return Delivery(tag, offset, str(properties.app_id or ""), name_of(frames), number_of(frames), frames,
                    named if isinstance(named, str) else "")


def offset_of(headers: Mapping[str, object] | None) -> int | None:
    """The place of a delivery in its log. None where the queue is emptied."""
    found = (headers or {}).get("x-stream-offset")
    return int(found) if isinstance(found, int) else None
