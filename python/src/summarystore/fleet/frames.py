"""Frames: the event of a line with its number, in 64 bytes, and messages of several of one stream."""

from __future__ import annotations

import re
import struct
from collections.abc import Sequence
from typing import NamedTuple
from zlib import crc32

from ..wire import GREATEST_VALUE, LAST_TIME, LEAST_VALUE, NAME

SIZE = 64
CREATE, VALUE, OPEN, CLOSE = 1, 2, 3, 4
FAMILIES = {"exp": (1, 3), "power": (2, 4)}
"""The number of each family of targets, and how many parameters it has."""
LAST_NUMBER = 2**64 - 1
CHECKSUM = struct.Struct(">I")
_HEAD = struct.Struct(">BBBxIQ32s")
_TIME = struct.Struct(">Q")
DIGITS = re.compile(r"[0-9]{1,200}")
VALUES = re.compile(r"-?[0-9]{1,200}")


class Event(NamedTuple):
    """What a line would do, where it is accepted."""

    kind: int
    name: str
    time: int | None
    """Of a Create it is None."""
    family: int
    rest: bytes
    """The last 16 bytes of its frame."""
    step: int = 0
    """What stands behind `within` in a Create, and 0 where nothing does."""

    def frame(self, number: int) -> bytes:
        """Its frame, as the event of this number of its stream."""
        return _HEAD.pack(self.kind, self.family, len(self.name), self.step, number,
                          self.name.encode()) + self.rest


def words_of(line: str) -> list[str]:
    """The words of a line, as the program parts them. A line without any has no reply, nor has a comment."""
    text = line.removesuffix("\r")
    return [] if text.startswith("#") else [word for word in text.replace("\t", " ").split(" ") if word]


def event_of(line: str) -> Event | None:
    """The event of a line. None where it has none, and also where the program surely refuses the line."""
    words = words_of(line)
    if len(words) == 4 and words[0] == "append":
        return _event(VALUE, words[1], words[2], words[3])
    if len(words) == 4 and words[0] == "landmark" and words[2] in ("open", "close"):
        return _event(OPEN if words[2] == "open" else CLOSE, words[1], words[3], "0")
    if len(words) > 3 and words[0] == "create":
        return _create(words[1], words[2], words[3:])
    return None


def _event(kind: int, name: str, time: str, value: str) -> Event | None:
    if not NAME.fullmatch(name) or not DIGITS.fullmatch(time) or not VALUES.fullmatch(value):
        return None
    at, taken = int(time), int(value)
    if at > LAST_TIME or not LEAST_VALUE <= taken <= GREATEST_VALUE:
        return None
    return Event(kind, name, at, 0, struct.pack(">Qq", at, taken))


def _create(name: str, family: str, words: Sequence[str]) -> Event | None:
    number, count = FAMILIES.get(family, (0, 0))
    words, behind = words[:count], words[count:]
    steps = behind[1:]
    if behind and (behind[0] != "within" or len(steps) != 1):
        return None
    if not NAME.fullmatch(name) or len(words) != count or not all(map(DIGITS.fullmatch, [*words, *steps])):
        return None
    numbers, step = [*map(int, words), 0], int(steps[0]) if steps else 0
    if max(*numbers, step) >= 2**32 or steps and step == 0:
        return None
    return Event(CREATE, name, None, number, struct.pack(">4I", *numbers[:4]), step)


def probe(name: str) -> bytes:
    """A frame that is later than any: the reply to it says how many events the stream has."""
    return Event(VALUE, name, 0, 0, bytes(16)).frame(LAST_NUMBER)


def number_of(frame: bytes) -> int:
    """The number of its event."""
    return int(_TIME.unpack_from(frame, 8)[0])


def name_of(frame: bytes) -> str:
    """The name of its stream."""
    return bytes(frame[16:16 + frame[2]]).decode("latin-1")


def time_of(frame: bytes) -> int | None:
    """The time of its event. None for a Create."""
    return None if frame[0] == CREATE else int(_TIME.unpack_from(frame, 48)[0])


def message(frames: bytes) -> bytes:
    """What is carried: frames, and a checksum behind them."""
    return frames + CHECKSUM.pack(crc32(frames))


def frames_in(body: bytes) -> bytes | None:
    """The frames of a message: of one stream, with numbers one after the other. None where it is none."""
    frames, end = body[:-4], body[-4:]
    if not frames or len(frames) % SIZE or CHECKSUM.pack(crc32(frames)) != end:
        return None
    front = name_of(frames), number_of(frames)
    for at in range(SIZE, len(frames), SIZE):
        each = frames[at:at + SIZE]
        if (name_of(each), number_of(each)) != (front[0], front[1] + at // SIZE):
            return None
    return frames
