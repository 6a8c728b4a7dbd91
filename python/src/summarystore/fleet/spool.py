"""The spool: frames on the disk until followers have their events.

A folder of segments, each of records of a frame and its checksum, in the order in which they came.
A frame is written before the store has its event, so it counts only where the store has an event of
its number; where a stream has two frames of one number, the later one counts. Segments go as a
whole, the oldest first: when followers have all events of it, or when there is no room.
"""

from __future__ import annotations

import fcntl
import json
import os
import threading
import uuid
from collections.abc import Callable, Iterator, Mapping
from dataclasses import dataclass, field
from pathlib import Path

from .errors import SpoolError
from .frames import SIZE, frames_in, message, name_of, number_of

RECORD = SIZE + 4
SEGMENT = 1 << 20
LIMIT = 64 << 20


def write_whole(file: Path, text: str) -> None:
    """Replaces a file: after a crash it is the old one or the new one."""
    new = file.with_name(file.name + ".new")
    with open(new, "w", encoding="utf-8") as out:
        out.write(text)
        out.flush()
        os.fsync(out.fileno())
    os.replace(new, file)
    sync_folder(file.parent)


def sync_folder(folder: Path) -> None:
    """Brings the names of a folder to the disk."""
    opened = os.open(folder, os.O_RDONLY)
    try:
        os.fsync(opened)
    finally:
        os.close(opened)


@dataclass
class Segment:
    """One file of frames."""

    path: Path
    size: int = 0
    last: dict[str, int] = field(default_factory=dict)
    """The greatest number in it of each stream."""


class Spool:
    """The frames of one sender. It is locked while it is open."""

    def __init__(self, folder: Path, limit: int = LIMIT, segment: int = SEGMENT) -> None:
        self.folder = folder
        self._limit = limit
        self._segment = min(segment, max(RECORD, limit // 4))
        folder.mkdir(exist_ok=True)
        self._lock = os.open(folder / "lock", os.O_CREAT | os.O_RDWR, 0o644)
        try:
            fcntl.flock(self._lock, fcntl.LOCK_EX | fcntl.LOCK_NB)
        except OSError:
            os.close(self._lock)
            raise SpoolError(f"{folder} is in use by another sender") from None
        self.sender = self._identity()
        self.counts = self._read_counts()
        """The last number of each stream that was ever written, as far as the segments are gone."""
        self.damaged: list[str] = []
        self._segments = [Segment(path) for path in sorted(folder.glob("*.frames"))]
        self._out: int | None = None
        self._alone = threading.Lock()

    def _identity(self) -> str:
        file = self.folder / "sender"
        if not file.exists():
            write_whole(file, uuid.uuid4().hex + "\n")
        return file.read_text("utf-8").strip()

    def _read_counts(self) -> dict[str, int]:
        try:
            found = json.loads((self.folder / "counts").read_text("utf-8"))
        except FileNotFoundError:
            return {}
        except ValueError as error:
            raise SpoolError(f"{self.folder / 'counts'}: {error}") from None
        return {str(name): int(number) for name, number in found.items()}

    @property
    def size(self) -> int:
        """The bytes of all segments."""
        return sum(segment.size for segment in self._segments)

    # ---- reading ------------------------------------------------------------------------

    def scan(self) -> Iterator[bytes]:
        """All frames as they came, once, before any is added. What a crash left of a record is cut off."""
        for segment in self._segments:
            yield from self._read(segment, segment is self._segments[-1])

    def _read(self, segment: Segment, newest: bool) -> Iterator[bytes]:
        data = segment.path.read_bytes()
        for at in range(0, len(data), RECORD):
            frame = frames_in(data[at:at + RECORD])
            if frame is None:
                self._cut(segment, at, len(data), newest)
                return
            self._take(segment, frame)
            yield frame

    def _cut(self, segment: Segment, at: int, length: int, newest: bool) -> None:
        """A record isn't whole: the end that a crash left, or damage."""
        if newest:
            os.truncate(segment.path, at)
        else:
            segment.size = length
            self.damaged.append(f"{segment.path.name} from byte {at} on")

    @staticmethod
    def _take(segment: Segment, frame: bytes) -> None:
        name = name_of(frame)
        segment.size += RECORD
        segment.last[name] = max(number_of(frame), segment.last.get(name, 0))

    # ---- writing ------------------------------------------------------------------------

    def add(self, frames: bytes) -> dict[str, int]:
        """Writes frames and brings them to the disk. Where there is no room the oldest segments go: gives
        the last number of each stream in them."""
        with self._alone:
            self._append(frames)
            return self._make_room()

    def _append(self, frames: bytes) -> None:
        records = bytearray()
        for at in range(0, len(frames), SIZE):
            frame = frames[at:at + SIZE]
            if self._out is None or self._segments[-1].size + RECORD > self._segment:
                self._write(records)
                records.clear()
                self._begin()
            self._take(self._segments[-1], frame)
            records += message(frame)
        self._write(records)
        if self._out is not None:
            os.fdatasync(self._out)

    def _write(self, records: bytearray) -> None:
        if records:
            assert self._out is not None
            if os.write(self._out, records) != len(records):
                raise SpoolError(f"{self.folder}: a write was cut off")

    def _begin(self) -> None:
        """Goes on in the newest segment, or begins another one."""
        newest = self._segments[-1] if self._segments else None
        if self._out is not None:
            os.fdatasync(self._out)
            os.close(self._out)
            self._out = None
        if newest is None or newest.size + RECORD > self._segment:
            number = int(newest.path.stem) + 1 if newest else 1
            newest = Segment(self.folder / f"{number:012}.frames")
            self._segments.append(newest)
        self._out = os.open(newest.path, os.O_CREAT | os.O_WRONLY | os.O_APPEND, 0o644)
        sync_folder(self.folder)

    def _make_room(self) -> dict[str, int]:
        gone: dict[str, int] = {}
        while self.size > self._limit and len(self._segments) > 1:
            segment = self._segments.pop(0)
            _raise(gone, segment.last)
            self._remove(segment)
        return gone

    def trim(self, held: Callable[[str], int]) -> None:
        """Followers have the events up to these numbers: segments that say nothing else go."""
        with self._alone:
            while len(self._segments) > 1 and all(number <= held(name)
                                                  for name, number in self._segments[0].last.items()):
                self._remove(self._segments.pop(0))

    def _remove(self, segment: Segment) -> None:
        _raise(self.counts, segment.last)
        write_whole(self.folder / "counts", json.dumps(self.counts))
        segment.path.unlink()

    def close(self) -> None:
        """Lets the folder go."""
        if self._out is not None:
            os.close(self._out)
            self._out = None
        os.close(self._lock)


def _raise(numbers: dict[str, int], others: Mapping[str, int]) -> None:
    for name, number in others.items():
        numbers[name] = max(number, numbers.get(name, 0))
