"""What stands in the slots of a store's file: records, and the conditions on those of a stream.

Written from docs/FORMAT.md alone. Each record is read by its fields and spelled again: what differs then has
a byte where no field lies.
"""

from __future__ import annotations

import struct
from collections.abc import Iterator, Mapping, Sequence
from typing import Self, Union

from .storefile import FIRST_SLOT, FREE, SLOT, Holds, Refused, is_formatted, slots_of

LAST_POSITION, LAST_TIME = 2**40, 2**62
FULL = 2**256 - 1
NAME_BYTES = b"ABCDEFGHIJKLMNOPQRSTUVWXYZabcdefghijklmnopqrstuvwxyz0123456789_-."
MOST_STREAMS = 4096


class Stream:
    """The record of a stream itself."""

    def __init__(self, content: bytes) -> None:
        _, self.family, length, self.dropped, self.number, *rest = struct.unpack_from(">BBBBI4I", content)
        self.parameters: Sequence[int] = rest
        self.name = content[24:24 + length]
        (self.step,) = struct.unpack_from(">I", content, 56)

    def spelled(self) -> bytes:
        """Its slot."""
        fields = self.family, len(self.name), self.dropped, self.number, *self.parameters
        head = struct.pack(">BBBBI4I", 1, *fields)
        return ((head + self.name).ljust(56, b"\0") + struct.pack(">I", self.step)).ljust(SLOT, b"\0")

    def is_valid(self) -> bool:
        """Whether its fields are in range."""
        a, b, c, d = self.parameters
        if self.family == 1:
            in_range = 2 <= a <= 16 and 1 <= b <= 65536 and 1 <= c <= 65536 and d == 0
        else:
            in_range = self.family == 2 and 1 <= a <= 4 and b <= 3 and 1 <= c <= 65536 and 1 <= d <= 65536
        return (in_range and self.dropped <= 1 and 1 <= len(self.name) <= 32
                and all(byte in NAME_BYTES for byte in self.name))

    def target(self) -> str:
        """Its target, as `list` has it."""
        words = self.parameters[:3] if self.family == 1 else self.parameters
        within = f" within {self.step}" if self.step else ""
        return " ".join(["exp" if self.family == 1 else "power", *map(str, words)]) + within

    def is_in_step(self, time: int, later: int) -> bool:
        """Whether two times lie in one step of the clock."""
        return not self.step or time // self.step == later // self.step

    def groups(self) -> Iterator[tuple[int, int]]:
        """How many target windows each group has, and how long they are, from the newest value on."""
        a, b, c, d = self.parameters
        group = 0
        while True:
            if self.family == 1:
                yield b, c * a**group
            else:
                yield c * (group + 1) ** (a - 1), d * (group + 1) ** b
            group += 1

    def target_window(self, age: int) -> int:
        """Which target window holds an age."""
        before = start = 0
        groups = self.groups()
        windows, length = next(groups)
        while age >= start + windows * length:
            before, start = before + windows, start + windows * length
            windows, length = next(groups)
        return before + (age - start) // length


def bit_of(value: int) -> int:
    """The bit of a filter that a value sets, as a filter that has it alone."""
    return 1 << ((value % 2**64 * 11400714819323198485) % 2**64 // 2**56)


class Window:
    """The record of a window."""

    first: int

    def __init__(self, content: bytes) -> None:
        self.number, self.first, self.count = struct.unpack_from(">IQQ", content, 4)
        self.sum = int.from_bytes(content[24:40], "big", signed=True)
        self.least, self.greatest, self.begins, self.ends = struct.unpack_from(">qqQQ", content, 40)
        words = struct.unpack_from(">4Q", content, 72)
        self.filter: int = sum(word << 64 * at for at, word in enumerate(words)) if content[1] else FULL

    def spelled(self) -> bytes:
        """Its slot."""
        told = self.filter != FULL
        head = struct.pack(">BB2xIQQ", 2, told, self.number, self.first, self.count)
        figures = struct.pack(">qqQQ", self.least, self.greatest, self.begins, self.ends)
        words = [self.filter >> 64 * at & 2**64 - 1 for at in range(4)] if told else []
        rest = figures + struct.pack(f">{len(words)}Q", *words)
        return (head + self.sum.to_bytes(16, "big", signed=True) + rest).ljust(SLOT, b"\0")

    def last(self) -> int:
        """Its last position."""
        return int(self.first + self.count - 1)

    def is_valid(self) -> bool:
        """Whether its fields are in range, and go together."""
        others = self.count - 1
        return bool(
            1 <= self.count <= LAST_POSITION
            and self.first >= 1
            and self.last() <= LAST_POSITION
            and self.ends <= LAST_TIME
            and self.count <= self.ends - self.begins + 1
            and (self.count > 1 or self.begins == self.ends)
            and self.least <= self.greatest
            and self.greatest + others * self.least <= self.sum <= self.least + others * self.greatest
            and self.filter & bit_of(self.least) != 0
            and self.filter & bit_of(self.greatest) != 0)

    def joined(self, newer: Self) -> Self:
        """It and the next one as one window."""
        both = object.__new__(type(self))
        both.number, both.first = self.number, self.first
        both.count, both.sum = self.count + newer.count, self.sum + newer.sum
        both.least, both.greatest = min(self.least, newer.least), max(self.greatest, newer.greatest)
        both.begins, both.ends = self.begins, newer.ends
        both.filter = self.filter | newer.filter
        return both

    def row(self) -> str:
        """Its row of `windows`."""
        figures = self.count, self.sum, self.least, self.greatest, self.begins, self.ends
        return " ".join(map(str, (self.first, self.last(), *figures)))


class Landmark:
    """The record of a landmark."""

    own: int

    def __init__(self, content: bytes) -> None:
        self.state = content[1]
        self.number, self.own, self.values, self.opens, self.closes = struct.unpack_from(">IIIQQ", content, 4)

    def spelled(self) -> bytes:
        """Its slot."""
        fields = self.number, self.own, self.values, self.opens, self.closes
        return struct.pack(">BB2xIIIQQ", 3, self.state, *fields).ljust(SLOT, b"\0")

    def is_open(self) -> bool:
        """Whether it is the open one."""
        return self.state == 1

    def is_valid(self) -> bool:
        """Whether its fields are in range, and go together."""
        if self.own < 1 or self.opens > LAST_TIME or self.closes > LAST_TIME:
            return False
        if self.is_open():
            return bool(self.values == 0 and self.closes == 0)
        return bool(self.state == 2 and self.opens <= self.closes)

    def covers(self, time: int) -> bool:
        """Whether a time lies in it."""
        return bool(self.opens <= time and (self.is_open() or time <= self.closes))


class Value:
    """The record of a value of a landmark."""

    def __init__(self, content: bytes) -> None:
        self.number, self.landmark, self.index, self.time, self.value = struct.unpack_from(
            ">IIIQq", content, 4)

    def spelled(self) -> bytes:
        """Its slot."""
        fields = self.number, self.landmark, self.index, self.time, self.value
        return struct.pack(">B3xIIIQq", 4, *fields).ljust(SLOT, b"\0")

    def is_valid(self) -> bool:
        """Whether its fields are in range."""
        return bool(self.landmark >= 1 and self.index >= 1 and self.time <= LAST_TIME)


Record = Union[Stream, Window, Landmark, Value]
KINDS: Mapping[int, type[Record]] = {1: Stream, 2: Window, 3: Landmark, 4: Value}


def record_in(content: bytes) -> Record | None:
    """The record that a slot spells, or None."""
    kind = KINDS.get(content[0])
    record = None if kind is None else kind(content)
    return record if record is not None and record.is_valid() and record.spelled() == content else None


# The conditions on each stream.


def are_ordered(windows: Sequence[Window]) -> bool:
    """Whether they hold each position from 1 on, none twice, at rising times. Sorted by their positions."""
    position, time = 1, -1
    for window in windows:
        if window.first != position or window.begins <= time:
            return False
        position, time = window.last() + 1, window.ends
    return position - 1 <= LAST_POSITION


def are_landmarks(landmarks: Sequence[Landmark]) -> bool:
    """Whether they have each number from 1 on, one after the other, and the last alone may be open."""
    closed = -1
    for place, mark in enumerate(landmarks):
        if mark.own != place + 1 or mark.opens <= closed or (mark.is_open() and place + 1 < len(landmarks)):
            return False
        closed = mark.closes
    return True


def are_values(mark: Landmark, values: Sequence[Value]) -> bool:
    """Whether these are the values of a landmark, sorted by their indexes."""
    time = mark.opens - 1
    for place, value in enumerate(values):
        if value.index != place + 1 or value.time <= time or not mark.covers(value.time):
            return False
        time = value.time
    return mark.is_open() or bool(mark.values == len(values))


def lies_free(window: Window, landmarks: Sequence[Landmark]) -> bool:
    """Whether a window has room between the landmarks."""
    if any(mark.covers(window.begins) or mark.covers(window.ends) for mark in landmarks):
        return False
    # a landmark that covers neither end lies between them or apart from them
    between = [mark for mark in landmarks if window.begins < mark.opens < window.ends]
    covered = sum(mark.closes - mark.opens + 1 for mark in between)
    return bool(window.count <= window.ends - window.begins + 1 - covered)


class Held:
    """The records of one stream number."""

    def __init__(self) -> None:
        self.streams: list[Stream] = []
        self.windows: list[Window] = []
        self.landmarks: list[Landmark] = []
        self.values: list[Value] = []

    def add(self, record: Record) -> None:
        """One more."""
        if isinstance(record, Stream):
            self.streams.append(record)
        elif isinstance(record, Window):
            self.windows.append(record)
        elif isinstance(record, Landmark):
            self.landmarks.append(record)
        else:
            self.values.append(record)

    def sort(self) -> None:
        """Each kind in its order."""
        self.windows.sort(key=lambda window: window.first)
        self.landmarks.sort(key=lambda mark: mark.own)
        self.values.sort(key=lambda value: (value.landmark, value.index))

    def is_sound(self, earlier: Sequence[bytes]) -> bool:
        """Whether the conditions are met, after stream records with these names."""
        self.sort()
        if len(self.streams) != 1 or len(earlier) >= MOST_STREAMS or self.streams[0].name in earlier:
            return False
        if self.streams[0].dropped:
            return True
        if not are_ordered(self.windows) or not are_landmarks(self.landmarks):
            return False
        if not all(self.streams[0].is_in_step(window.begins, window.ends) for window in self.windows):
            return False
        if any(value.landmark > len(self.landmarks) for value in self.values):
            return False
        of = [[value for value in self.values if value.landmark == mark.own] for mark in self.landmarks]
        return (all(map(are_values, self.landmarks, of))
                and all(lies_free(window, self.landmarks) for window in self.windows))

    def close(self) -> None:
        """Joins the windows that are due."""
        stream, closed = self.streams[0], list[Window]()
        taken = self.windows[-1].last() if self.windows else 0
        for window in self.windows:
            older = closed[-1] if closed else None
            target = stream.target_window(taken - window.last())
            if (older is not None and stream.is_in_step(older.begins, window.ends)
                    and stream.target_window(taken - older.first) == target):
                closed[-1] = older.joined(window)
            else:
                closed.append(window)
        self.windows = closed

    def row(self) -> str:
        """Its row of `list`."""
        stream = self.streams[0]
        taken = self.windows[-1].last() if self.windows else 0
        counts = taken, len(self.windows), len(self.landmarks), len(self.values)
        return " ".join([stream.name.decode(), stream.target(), *map(str, counts)])


def streams_of(image: bytes) -> Sequence[Held]:
    """The streams for which a file stands. Raises `Refused`, or `Holds`."""
    if is_formatted(image):
        return streams_in(slots_of(image))
    if any(image[FIRST_SLOT:]):
        raise Holds
    return []


def streams_in(slots: Sequence[bytes]) -> Sequence[Held]:
    """The streams for which slots in plain form stand, in order, their windows joined where they are due. One
    that is dropped doesn't count. Raises `Refused`."""
    held: dict[int, Held] = {}
    for number, content in enumerate(slots):
        if content == FREE:
            continue
        record = record_in(content)
        if record is None:
            raise Refused(f"damaged slot {number}")
        held.setdefault(record.number, Held()).add(record)
    earlier: list[bytes] = []
    for number in sorted(held):
        if not held[number].is_sound(earlier):
            raise Refused(f"damaged stream {number}")
        earlier.append(held[number].streams[0].name)
    standing = [held[number] for number in sorted(held) if not held[number].streams[0].dropped]
    for one in standing:
        one.close()
    return standing


def survey(streams: Sequence[Held]) -> str:
    """The line of a check."""
    windows, landmarks, values = (sum(counts) for counts in zip(*(
        (len(one.windows), len(one.landmarks), len(one.values)) for one in streams), strict=True)
    ) if streams else (0, 0, 0)
    return f"sound streams {len(streams)} windows {windows} landmarks {landmarks} values {values}"
