"""Tells every damaged slot and entry of a store's file, plain or checked, and what an older copy repairs.

The whole file is read, by a second reader of its format, and nothing is written to it. Of a damaged slot is
said what its own bytes read as, of a damaged entry which slots they name, and neither has to be true. Of a
stream that is damaged is said which positions, landmarks and values are missing, and the times of the windows
before and after. With a COPY is said of which slots it has a record that fits between those that are left.
With --into a new file is written: the store with these records in their slots. No program may write to the
store meanwhile. The status is 0 where nothing is damaged, 1 where something is, and 2 where a file can't be
read or is no store.
"""

from __future__ import annotations

import argparse
import struct
import sys
from collections.abc import Iterable, Iterator, Mapping, Sequence

from .storefile import (ENTRIES, ENTRY, ENTRY_SIZE, FIRST_SLOT, FREE, OPEN, PUT, SLOT, SLOTS, Refused,
                        entry_at, is_checked, is_formatted, puts_of, slot_at, slot_count, slot_with_checksum)
from .storerecords import (Held, Landmark, Record, Stream, Value, Window, lies_free, record_in, streams_of,
                           survey)

NAMES = {1: "the record", 2: "a window", 3: "a landmark", 4: "a value of a landmark"}
Span = tuple[int, int]


class UnreadableError(Exception):
    """What can't be read as a store, and why."""


class Scan:
    """What a file has: the numbers of its damaged entries, its slots in plain form, the entry that put a slot
    last, if one did, and the records by stream. Of the entries after a damaged one it isn't asked how far the
    slots reach."""

    def __init__(self, image: bytes) -> None:
        self.image = image
        self.entries: list[int] = []
        self.slots = [slot_at(image, number) for number in range(slot_count(image))]
        self.puts: dict[int, int] = {}
        self.damaged: list[int] = []
        self.held: dict[int, Held] = {}
        self._take_entries()
        self._take_records()

    def _take_entries(self) -> None:
        for number in range(ENTRIES):
            if self.image[ENTRY + ENTRY_SIZE * number] != OPEN:
                break
            found = puts_of(entry_at(self.image, number), SLOTS if self.entries else len(self.slots))
            if found is None:
                self.entries.append(number)
            for slot, content in found[0] if found else []:
                self.slots += [FREE] * (slot + 1 - len(self.slots))
                self.slots[slot], self.puts[slot] = content, number

    def _take_records(self) -> None:
        for number, content in enumerate(self.slots):
            record = None if content == FREE else record_in(content)
            if record is not None:
                self.held.setdefault(record.number, Held()).add(record)
            elif content != FREE:
                self.damaged.append(number)

    def unsound(self) -> Sequence[int]:
        """The numbers of the streams that don't meet the conditions."""
        earlier: list[bytes] = []
        numbers = []
        for number in sorted(self.held):
            if not self.held[number].is_sound(earlier):
                numbers.append(number)
            earlier += [stream.name for stream in self.held[number].streams]
        return numbers

    def named(self, number: int) -> str:
        """A stream's number, with its name where its record is there."""
        streams = self.held[number].streams if number in self.held else []
        return f"stream {number}" + (f" {streams[0].name.decode()}" if streams else "")


def read(path: str) -> bytes | None:
    """A file's bytes, if it is a formatted store; None if it isn't formatted yet and holds nothing."""
    try:
        with open(path, "rb") as file:
            image = file.read()
        if is_formatted(image):
            return image
    except (OSError, Refused) as why:
        raise UnreadableError(f"{path}: {why}") from why
    if any(image[FIRST_SLOT:]):
        raise UnreadableError(f"{path}: isn't formatted, but holds something")
    return None


# What is missing of a stream.


def gaps(windows: Sequence[Window]) -> Iterator[tuple[int, int, Window | None, Window]]:
    """The positions that no window has, up to the last one that has any: the first and the last, and the
    windows on both sides."""
    before, position = None, 1
    for window in windows:
        if window.first > position:
            yield position, window.first - 1, before, window
        before, position = window, window.last() + 1


def _missing_windows(held: Held) -> Iterator[str]:
    for first, last, before, after in gaps(held.windows):
        start = f"after the time {before.ends} and " if before else ""
        yield (f"the positions {first} to {last}, {last - first + 1} values, {start}before the time "
               f"{after.begins}")


def _missing_values(mark: Landmark, values: Sequence[Value]) -> Iterator[str]:
    """What is missing of a landmark's values, sorted by their indexes."""
    there = {value.index for value in values}
    most = max([*there, 0 if mark.is_open() else mark.values])
    if len(there) < most:
        end = "" if mark.is_open() else f" to {mark.closes}"
        yield (f"{most - len(there)} of {most} values of the landmark {mark.own}, from the time {mark.opens}"
               f"{end}")


def absent(numbers: Iterable[int], most: int) -> Iterator[Span]:
    """The numbers from 1 to `most` that aren't among these, in runs: the first and the last of each."""
    before = 0
    for number in [*sorted(set(numbers)), most + 1]:
        if number > before + 1:
            yield before + 1, number - 1
        before = number


def _missing_landmarks(held: Held) -> Iterator[str]:
    there = [mark.own for mark in held.landmarks]
    most = max([*there, *(value.landmark for value in held.values)], default=0)
    for first, last in absent(there, most):
        yield f"the landmark {first}" if first == last else f"the landmarks {first} to {last}"
    for mark in held.landmarks:
        yield from _missing_values(mark, [value for value in held.values if value.landmark == mark.own])


def missing(held: Held) -> Iterator[str]:
    """What is missing of a stream, a line each. Its records are sorted."""
    if not held.streams:
        yield "its own record, with its name and target"
    yield from _missing_windows(held)
    yield from _missing_landmarks(held)


# Whether a record of the copy fits.


def _fits_between(records: Mapping[int, Span], place: int, begins: int, ends: int) -> bool:
    """Whether one at this place, with these times, comes between its neighbours, and nothing has the place.
    Of each of them there is its first and its last time."""
    before = [other for other in records if other < place]
    after = [other for other in records if other > place]
    return (place not in records and (not before or records[max(before)][1] < begins)
            and (not after or ends < records[min(after)][0]))


def _fits_window(held: Held, window: Window) -> bool:
    windows = {one.first: (one.begins, one.ends) for one in held.windows}
    last = max((one.last() for one in held.windows), default=0)
    is_inside = any(first <= window.first and window.last() <= end for first, end, _, _ in gaps(held.windows))
    is_in_step = all(stream.is_in_step(window.begins, window.ends) for stream in held.streams)
    return ((is_inside or window.first == last + 1) and is_in_step and lies_free(window, held.landmarks)
            and _fits_between(windows, window.first, window.begins, window.ends))


def _fits_landmark(held: Held, mark: Landmark) -> bool:
    marks = {one.own: (one.opens, one.closes) for one in held.landmarks}
    last = max([*marks, *(value.landmark for value in held.values)], default=0)
    if mark.is_open() and mark.own < last:
        return False
    return (mark.own <= last + 1 and _fits_between(marks, mark.own, mark.opens, mark.closes)
            and all(lies_free(window, [mark]) for window in held.windows))


def _fits_value(held: Held, value: Value) -> bool:
    marks = [mark for mark in held.landmarks if mark.own == value.landmark]
    values = {one.index: (one.time, one.time) for one in held.values if one.landmark == value.landmark}
    return (bool(marks) and marks[0].covers(value.time)
            and (marks[0].is_open() or value.index <= marks[0].values)
            and _fits_between(values, value.index, value.time, value.time))


def fits(scan: Scan, record: Record) -> bool:
    """Whether a record fits among those of the store that are left."""
    held = scan.held.get(record.number, Held())
    if isinstance(record, Stream):
        names = [stream.name for one in scan.held.values() for stream in one.streams]
        return not held.streams and record.name not in names
    if isinstance(record, Window):
        return _fits_window(held, record)
    return _fits_landmark(held, record) if isinstance(record, Landmark) else _fits_value(held, record)


def repairs(scan: Scan, copy: Scan) -> Mapping[int, Record]:
    """The damaged slots for which the copy has a record that fits, each with the record. One that an entry
    puts isn't among them."""
    found: dict[int, Record] = {}
    for number in scan.damaged:
        content = copy.slots[number] if number < len(copy.slots) else FREE
        record = None if content == FREE else record_in(content)
        if record is not None and number not in scan.puts and fits(scan, record):
            found[number] = record
            held = scan.held.setdefault(record.number, Held())
            held.add(record)
            held.sort()
    return found


def repaired(image: bytes, found: Mapping[int, Record]) -> bytes:
    """The file with these records in their slots."""
    made = bytearray(image)
    for number, record in found.items():
        at, content = FIRST_SLOT + SLOT * number, record.spelled()
        made[at:at + SLOT] = slot_with_checksum(number, content) if is_checked(image) else content
    return bytes(made)


# What is said.


def _reading(scan: Scan, number: int) -> str:
    """What the bytes of a damaged slot read as, in words."""
    content = scan.slots[number]
    (stream,) = struct.unpack_from(">I", content, 4)
    if content[0] not in NAMES or stream not in scan.held:
        return "its bytes don't tell a stream"
    text = f"its bytes read as {NAMES[content[0]]} of {scan.named(stream)}"
    windows = scan.held[stream].windows
    if content[0] == 2 and windows and not any(gaps(windows)):
        text += (f", which has no gap before the position {windows[-1].last() + 1}, after the time "
                 f"{windows[-1].ends}")
    return text


def _naming(scan: Scan, number: int) -> str:
    """Which slots a damaged entry names, in words."""
    entry = entry_at(scan.image, number)
    places = range(2, 2 + PUT * min(entry[1], 4), PUT)
    slots = [int.from_bytes(entry[at:at + 4], "big") for at in places]
    return "its bytes name the slots " + " ".join(map(str, slots)) if slots else "its bytes name no slot"


def _described(scan: Scan, record: Record) -> str:
    """A record that would repair, in words."""
    stream = scan.named(record.number)
    if isinstance(record, Stream):
        return stream
    if isinstance(record, Window):
        return (f"{stream}, the positions {record.first} to {record.last()}, {record.count} values from "
                f"{record.begins} to {record.ends}")
    if isinstance(record, Landmark):
        return f"{stream}, the landmark {record.own} from {record.opens}"
    return f"{stream}, value {record.index} of the landmark {record.landmark} at {record.time}"


def damage(scan: Scan) -> Iterator[str]:
    """What is damaged, a line each."""
    unsound = scan.unsound()
    yield from (f"damaged entry {number}: {_naming(scan, number)}" for number in scan.entries)
    for number in scan.damaged:
        put = f"; entry {scan.puts[number]} puts them" if number in scan.puts else ""
        yield f"damaged slot {number}: {_reading(scan, number)}{put}"
    for number in unsound:
        yield f"damaged {scan.named(number)}"
        lines = list(missing(scan.held[number])) or ["nothing is missing, but its records don't go together"]
        yield from (f"  missing: {line}" for line in lines)


def _told_repairs(scan: Scan, found: Mapping[int, Record]) -> Iterator[str]:
    """Of each damaged slot whether the copy repairs it, a line each."""
    for number in scan.damaged:
        if number in found:
            yield f"the copy repairs slot {number}: {_described(scan, found[number])}"
        else:
            yield f"the copy doesn't repair slot {number}"


def scrub(store: str, copy: str | None = None, into: str | None = None) -> tuple[bool, Sequence[str]]:
    """Whether something is damaged, and what is to be said of it."""
    image, older = read(store), None if copy is None else read(copy)
    scan = None if image is None else Scan(image)
    lines = [] if scan is None else list(damage(scan))
    if image is None or scan is None or not lines:
        return False, [survey([] if image is None else streams_of(image))]
    found = {} if older is None else repairs(scan, Scan(older))
    lines += [] if older is None else _told_repairs(scan, found)
    return True, [*lines, *([] if into is None else _kept(into, repaired(image, found)))]


def _kept(path: str, image: bytes) -> Sequence[str]:
    """Writes a new file, and says what it is."""
    try:
        with open(path, "xb") as file:
            file.write(image)
    except OSError as why:
        raise UnreadableError(f"{path}: {why}") from why
    return [f"written {path}", *(list(damage(Scan(image))) or [survey(streams_of(image))])]


def main(words: Sequence[str] | None = None) -> int:
    """The command `summarystore-scrub`."""
    parser = argparse.ArgumentParser("summarystore-scrub", description=__doc__,
                                     formatter_class=argparse.RawDescriptionHelpFormatter)
    parser.add_argument("store", metavar="STORE", help="the file of a store")
    parser.add_argument("copy", metavar="COPY", nargs="?", help="an older copy of it")
    parser.add_argument("--into", metavar="NEW", help="a new file for what the copy repairs")
    given = parser.parse_args(words)
    try:
        is_damaged, lines = scrub(given.store, given.copy, given.into)
    except UnreadableError as why:
        print(f"summarystore-scrub: {why}", file=sys.stderr)
        return 2
    print("\n".join(lines))
    return int(is_damaged)


if __name__ == "__main__":
    sys.exit(main())
