"""Streams by the names that people use, and what their numbers mean.

Descriptions lie in STORE.names.json, replaced atomically. What gives the numbers their meaning also
stands in the stream's short name, so it isn't lost with that file: `slug.HASH.1e-1s` is a stream in
steps of 0.1, with times in seconds since 1970, and HASH is that of its long name.
"""

from __future__ import annotations

import base64
import datetime
import hashlib
import os
import re
import threading
import unicodedata
from collections.abc import Sequence
from decimal import Decimal

from .calendars import Calendar, Counting, calendar_of
from .clock import Clock, zone_of
from .codec import Change, Codec, PlainCodec, each_of, streams_of
from .decimals import EXACT, Number
from .description import EPOCH, Description, is_text, with_joins
from .errors import (DescriptionError, NamesFileError, StreamExistsError, StreamNameError,
                     UnknownStreamError)
from .interval import Interval
from .namesfile import Described, read_names, write_names
from .program import StorePath
from .scale import Scale
from .wire import NAME

LONGEST = 32
UNITS = {"ns": "ns", "us": "us", "ms": "ms", "s": "s", "minute": "m", "hour": "h", "day": "d"}
RESOLUTIONS = {short: long for long, short in UNITS.items()}
SHORT = re.compile(r"(.*)\.([a-z2-7]{8})\.([1-9][0-9]*)e(-?[0-9]+)(ns|us|ms|s|m|h|d)([0-9]{8})?")


class DescribedCodec:
    """Clock times and decimals of one stream."""

    def __init__(self, short: str, description: Description, zone: datetime.tzinfo | None,
                 told: set[str] | None = None) -> None:
        self.short = short
        self.description: Description | None = description
        self.told: set[str] = set() if told is None else told
        clock = self.clock = Clock(description.time, description.since, zone)
        scale = self.scale = Scale(description.scale, description.rounding)
        self.time, self.begin, self.end, self.range_of = clock.time, clock.begin, clock.end, clock.range_of
        self.step, self.now, self.time_back = clock.step, clock.now, clock.back
        self.value, self.value_back, self.ratio_back = scale.number, scale.value, scale.ratio

    def rows(self, given: Sequence[tuple[object, object]]) -> Sequence[tuple[int, int]]:
        """Times and values together."""
        times, values = [t for t, _ in given], [v for _, v in given]
        texts = [v for v in values if type(v) is str]
        counts = [t for t in times if type(t) is int]
        if len(texts) == len(counts) == len(given):     # read together
            return list(zip(counts, self.scale.numbers(texts)))
        return list(zip(map(self.time, times), map(self.value, values)))

    def interval_back(self, kind: str, interval: Interval) -> Interval:
        """A count as it is, and what is made of values in their unit."""
        return interval if kind == "count" else self.scale.interval(interval)

    def in_zone(self, zone: str | datetime.tzinfo) -> Codec:
        """The same, with times of this zone."""
        assert self.description is not None
        return DescribedCodec(self.short, self.description, zone_of(zone), self.told)

    def calendar(self, step: object) -> Calendar | None:
        """The calendar that a step asks for, of the zone that times without one have."""
        found = calendar_of(step, self.clock.zone)
        return None if found is None else found.for_counts(self.counting().step)

    def counting(self) -> Counting:
        """How it counts."""
        return Counting(*self.clock.counting())


MOST_OF_A_NAME = 100
"""So many streams had a name one after the other, at most, which all stand."""


def hash_of(name: str, number: int = 1) -> str:
    """Forty bits of a name, as eight characters that stand in a short name; others for each number."""
    text = name if number == 1 else f"{name}\0{number}"
    digest = hashlib.sha256(text.encode("utf-8")).digest()
    return base64.b32encode(digest[:5]).decode("ascii").lower()


def short_name(name: str, description: Description, number: int = 1) -> str:
    """The name of a described stream in the program, the first one that it may have or another."""
    sign, digits, exponent = Decimal(description.scale).normalize(EXACT).as_tuple()
    assert not sign and isinstance(exponent, int)
    since = "" if description.since == EPOCH else description.since.isoformat().replace("-", "")
    step = f"{''.join(map(str, digits))}e{exponent}"
    rest = f".{hash_of(name, number)}.{step}{UNITS[description.time]}{since}"
    room = LONGEST - len(rest)
    if room < 1:
        raise DescriptionError(f"the scale {description.scale} has too many digits")
    plain = unicodedata.normalize("NFKD", name.rpartition("/")[2]).encode("ascii", "ignore").decode()
    slug = re.sub(r"[^a-zA-Z0-9_-]+", "-", plain).strip("-")
    return (slug[:room] or "x") + rest


def description_in(short: str) -> tuple[str, Description] | None:
    """The hash and the description that stand in a short name, if it is one of a described stream."""
    found = SHORT.fullmatch(short)
    if not found:
        return None
    scale: Number = EXACT.scaleb(Decimal(found[3]), Decimal(found[4]))
    if found[4] == "0":
        scale = int(found[3])
    try:
        since = datetime.datetime.strptime(found[6], "%Y%m%d").date() if found[6] else EPOCH
    except ValueError:
        return None
    return found[2], Description(scale, RESOLUTIONS[found[5]], since)


class Names:
    """The streams of one store: the translator that `summarystore.open` uses."""

    lists = True

    def __init__(self, path: StorePath, zone: str | datetime.tzinfo | None = None) -> None:
        self._store = os.path.abspath(os.fsdecode(path))
        self._file = f"{self._store}.names.json"
        self._zone = zone_of(zone)
        self._writing = threading.RLock()
        """Who changes the file has it. What is asked of one stream never waits for it."""
        self._lock = threading.RLock()
        """Who looks at what is known has it, for a moment, and takes it after the other one."""
        self._described: Described = {}
        self._standing: dict[str, str] = {}
        self._lost: dict[str, str] = {}
        self._codecs: dict[str, Codec] = {}

    def learn(self, rows: Sequence[str]) -> None:
        """Takes the streams that stand. Those of whom the file knows nothing are known by their short
        names."""
        with self._writing, self._lock:
            self._described = read_names(self._file)
            for name, (short, description) in self._described.items():
                meaning = description_in(short)
                if meaning is None or meaning[1] != Description(*description[:3]):
                    raise NamesFileError(f"{self._file}: the numbers of {name} mean what {short} says, and "
                                         "not what stands beside it")
            by_short = {short: name for name, (short, _) in self._described.items()}
            self._standing, self._lost, self._codecs = {}, {}, {}
            for row in streams_of(rows):
                name = self._standing[row.name] = by_short.get(row.name, row.name)
                found = description_in(row.name)
                if found and name == row.name:      # its long name isn't known
                    self._lost[found[0]] = name
                    self._described.setdefault(name, (name, found[1]))
            # A file that is older than its store: what stands is right.
            for name in [name for name, (short, _) in self._described.items()
                         if short not in self._standing and hash_of(name) in self._lost]:
                del self._described[name]

    def codec(self, name: str) -> Codec:
        """That of a stream. One that isn't described takes and gives whole numbers."""
        found = self._codecs.get(name) if isinstance(name, str) else None
        if found is None:
            self._find_again(name)
            with self._lock:
                found = self._known(name, self._described)
                if found is None:
                    raise UnknownStreamError("UNKNOWN", name)
                self._codecs[name] = found
        return found

    def _known(self, name: str, described: Described) -> Codec | None:
        """None where a name that the program doesn't take isn't described."""
        if not isinstance(name, str) or not is_text(name):
            raise StreamNameError("NAME", repr(name), "a name is text")
        if name not in described:
            return PlainCodec(name, self._standing) if NAME.fullmatch(name) else None
        short, description = described[name]
        return DescribedCodec(short, description, self._zone)

    def _find_again(self, name: str) -> None:
        """The long name of a stream whose description was lost is used again."""
        if not self._lost or not isinstance(name, str) or not is_text(name) or name in self._described:
            return
        with self._writing:
            lost = self._hash_of_lost(name)
            if lost is None:
                return
            short = self._lost[lost]
            described = dict(self._described)
            described[name] = short, described.pop(short)[1]
            with self._lock:
                del self._lost[lost]
                self._standing[short] = name
                self._codecs.pop(short, None)
            self._write(described)

    def _hash_of_lost(self, name: str) -> str | None:
        """The hash of the stream that had a name last, where what was described of it is lost."""
        found = None
        for number in range(1, MOST_OF_A_NAME):
            known = hash_of(name, number)
            if known not in self._lost:
                break
            found = known
        return found

    def declare(self, name: str, description: Description | None) -> Codec:
        """Keeps a description before the stream is made. That of one that stands stays."""
        return self._kept(Change(name, description))

    def describe(self, name: str, description: Description) -> None:
        """Changes the unit, the labels or the rounding of a stream. Its numbers keep their meaning."""
        self._kept(Change(name, description, stands=True))

    def _kept(self, change: Change) -> Codec:
        found, = self.keep([change])
        if isinstance(found, Exception):
            raise found
        return found

    def keep(self, changes: Sequence[Change]) -> Sequence[Codec | Exception]:
        """Keeps how streams are read, by one write. Where nothing is new nothing is written."""
        for change in changes:
            self._find_again(change.name)
        with self._writing:
            described = dict(self._described)
            found = each_of(lambda change: (self._changed if change.stands else self._declared)(
                change, described), changes)
            self._write(described)
            with self._lock:
                for change, codec in zip(changes, found):
                    if not isinstance(codec, Exception):
                        self._codecs[change.name] = codec
            return found

    def _declared(self, change: Change, described: Described) -> Codec:
        """Puts a stream that is to be made among those that are described."""
        name, description, _ = change
        known = self._known(name, described)
        if known is not None and known.short in self._standing:
            return known
        if description is None and NAME.fullmatch(name) and description_in(name) is None:
            described.pop(name, None)
            return PlainCodec(name, self._standing)
        wanted = description or Description()
        codec = DescribedCodec(self._free_short(name, wanted), wanted, self._zone)
        described[name] = codec.short, wanted
        return codec

    def _changed(self, change: Change, described: Described) -> Codec:
        """Changes how a stream that stands is described."""
        name, description, _ = change
        found = self._known(name, described)
        if found is None:
            raise UnknownStreamError("UNKNOWN", name)
        if found.description is None or description is None:
            raise DescriptionError(f"{name} isn't described")
        if description[:3] != found.description[:3]:
            raise DescriptionError(f"the scale and the times of {name} can't be changed")
        description = with_joins(description, found.description)
        described[name] = found.short, description
        return DescribedCodec(found.short, description, self._zone)

    def _write(self, described: Described) -> None:
        """Writes descriptions, and knows them when they are written."""
        if described != self._described:
            write_names(self._file, described, self._store)
            self._described = described

    def _free_short(self, name: str, description: Description) -> str:
        """A short name that no stream has: streams that were renamed keep theirs."""
        for number in range(1, MOST_OF_A_NAME):
            short = short_name(name, description, number)
            if short not in self._standing:
                return short
        raise DescriptionError(f"the short names of {name} are those of other streams")

    def rename(self, name: str, new: str) -> None:
        """Gives a described stream another long name. Its short name stays."""
        self._find_again(new)
        with self._writing:
            if self.codec(name).description is None:
                raise DescriptionError(f"{name} isn't described, so its name is that of the program")
            known = self._known(new, self._described)
            if known is not None and known.short in self._standing:
                raise StreamExistsError("EXISTS", new)
            kept = dict(self._described)
            kept[new] = kept.pop(name)
            self._write(kept)
            with self._lock:
                self._standing[kept[new][0]] = new
                self._codecs.pop(name, None)
                self._codecs.pop(new, None)

    def made(self, name: str, codec: Codec) -> None:
        """The stream was made."""
        with self._lock:
            self._standing[codec.short] = name

    def unmade(self, name: str, codec: Codec) -> None:
        """The stream couldn't be made. One of that name may stand, and stays described then.

        The file isn't written for that: a description without its stream does no harm in it.
        """
        with self._lock:
            if codec.short not in self._standing:
                self._codecs.pop(name, None)
                self._described.pop(name, None)

    def removed(self, name: str) -> None:
        """The stream was dropped."""
        with self._writing:
            with self._lock:
                codec = self._codecs.pop(name, None)
                if codec is not None:
                    self._standing.pop(codec.short, None)
            self._write({each: found for each, found in self._described.items() if each != name})

    def name_of(self, short: str) -> str:
        """The name that people use."""
        with self._lock:
            return self._standing.get(short, short)

    def keep_joins(self, name: str, joins: Sequence[tuple[int, int]]) -> None:
        """Brings the joins of a counter to the disk."""
        description = self.codec(name).description
        assert description is not None and description.meter is not None
        meter = description.meter._replace(joins=tuple(joins))
        self.describe(name, description._replace(meter=meter))
