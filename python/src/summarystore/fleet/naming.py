"""The long names of streams, as they go with frames.

A stream's short name says its scale and its times. What STORE.names.json says besides, the long name, the
unit, labels and the rounding, goes with each message of its frames, and whether it was renamed. So a name
comes with the first frame that uses the short one, and as often as frames do. A follower has it in a names
file of its own before it acknowledges them.
"""

from __future__ import annotations

import json
import logging
import os
from collections.abc import Iterable, Mapping

from ..description import Description, description_of, is_text
from ..errors import SummaryStoreError
from ..names import description_in, hash_of
from ..namesfile import METER, Described, read_names, told_of, write_names
from ..program import StorePath
from .errors import NameRefusedError

log = logging.getLogger("summarystore.fleet")
LONGEST = 3500
"""What has more bytes isn't carried: all that goes with a message has to fit into the least frame of AMQP."""


class SentNames:
    """What goes with the frames of a sender's streams, by what its names file says at the time."""

    def __init__(self, store: StorePath) -> None:
        self._file = f"{os.fsdecode(store)}.names.json"
        self._seen: tuple[int, int, int] | None = None
        self._texts: dict[str, str] = {}

    def look(self) -> None:
        """Reads the file, where it is another one than before."""
        try:
            found = os.stat(self._file)
            seen = found.st_mtime_ns, found.st_ino, found.st_size
        except FileNotFoundError:
            seen = None
        if seen != self._seen:
            self._seen = seen
            self._texts = {short: _text_of(name, short, description)
                           for name, (short, description) in read_names(self._file).items()}

    def text(self, short: str) -> str:
        """What goes with the frames of a stream. Where it has no long name that is empty."""
        return self._texts.get(short, "")


def _text_of(name: str, short: str, description: Description) -> str:
    """What goes with a stream. Where its long name was lost, or all of it is too long, nothing does."""
    given: dict[str, object] = {
        "name": name, "unit": description.unit, "labels": dict(description.labels),
        "rounding": description.rounding, **_meter_of(description)}
    if not _is_made_of(short, name):
        given["renamed"] = True
    text = json.dumps({key: value for key, value in given.items() if value not in (None, {})})
    if len(text) > LONGEST:
        log.error("name not carried: stream=%s name=%.99s reason=it takes more than %d bytes with its labels",
                  short, name, LONGEST)
    return text if name != short and len(text) <= LONGEST else ""


def _meter_of(description: Description) -> dict[str, str | None]:
    """The kind of the readings. How they were joined is the edge's alone."""
    meter = description.meter
    return {} if meter is None else {**told_of(meter), "beside": meter.beside}


class TakenNames:
    """The names file of a follower."""

    def __init__(self, store: str) -> None:
        self._store = store
        self._file = f"{store}.names.json"
        self._described = read_names(self._file)
        self._texts: dict[str, str] = {}
        self._streams: set[str] = set()
        self.refused: dict[str, str] = {}
        """The streams that go on by their short names, since what came can't be theirs, with the reason."""

    def stand(self, names: Iterable[str]) -> None:
        """Is told which streams stand: what is the name of one can't be the long name of another."""
        self._streams.update(names)

    def news(self, came: Iterable[tuple[str, str]]) -> Mapping[str, str]:
        """What came with frames of streams, without what came before. What is empty is news where the
        stream's own name is the long name of another."""
        found = {}
        for short, text in came:
            self._streams.add(short)
            if self._texts.get(short) != text and (text or _stream_of(self._described, short) != short):
                found[short] = text
        return found

    def keep(self, news: Mapping[str, str]) -> None:
        """Brings news to the disk. What can't be the name of its stream is told."""
        described = dict(self._described)
        refused: dict[str, str] = {}
        for short, text in news.items():
            try:
                if text:
                    self._put(described, short, *_named_in(short, text))
                elif _stream_of(described, short) != short:
                    refused[described.pop(short)[0]] = f"{short!r} is another stream"
            except SummaryStoreError as error:
                refused[short] = str(error)
        if described != self._described:
            write_names(self._file, described, self._store)
        self._described = described
        self._texts.update(news)
        self.refused = {short: why for short, why in self.refused.items() if short not in news} | refused
        for short, why in refused.items():
            log.error("name not taken: stream=%s reason=%s", short, why)

    def _put(self, described: Described, short: str, name: str, description: Description) -> None:
        """Puts a name among those that are known. A name has one stream, and a stream has one name: the one
        that came last, since it may be renamed."""
        if name in self._streams or _stream_of(described, name) not in (name, short):
            raise NameRefusedError(f"{name!r} is another stream")
        for known in [each for each, (told, _) in described.items() if told == short and each != name]:
            del described[known]
        described[name] = short, description


def _stream_of(described: Described, name: str) -> str:
    """The stream that has this long name, or else the one of this name."""
    return described[name][0] if name in described else name


def _is_made_of(short: str, name: str) -> bool:
    """Whether a short name is made of a long one. That of a stream that was renamed isn't."""
    meaning = description_in(short)
    return meaning is not None and meaning[0] == hash_of(name)


def _named_in(short: str, text: str) -> tuple[str, Description]:
    """The long name and the description of a stream. Raises where what came doesn't say them."""
    try:
        found = json.loads(text)
        name, unit, labels, rounding = map(found.get, ("name", "unit", "labels", "rounding"))
        given = description_of(unit=unit, labels=labels, rounding=rounding, kind=found.get("kind"),
                               **{key: found.get(key) for key in METER}) or Description()
        if isinstance(found.get("beside"), str) and given.meter is not None:
            given = given._replace(meter=given.meter._replace(beside=found["beside"]))
    except (ValueError, TypeError, AttributeError, RecursionError, SummaryStoreError) as error:
        raise NameRefusedError(f"no name: {error}") from None
    meaning, renamed = description_in(short), found.get("renamed") is True
    if not isinstance(name, str) or not is_text(name) or meaning is None or not (
            renamed or _is_made_of(short, name)):
        raise NameRefusedError(f"{short} isn't the short name of {name!r}")
    return name, given._replace(scale=meaning[1].scale, time=meaning[1].time, since=meaning[1].since)
