"""What a mapping says: which names are its own, and which streams they are."""

from __future__ import annotations

import datetime
from collections.abc import Mapping as Words
from dataclasses import dataclass, field

from ..description import Description, description_of
from ..errors import DescriptionError
from .globs import Glob

SOURCES = ("http", "influx", "graphite", "mqtt", "prometheus")
"""Where a reading comes from: JSON, line protocol, Graphite's lines, a broker, or remote_write."""

SHOWS = ("sum", "increase", "mean", "state")
"""What the page draws of a stream: sums or rises as bars, means, or a timeline of states."""

IGNORE = "ignore"
"""What stands in `words` for a word that isn't kept."""

__all__ = ["IGNORE", "SHOWS", "SOURCES", "Description", "Mapping", "described"]


@dataclass(frozen=True)
class Mapping:
    """One entry `[[mapping]]`.

    A name is its own where it matches `match`, comes from `source` if one is given, and has the tags
    that `tags` lists. `stream` is the name of the stream, with `{1}`, `{2}`, .. for what the stars
    stood for, `{name}` for all of the name and `{room}` for the tag `room`. Without it the stream has
    the name that came, with its tags behind it. `words` are numbers for words such as ON, and IGNORE
    for those that aren't kept. `json` is where the value stands in a message that is JSON, as
    `sensors.0.temperature`, and `json_time` where its time stands, if it has one. With `ignore` what is
    its own isn't kept, and that is no refusal. A reading waits `lateness` nanoseconds for earlier ones.
    `time_told`: the file says how fine times are. `restart` is the name of the stream that takes the readings
    of one whose newest time lies ahead of the clock, with `{stream}` for the name of that one. `shows` is
    what the page draws of its streams.
    """

    match: Glob
    source: str | None = None
    tags: Words[str, Glob] = field(default_factory=dict)
    stream: str | None = None
    target: str = "power 1 1 4 1"
    within: int | None = None
    description: Description = Description()
    words: Words[str, str] = field(default_factory=dict)
    json: str | None = None
    json_time: str | None = None
    ignore: bool = False
    lateness: int = 0
    time_told: bool = True
    restart: str | None = None
    shows: str | None = None


def described(scale: object | None, time: str | None, since: object | None, unit: str | None,
              labels: Words[str, str], rounding: str | None, kind: str | None = None,
              overflow: object | None = None, integrate: str | None = None, rule: str | None = None
              ) -> Description:
    """The description of the streams of a mapping. A network has clock times, so there is always one."""
    if since is not None and not isinstance(since, (str, datetime.date)):
        raise DescriptionError(f"a day is written as 1958-01-01: {since}")
    found = description_of(scale=scale, time=time or "s", since=since, unit=unit, labels=labels or None,
                           rounding=rounding, kind=kind, overflow=overflow, integrate=integrate, rule=rule)
    assert found is not None
    return found
