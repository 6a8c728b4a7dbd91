"""One entry `[[mapping]]` of the service's file."""

from __future__ import annotations

import re
from collections.abc import Mapping as Words
from dataclasses import replace
from decimal import Decimal

from ..errors import SummaryStoreError
from ..gauges import gauge_of, must_stand_alone
from ..wire import NO_TARGET
from .globs import Glob, GlobError
from .settings import IGNORE, SHOWS, SOURCES, Description, Mapping, described
from .tables import Table

TARGET = "power 1 1 4 1"
HOUR = 3600 * 10**9
FINE = "ms"
"""How finely times are kept that are the service's: messages come in bursts."""
TARGETS = re.compile(r"exp( [0-9]{1,19}){3}|power( [0-9]{1,19}){4}")
PLACE_OF_STREAM = "{stream}"
PLACE = re.compile(r"\{([^{}]*)\}")


def mapping_of(table: Table) -> Mapping:
    """One entry `[[mapping]]`."""
    match = table.text("match")
    if match is None:
        raise table.wrong("match", "a pattern of names is to stand here")
    glob = _glob(table, "match", match)
    source = table.text("source")
    if source is not None and source not in SOURCES:
        raise table.wrong("source", f"one of {', '.join(SOURCES)} is to stand here, and not {source!r}")
    tags = {key: _glob(table, "tags", pattern) for key, pattern in table.words("tags").items()}
    json, json_time = table.text("json"), table.text("json_time")
    if json_time is not None and json is None:
        raise table.wrong("json_time", "there is no time of a message without `json`")
    found = Mapping(glob, source, tags, _stream(table, glob), table.text("target") or TARGET,
                    table.whole("within", 1, 2**32 - 1), _description(table), _words(table), json, json_time,
                    table.truth("ignore"), table.span("lateness", 0), restart=_restart(table))
    found = replace(_timed(found, "time" in table), shows=_shows(table))
    table.end()
    if found.lateness > HOUR:
        raise table.wrong("lateness", "a reading waits an hour at most")
    if not TARGETS.fullmatch(found.target):
        raise table.wrong("target", f"{NO_TARGET}, and not {found.target!r}")
    if gauge_of(found.description) is not None:
        try:
            must_stand_alone(found.target)
        except SummaryStoreError as error:
            raise table.wrong("target", str(error)) from None
    return found


def _glob(table: Table, key: str, pattern: str) -> Glob:
    try:
        return Glob(pattern)
    except GlobError as error:
        raise table.wrong(key, str(error)) from None


def _stream(table: Table, glob: Glob) -> str | None:
    """The template of the stream's name, each of whose places is one that the pattern has."""
    template = table.text("stream")
    for place in PLACE.findall(template or ""):
        if place.isdigit() and place not in map(str, range(1, glob.captures + 1)):
            raise table.wrong("stream", f"{{{place}}}: the pattern has {glob.captures} stars")
        if not place:
            raise table.wrong("stream", "{}: a place is {1}, {name} or the name of a tag")
    if template and re.search(r"[{}]", PLACE.sub("", template)):
        raise table.wrong("stream", f"a brace has no other: {template!r}")
    return template


def _restart(table: Table) -> str | None:
    """The name of a stream in the place of another."""
    found = table.text("restart")
    if found is not None and (found == PLACE_OF_STREAM or found.count(PLACE_OF_STREAM) != 1):
        raise table.wrong("restart", f"a name such as \"{PLACE_OF_STREAM}~2\" is to stand here, and not "
                                     f"{found!r}")
    return found


def _shows(table: Table) -> str | None:
    """What the page draws."""
    shows = table.text("shows")
    if shows is not None and shows not in SHOWS:
        raise table.wrong("shows", f"one of {', '.join(SHOWS)} is to stand here, and not {shows!r}")
    return shows


def _timed(mapping: Mapping, is_told: bool) -> Mapping:
    """A mapping whose times are fine enough where none is told and they are the service's."""
    is_fine = mapping.words or mapping.json_time is None and (mapping.json or mapping.source == "mqtt")
    if is_told or not is_fine or mapping.within is not None:
        return replace(mapping, time_told=is_told)
    return replace(mapping, description=mapping.description._replace(time=FINE))


def _description(table: Table) -> Description:
    scale, time, since = table.decimal("scale"), table.text("time"), table.take("since")
    unit, labels, rounding = table.text("unit"), table.words("labels"), table.text("rounding")
    kind, overflow = table.text("kind"), table.decimal("overflow")
    integrate, rule = table.text("integrate"), table.text("rule")
    try:
        return described(scale, time, since, unit, labels, rounding, kind, overflow, integrate, rule)
    except SummaryStoreError as error:
        raise table.wrong("scale, time, since, rounding, kind, overflow, integrate or rule", str(error)
                          ) from None


def _words(table: Table) -> Words[str, str]:
    """The numbers that words such as ON stand for."""
    given = table.take("words")
    if given is None:
        return {}
    words = Table("", "", given) if isinstance(given, dict) else None
    if words is None or not isinstance(given, dict):
        raise table.wrong("words", "a table is to stand here, such as { ON = 1, OFF = 0 }")
    found = {}
    for word, number in given.items():
        if number != IGNORE and (isinstance(number, bool) or not isinstance(number, (int, Decimal))):
            raise table.wrong("words", f"a number, or {IGNORE!r}, is to stand at {word!r}")
        found[word] = str(number)
    return found
