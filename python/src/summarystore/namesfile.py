"""The file STORE.names.json: read whole, and replaced whole or not at all."""

from __future__ import annotations

import json
import os
import stat
from collections.abc import Mapping

from .description import Description, Meter, description_of
from .errors import NamesFileError, SummaryStoreError

FORMAT = 1
Described = dict[str, tuple[str, Description]]


def read_names(file: str) -> Described:
    """The descriptions by the long names, each with its short name. None where there is no file."""
    try:
        with open(file, encoding="utf-8") as text:
            found = json.load(text)
    except FileNotFoundError:
        return {}
    except ValueError as error:
        raise NamesFileError(f"{file}: {error}; put it aside, or go back to a copy") from None
    try:
        if found["summarystore"] != FORMAT:
            raise NamesFileError(f"{file} is of a later version: {found['summarystore']}")
        return {name: entry_of(entry) for name, entry in found["streams"].items()}
    except (KeyError, TypeError, AttributeError, SummaryStoreError) as error:
        if isinstance(error, NamesFileError):
            raise
        raise NamesFileError(f"{file} doesn't hold descriptions: {error!r}") from None


def entry_of(entry: Mapping[str, object]) -> tuple[str, Description]:
    """The short name and the description of a stream, from its entry."""
    short, unit, labels = entry["name"], entry.get("unit"), entry.get("labels", {})
    scale, time, since = entry["scale"], entry["time"], entry.get("since")
    rounding = entry.get("rounding")
    for text in (short, scale, time, unit, since, rounding):
        if text is not None and not isinstance(text, str):
            raise TypeError(f"{text!r} isn't text")
    if not isinstance(short, str) or not isinstance(scale, str) or not isinstance(labels, Mapping):
        raise TypeError(f"the entry {dict(entry)!r} lacks a name, a scale or labels")
    found = description_of(scale=scale, time=_text(time), since=_text(since), unit=_text(unit),
                           labels=labels, rounding=_text(rounding), **_meter(entry.get("meter")))
    assert found is not None
    return short, found if found.meter is None else found._replace(
        meter=found.meter._replace(joins=_joins(entry.get("meter")), beside=_beside(entry.get("meter"))))


METER = ("overflow", "integrate", "rule")
"""What an entry says of a meter besides its kind, as text."""


def _meter(entry: object) -> dict[str, str | None]:
    """What an entry says of a meter."""
    if entry is None:
        return {}
    if not isinstance(entry, Mapping):
        raise TypeError(f"{entry!r} isn't a meter")
    return {"kind": _text(entry["kind"]), **{key: _text(entry.get(key)) for key in METER}}


def _beside(entry: object) -> str | None:
    return _text(entry.get("beside")) if isinstance(entry, Mapping) else None


def _joins(entry: object) -> tuple[tuple[int, int], ...]:
    joins = entry.get("joins", []) if isinstance(entry, Mapping) else []
    if not all(len(join) == 2 and all(type(number) is int for number in join) for join in joins):
        raise TypeError(f"{joins!r} aren't joins of a counter")
    return tuple((after, offset) for after, offset in joins)


def _text(value: object) -> str | None:
    return value if isinstance(value, str) else None


def write_names(file: str, described: Described, store: str) -> None:
    """Replaces the file. After a crash it is the old one or the new one, whole.

    Whoever may read or write the store may do the same with it.
    """
    streams = {name: shown(short, description) for name, (short, description) in described.items()}
    text = json.dumps({"summarystore": FORMAT, "streams": streams}, ensure_ascii=False, indent=1)
    beside = f"{file}.new"
    try:
        with open(beside, "w", encoding="utf-8") as out:
            os.fchmod(out.fileno(), stat.S_IMODE(os.stat(store).st_mode))
            out.write(text + "\n")
            out.flush()
            os.fsync(out.fileno())
        os.replace(beside, file)
    except BaseException:
        if os.path.exists(beside):
            os.unlink(beside)
        raise
    folder = os.path.dirname(file) or "."
    there = os.open(folder, os.O_RDONLY | os.O_DIRECTORY)
    try:
        os.fsync(there)
    finally:
        os.close(there)


def shown(short: str, description: Description) -> dict[str, object]:
    """The entry of a stream."""
    return {"name": short, "scale": f"{description.scale:f}" if not isinstance(description.scale, int)
            else str(description.scale), "time": description.time, "since": str(description.since),
            "unit": description.unit, "labels": dict(description.labels),
            "rounding": description.rounding, **_shown_meter(description.meter)}


def _shown_meter(meter: Meter | None) -> dict[str, object]:
    if meter is None:
        return {}
    return {"meter": {**told_of(meter), "joins": [[*join] for join in meter.joins], "beside": meter.beside}}


def told_of(meter: Meter) -> dict[str, str | None]:
    """What was told of a meter, as text."""
    overflow = None if meter.overflow is None else str(meter.overflow)
    return {"kind": meter.kind, "overflow": overflow, "integrate": meter.integrate, "rule": meter.rule}
