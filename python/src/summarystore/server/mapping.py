"""Which stream a reading belongs to, by the name that it came with; and the names that have none."""

from __future__ import annotations

import re
from collections.abc import Mapping as Words
from collections.abc import Sequence
from dataclasses import dataclass

from .settings import Mapping

_PLACE = re.compile(r"\{([^{}]*)\}")
_TAGS = re.compile(r",[^/]*")


@dataclass(frozen=True, slots=True)
class Route:
    """The stream of a name, and the mapping that says so. Without a mapping the stream has to stand."""

    stream: str
    mapping: Mapping | None = None


def full_name(name: str, tags: Words[str, str]) -> str:
    """A name with its tags, as `weather,room=attic/temperature` for the name `weather/temperature`."""
    if not tags:
        return name
    head, separator, rest = name.partition("/")
    told = "".join(f",{key}={tags[key]}" for key in sorted(tags))
    return f"{head}{told}{separator}{rest}"


class Mappings:
    """The entries `[[mapping]]` of a file, in order. The first that matches a reading has it."""

    def __init__(self, mappings: Sequence[Mapping]) -> None:
        self.mappings = mappings
        self._routes: dict[tuple[str, tuple[tuple[str, str], ...], str], Route | None] = {}
        self._forms = [_form_of(mapping.stream) for mapping in mappings]
        self._made: dict[str, Mapping | None] = {}

    def route(self, name: str, tags: Words[str, str], source: str) -> Route | None:
        """The stream of a reading. None where nothing matches it."""
        key = name, tuple(sorted(tags.items())), source
        if key in self._routes:
            return self._routes[key]
        found = next(iter(self._routes_of(name, tags, source, False)), None)
        if len(self._routes) >= MOST_KEPT:
            self._routes.clear()
        self._routes[key] = found
        return found

    def of_stream(self, stream: str) -> Mapping | None:
        """The first mapping that may have made a stream of this name. None where none may."""
        if stream not in self._made:
            if len(self._made) >= MOST_KEPT:
                self._made.clear()
            may = (mapping for mapping, form in zip(self.mappings, self._forms)
                   if _may_make(mapping, form, stream))
            self._made[stream] = next(may, None)
        return self._made[stream]

    def json_routes(self, name: str, source: str) -> Sequence[Route]:
        """The streams of a message that is JSON: one for each mapping with `json` that matches."""
        return self._routes_of(name, {}, source, True)

    def _routes_of(self, name: str, tags: Words[str, str], source: str, json: bool) -> list[Route]:
        found = []
        for mapping in self.mappings:
            if (mapping.json is not None) == json:
                stream = stream_of(mapping, name, tags, source)
                if stream is not None:
                    found.append(Route(stream, mapping))
        return found


MOST_KEPT = 10_000
"""So many routes are kept. Then it begins anew."""


def _form_of(template: str | None) -> re.Pattern[str] | None:
    """The names that a template of streams gives. None where there is no template."""
    if template is None:
        return None
    texts = _PLACE.split(template)[::2]
    return re.compile(".+".join(map(re.escape, texts)), re.DOTALL)


def _may_make(mapping: Mapping, form: re.Pattern[str] | None, stream: str) -> bool:
    """Whether a mapping gives this name to a stream: by its template, or to a name that it matches, which may
    have tags behind it."""
    if mapping.ignore:
        return False
    if form is not None:
        return form.fullmatch(stream) is not None
    return any(mapping.match.match(name) is not None for name in (stream, _TAGS.sub("", stream, 1)))


def stream_of(mapping: Mapping, name: str, tags: Words[str, str], source: str) -> str | None:
    """The stream's name by one mapping. None where it doesn't match."""
    if mapping.source is not None and mapping.source != source:
        return None
    for key, glob in mapping.tags.items():
        if key not in tags or glob.match(tags[key]) is None:
            return None
    captured = mapping.match.match(name)
    if captured is None:
        return None
    if mapping.stream is None:
        return full_name(name, tags)
    places = {**tags, "name": name, **{str(at): text for at, text in enumerate(captured, 1)}}
    try:
        return _PLACE.sub(lambda place: places[place[1]], mapping.stream)
    except KeyError:
        return None     # the template asks for a tag that the reading doesn't have


@dataclass
class Unmatched:
    """A name that no mapping matches: how often it came, from where, and when last (ns since 1970)."""

    name: str
    source: str
    count: int = 0
    last: int = 0


class UnmatchedNames:
    """The names that matched nothing: the first of them one by one, and all of them counted."""

    def __init__(self, most: int) -> None:
        self._most = most
        self._names: dict[tuple[str, str], Unmatched] = {}
        self.count = 0
        """How many readings matched nothing."""
        self.unlisted = 0
        """How many of them had a name that isn't listed, since the list is full."""

    def add(self, name: str, source: str, now: int) -> bool:
        """Counts a reading. Whether its name is new to the list."""
        self.count += 1
        found = self._names.get((name, source))
        new = found is None
        if found is None:
            if len(self._names) >= self._most:
                self.unlisted += 1
                return False
            found = self._names[name, source] = Unmatched(name, source)
        found.count += 1
        found.last = now
        return new

    def list(self) -> Sequence[Unmatched]:
        """Those that are listed, the most frequent first."""
        return sorted(self._names.values(), key=lambda each: -each.count)

    def clear(self) -> None:
        """Begins anew, since the mapping was read anew."""
        self._names.clear()
        self.count = self.unlisted = 0
