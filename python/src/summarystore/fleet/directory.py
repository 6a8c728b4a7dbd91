"""Which names stand in which shard, as far as it is known, and that none stands in two."""

from __future__ import annotations

import asyncio
import time
from collections.abc import Mapping, Sequence
from dataclasses import dataclass

from ..server.endpoints import ApiError
from ..server.globs import matches
from ..server.many import digest_of
from .layout import Shard
from .shards import NoAnswerError, Shards, Words

MOST_KEPT = 256
SHOWN = 5
LOOKS_APART = 1.0
"""A name that isn't known has the shards looked at again, at most so often."""


@dataclass(frozen=True)
class Names:
    """The names of one shard."""

    digest: str
    names: frozenset[str]


def without_of(shard: Shard) -> Words:
    """What keeps from a shard's answers the names that aren't its own any more."""
    return [("without", pattern) for pattern in shard.without]


class Directory:
    """The names of all shards."""

    def __init__(self, shards: Shards) -> None:
        self._shards = shards
        self._known: dict[str, Names] = {}
        self._missing: dict[str, str] = {}
        self._faded: dict[str, frozenset[str]] = {}
        """Names that a replica had that doesn't answer any more, and the next hasn't yet."""
        self._apart: dict[tuple[str, frozenset[tuple[str, str]]], None] = {}
        self._looking: asyncio.Task[None] | None = None
        self._looked = 0.0

    @property
    def missing(self) -> Mapping[str, str]:
        """The shards that didn't tell their names at the last look, and why."""
        return self._missing

    def count(self, shard: Shard) -> int | None:
        """How many names a shard has."""
        found = self._known.get(shard.name)
        return None if found is None else len(found.names)

    async def look(self) -> None:
        """Asks all shards for their names. Those who ask meanwhile wait for the same look."""
        if self._looking is None or self._looking.done():
            self._looking = asyncio.get_running_loop().create_task(self._look())
        await asyncio.shield(self._looking)

    async def _look(self) -> None:
        missing: dict[str, str] = {}

        async def of_shard(shard: Shard) -> None:
            known = self._known.get(shard.name)
            try:
                found = self._known[shard.name] = await self._asked(shard, "*", known)
                self._fade(shard, known, found)
            except NoAnswerError as error:
                missing[shard.name] = error.reason
        await asyncio.gather(*map(of_shard, self._shards.shards))
        self._missing = missing
        self._looked = time.monotonic()

    def _fade(self, shard: Shard, known: Names | None, found: Names) -> None:
        """Keeps the names that are no more told while a replica doesn't answer."""
        if self._shards.all_answer(shard):
            self._faded.pop(shard.name, None)
        elif known is not None and known is not found:
            self._faded[shard.name] = (self._faded.get(shard.name, frozenset()) | known.names) - found.names

    async def _asked(self, shard: Shard, pattern: str, known: Names | None) -> Names:
        """The names of a pattern in a shard. Those that are known aren't sent again."""
        words = [("match", pattern), *without_of(shard)]
        if known is not None:
            words.append(("known", known.digest))
        body = (await self._shards.ask(shard, "/api/names", words)).body
        names, digest = body.get("names"), body.get("digest")
        if names is None and known is not None and digest == known.digest:
            return known
        if not isinstance(digest, str) or not isinstance(names, list):
            raise NoAnswerError(shard.name, f"it doesn't tell its names: {body.get('reason', '')!r}")
        return Names(digest, frozenset(map(str, names)))

    async def holder(self, name: str) -> Shard:
        """The shard that has a stream. Raises ApiError where there is none, or where there are two."""
        found = self._holders(name)
        if not found and time.monotonic() - self._looked > LOOKS_APART:
            await self.look()
            found = self._holders(name)
        if len(found) > 1:
            raise _twice({name: [shard.name for shard in found]})
        if found:
            return found[0]
        if self._missing:
            raise ApiError(503, "no_answer", f"no stream {name!r} stands in the shards that answer, and "
                                             f"these don't: {', '.join(sorted(self._missing))}", 5)
        raise ApiError(404, "unknown_stream", f"no stream {name!r} stands")

    def _holders(self, name: str) -> Sequence[Shard]:
        return [shard for shard in self._shards.shards
                if shard.name in self._known and name in self._known[shard.name].names
                or name in self._faded.get(shard.name, ())]

    async def must_be_apart(self, pattern: str, digests: Mapping[Shard, str]) -> None:
        """Raises ApiError where answers of these shards are over a name that stands in two of them."""
        key = pattern, frozenset((shard.name, digest) for shard, digest in digests.items())
        if key in self._apart:
            return
        try:
            found = await asyncio.gather(*(self._matched(shard, pattern, digest)
                                           for shard, digest in digests.items()))
        except NoAnswerError as error:
            raise ApiError(503, "no_answer", str(error), 5) from None
        must_be_apart({shard.name: names for shard, names in zip(digests, found)})
        while len(self._apart) >= MOST_KEPT:
            del self._apart[next(iter(self._apart))]
        self._apart[key] = None

    async def _matched(self, shard: Shard, pattern: str, digest: str) -> frozenset[str]:
        known = self._known.get(shard.name)
        if known is not None:
            names = known.names if pattern == "*" else \
                frozenset(name for name in known.names if matches(pattern, name))
            if digest in (known.digest, digest_of(names)):
                return names
        return (await self._asked(shard, pattern, None)).names


def must_be_apart(names: Mapping[str, frozenset[str]]) -> None:
    """Raises ApiError where a name stands in two of these shards."""
    total = sum(map(len, names.values()))
    if len(frozenset().union(*names.values())) == total:
        return
    holders: dict[str, list[str]] = {}
    for shard, found in names.items():
        for name in found:
            holders.setdefault(name, []).append(shard)
    raise _twice({name: found for name, found in sorted(holders.items()) if len(found) > 1})


def _twice(holders: Mapping[str, Sequence[str]]) -> ApiError:
    shown = "; ".join(f"{name!r} in {' and '.join(found)}" for name, found in list(holders.items())[:SHOWN])
    more = f", and {len(holders) - SHOWN} more" if len(holders) > SHOWN else ""
    return ApiError(409, "stream_twice", f"streams stand in two shards: {shown}{more}; one of the two has to "
                                         "drop it, or to have it under `without`")
