"""One question to all shards, and what their answers say together."""

from __future__ import annotations

import asyncio
from collections.abc import Mapping, Sequence
from dataclasses import dataclass, field
from decimal import Decimal

from .. import combining
from ..combining import Part
from ..decimals import Number
from ..interval import Interval
from ..server.answers import ends_of
from ..server.endpoints import ApiError
from .directory import without_of
from .layout import Shard
from .shards import Answer, NoAnswerError, Shards, Words

HEADER = "Summarystore-Partial"
Body = Mapping[str, object]


class MisspeltError(ValueError):
    """An answer of a shard that doesn't say what it should."""


@dataclass
class Gathered:
    """The answers of those shards that have one, and why the others have none."""

    bodies: dict[Shard, Body] = field(default_factory=dict)
    missing: dict[str, str] = field(default_factory=dict)
    as_of: list[Decimal] = field(default_factory=list)
    """The moments that answers of followers are as of."""
    behind: list[str] = field(default_factory=list)
    """Those whose answer is as of a moment that lies too far back."""
    without: list[Shard] = field(default_factory=list)
    """Those that have no such stream."""

    @property
    def partial(self) -> bool:
        """Whether a shard is missing, or too far behind."""
        return bool(self.missing or self.behind)

    def told(self) -> dict[str, object]:
        """What an answer says of it."""
        found: dict[str, object] = {"partial": self.partial, "missing": sorted(self.missing)}
        if self.behind:
            found["behind"] = sorted(self.behind)
        if self.as_of:
            found["as_of"] = min(self.as_of)
        return found

    def headers(self) -> Mapping[str, str]:
        """The header that says so."""
        return {HEADER: ", ".join(sorted([*self.missing, *self.behind]))} if self.partial else {}

    def must_have_some(self) -> None:
        """Raises ApiError where no shard answers."""
        if self.partial and not self.bodies and not self.without:
            reasons = "; ".join(self.missing.values())[:1000]
            raise ApiError(503, "no_answer", f"no shard answers: {reasons}", 5)

    def unit(self) -> object:
        """The unit that all answers have."""
        units = {body.get("unit") for body in self.bodies.values()}
        return units.pop() if len(units) == 1 else None

    def matched(self) -> int:
        """Over how many streams the answers are."""
        return sum(_whole(body.get("matched")) for body in self.bodies.values())


async def gather(shards: Shards, path: str, words: Words, seconds: float) -> Gathered:
    """Asks all shards. A shard without such streams has no part in the answer.

    Where one refuses the question it is refused: ApiError is raised.
    """
    tasks = {shard: asyncio.ensure_future(shards.ask(shard, path, [*words, *without_of(shard)]))
             for shard in shards.shards}
    try:
        await asyncio.wait(tasks.values(), timeout=seconds)
    finally:
        for task in tasks.values():
            task.cancel()
    gathered = Gathered()
    refused = [error for shard, task in tasks.items()
               if (error := _take(shards, gathered, shard, task)) is not None]
    if refused:
        raise refused[0]
    return gathered


def _take(shards: Shards, gathered: Gathered, shard: Shard, task: asyncio.Future[Answer]) -> ApiError | None:
    """Adds what a shard said, or that it didn't. Gives its refusal, where the question is refused."""
    if not task.done() or task.cancelled():
        gathered.missing[shard.name] = f"{shard.name}: no answer in time"
        return None
    error = task.exception()
    if error is not None:
        reason = error.reason if isinstance(error, NoAnswerError) else repr(error)
        gathered.missing[shard.name] = f"{shard.name}: {reason}"
        return None
    answer = task.result()
    if answer.status >= 400 and answer.status != 404:
        return refusal(shard, answer)
    if answer.as_of is not None:
        gathered.as_of.append(answer.as_of)
    if shards.behind(answer.as_of) is not None:
        gathered.behind.append(shard.name)
    if answer.status < 400:
        gathered.bodies[shard] = answer.body
    else:
        gathered.without.append(shard)
    return None


def refusal(shard: Shard, answer: Answer) -> ApiError:
    """What a shard refused, for the client."""
    return ApiError(answer.status, str(answer.body.get("error", "refused")),
                    f"{shard.name}: {answer.body.get('reason', '')}")


def part_of(kind: str, told: object) -> Part:
    """The part that an answer of a shard is, or a row of one."""
    if not isinstance(told, Mapping):
        raise MisspeltError("no object")
    if kind != "mean":
        return {kind: interval_of(told)}
    parts = told.get("parts")
    if not isinstance(parts, Mapping):
        raise MisspeltError("no parts of a mean")
    found = {each: interval_of(parts.get(each)) for each in combining.FIGURES}
    if "mean" not in parts:     # of a service that is older
        return {**found, "mean": combining.mean_of_figures(found)}
    return {**found, "mean": interval_of(parts["mean"])}


def interval_of(told: object) -> Interval:
    """An interval, as it is answered."""
    if not isinstance(told, Mapping):
        raise MisspeltError("no interval")
    if told.get("none") is True:
        return Interval.nothing()
    lo, hi = _number(told.get("lo")), _number(told.get("hi"))
    if lo > hi:
        raise MisspeltError("the ends of an interval are out of order")
    return Interval(lo, hi, maybe_none=told.get("maybe_none") is True)


def _number(told: object) -> Number:
    if isinstance(told, bool) or not isinstance(told, (int, Decimal)):
        raise MisspeltError("no number where one is to stand")
    return told


def _whole(told: object) -> int:
    return told if isinstance(told, int) else 0


def parts_of(kind: str, gathered: Gathered) -> Sequence[Part]:
    """The part of each shard. One that says none is missing."""
    found = []
    for shard, body in list(gathered.bodies.items()):
        try:
            found.append(part_of(kind, body))
        except MisspeltError as error:
            _drop(gathered, shard, error)
    return found


def rows_of(kind: str, count: int, gathered: Gathered) -> Sequence[Sequence[Part]]:
    """The parts of each shard, one for each row. One that says no such rows is missing."""
    found = []
    for shard, body in list(gathered.bodies.items()):
        rows = body.get("rows")
        try:
            if not isinstance(rows, list) or len(rows) != count:
                raise MisspeltError("other rows than were asked for")
            found.append([part_of(kind, row) for row in rows])
        except MisspeltError as error:
            _drop(gathered, shard, error)
    return found


def _drop(gathered: Gathered, shard: Shard, error: MisspeltError) -> None:
    del gathered.bodies[shard]
    gathered.missing[shard.name] = f"{shard.name}: its answer is misspelt: {error}"


NO_ENDS: Body = {"lo": None, "hi": None, "mid": None, "exact": False, "none": False, "maybe_none": False}


def ends(kind: str, part: Part, partial: bool) -> dict[str, object]:
    """The answer. Where shards are missing it has no ends: what the others say stands apart."""
    found = ends_of(combining.answer(kind, part))
    return {**NO_ENDS, "answered": found} if partial else found


def without_ends(body: Body) -> dict[str, object]:
    """The answer of a shard that is too far behind: its ends stand apart, as do those of its rows."""
    told = dict(body)
    rows = body.get("rows")
    if isinstance(rows, list):
        told["rows"] = [without_ends(row) for row in rows if isinstance(row, Mapping)]
    if "exact" in body:
        told.update(NO_ENDS, answered={key: body[key] for key in NO_ENDS if key in body})
    return told
