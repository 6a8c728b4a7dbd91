"""One entry `[[threshold]]` of the service's file, and what an answer says of it."""

from __future__ import annotations

import enum
from dataclasses import dataclass
from decimal import Decimal
from urllib.parse import urlsplit

from ..decimals import exact
from ..errors import NotANumberError
from ..interval import Interval
from ..kinds import KINDS, Kind, one_of
from .tables import Table

SECOND = 10**9
TOPIC = 1000


class Crossed(enum.Enum):
    """Whether a threshold is crossed. Of an interval that holds it nothing is sure."""

    UNKNOWN = "unknown"
    """Nothing was answered: there is no such stream yet, or the store isn't open."""
    NO = "no"
    MAYBE = "maybe"
    YES = "yes"


@dataclass(frozen=True)
class Threshold:
    """What is asked of a stream every so often, over which span until now, and above or below what it is
    crossed. The spans are in nanoseconds. `webhook` and `topic` are told when it surely is, and when it
    surely isn't any more."""

    name: str
    stream: str
    kind: Kind
    over: int
    every: int
    above: Decimal | None = None
    below: Decimal | None = None
    webhook: str | None = None
    topic: str | None = None

    def judge(self, answer: Interval) -> Crossed:
        """What an answer says. What may have no value surely crosses nothing."""
        if answer.none:
            return Crossed.NO
        surely = perhaps = False
        if self.above is not None:
            surely, perhaps = answer.lo > self.above, answer.hi > self.above
        if self.below is not None:
            surely, perhaps = surely or answer.hi < self.below, perhaps or answer.lo < self.below
        if surely and not answer.maybe_none:
            return Crossed.YES
        return Crossed.MAYBE if perhaps else Crossed.NO


def threshold_of(table: Table) -> Threshold:
    """One entry."""
    stream, kind = table.text("stream"), table.text("kind")
    if stream is None:
        raise table.wrong("stream", "the name of a stream is to stand here")
    if kind not in KINDS:
        raise table.wrong("kind", f"one of {', '.join(KINDS)} is to stand here, and not {kind!r}")
    above, below = _bound(table, "above"), _bound(table, "below")
    if above is None and below is None:
        raise table.wrong("above", "above or below what it is crossed is to be said")
    over, every = table.span("over", 600 * SECOND), table.span("every", 60 * SECOND)
    if over <= 0 or every < SECOND:
        raise table.wrong("every", "it is asked every second at most, over a span of more than 0")
    found = Threshold(table.text("name") or f"{kind} of {stream}", stream, one_of(kind, KINDS), over, every,
                      above, below, _webhook(table), _topic(table))
    table.end()
    return found


def _bound(table: Table, key: str) -> Decimal | None:
    text = table.decimal(key)
    try:
        return None if text is None else Decimal(exact(text))
    except NotANumberError:
        raise table.wrong(key, f"a decimal is to stand here, and not {text}") from None


def _webhook(table: Table) -> str | None:
    found = table.text("webhook")
    parts = urlsplit(found or "http://a")
    if parts.scheme not in ("http", "https") or not parts.hostname:
        raise table.wrong("webhook", "an address such as http://127.0.0.1:9000/alarm is to stand here, and "
                                     f"not {found}")
    return found


def _topic(table: Table) -> str | None:
    found = table.text("topic")
    if found is not None and (len(found) > TOPIC or any(sign in found for sign in "+#")):
        raise table.wrong("topic", f"a topic without + and # is to stand here, and not {found[:40]}")
    return found
