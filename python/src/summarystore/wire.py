"""Lines and replies of the program's mode `sessions`, without any input or output.

A command is a text without its session; `tagged` puts the session before it. Replies are heads with
their rows, without the session. All numbers are whole ones.
"""

from __future__ import annotations

import re
from collections.abc import Iterable, Sequence
from dataclasses import dataclass
from itertools import chain
from typing import NamedTuple, Protocol, Self

from .decimals import is_truth_value
from .errors import CommandError, NumberError, ProtocolError, StreamNameError, refusal_of
from .interval import Interval, Presence
from .records import Soundness, Stored, Stream

SESSIONS = 8
LONGEST_LINE = 256
LONGEST_SENT = 1000
"""The most characters of a line that is sent to be refused: a pipe takes each line at once."""
LAST_TIME = 2**62
SHOWN = 100
"""How much of what was given is shown in an error."""
LEAST_VALUE, GREATEST_VALUE = -2**63, 2**63 - 1
MOST_ROWS = 1000
"""The most rows that one `cursor next` gives."""

WORD = re.compile(r"[!-~]+")
COMMAND = re.compile(r"[ \t]*[^\s#][^\r\n]*")
"""A line that has a reply: words, and no comment."""
NAME = re.compile(r"[a-zA-Z0-9_.-]{1,32}")
INTEGER = re.compile(r"-?[0-9]+")
SOUND = re.compile("sound streams ([0-9]+) windows ([0-9]+) landmarks ([0-9]+) values ([0-9]+)")
# Heads whose last word says how many rows follow, and how many for each.
_ROWS = {"series": 1, "values": 1, "windows": 1, "list": 1, "rows": 1, "estimates": 1, "certify": 2}


# ---- commands ---------------------------------------------------------------------------


FORMS = {"exp": 4, "power": 5}
"""How many words each kind of target has."""
NO_TARGET = "a target is `exp B R S`, as `exp 2 60 1`, or `power P Q R S`, as `power 1 1 4 1`"


def name_word(name: str) -> str:
    """A name as one word of a line. What would be several words, or end the line, is refused here."""
    if not WORD.fullmatch(name):
        raise StreamNameError("NAME", repr(name))
    return name


def whole(value: object) -> int:
    """A whole number as Python has them, also numpy's. No text, no float and no truth value.

    One of more than 64 bits, which the program would refuse, is refused here: it may be longer than a
    line, and than what Python writes out.
    """
    if type(value) is not int:
        index = getattr(value, "__index__", None)
        if index is None or is_truth_value(value) or getattr(value, "ndim", False):
            raise NumberError("NUMBER", repr(value)[:SHOWN], "a whole number is needed")
        value = int(index())
    if value.bit_length() > 64:
        raise NumberError("NUMBER", f"a number of {value.bit_length()} bits")
    return value


def create(name: str, target: str | Sequence[object], within: int | None = None) -> str:
    """`create NAME TARGET within E`, with TARGET such as `exp 2 60 1` or ("power", 1, 1, 4, 1)."""
    words = target.split() if isinstance(target, str) else [str(word) for word in target]
    form = words[:-2] if within is None and words[-2:-1] == ["within"] else words
    if not form or len(form) != FORMS.get(form[0]) or not all(WORD.fullmatch(word) for word in words):
        raise CommandError("SYNTAX", f"create {name} {target}", NO_TARGET)
    end = "" if within is None else f" within {whole(within)}"
    return f"create {name_word(name)} {' '.join(words)}{end}"


def append(name: str, time: int, value: int) -> str:
    """`append NAME T V`."""
    return f"append {name_word(name)} {whole(time)} {whole(value)}"


class Lines(Protocol):
    """Commands that go together, before they are lines of a session."""

    def lines(self, session: int) -> bytes:
        """The tagged lines, each with its line end."""

    def line(self, at: int) -> str:
        """One of them, without its session."""

    def and_more(self, others: Sequence[Self]) -> Self:
        """The same with others of its kind behind it."""


@dataclass(frozen=True)
class Readings:
    """Readings of one stream as whole numbers: of each its time, and then its value."""

    name: str
    numbers: Sequence[int]

    def lines(self, session: int) -> bytes:
        """The tagged lines, each with its line end."""
        form = f"@{session} append {self.name}".replace("%", "%%") + " %d %d\n"
        return (form * (len(self.numbers) // 2) % tuple(self.numbers)).encode("ascii")

    def line(self, at: int) -> str:
        """The line of one of them."""
        return f"append {self.name} {self.numbers[2 * at]} {self.numbers[2 * at + 1]}"

    def and_more(self, others: Sequence[Readings]) -> Readings:
        """The same with others behind it."""
        return Readings(self.name, [number for each in (self, *others) for number in each.numbers])


@dataclass(frozen=True)
class Paired:
    """Readings of a time, a value and an increment. Each goes behind that of its increment, which goes to
    the first of two streams."""

    names: tuple[str, str]
    rows: Sequence[tuple[int, int, int]]

    def lines(self, session: int) -> bytes:
        """The tagged lines, two for each, with their line ends."""
        beside, name = (f"@{session} append {each}" for each in self.names)
        return "".join([f"{beside} {time} {added}\n{name} {time} {value}\n"
                        for time, value, added in self.rows]).encode("ascii")

    def line(self, at: int) -> str:
        """One of the lines."""
        time, value, added = self.rows[at // 2]
        return f"append {self.names[at % 2]} {time} {value if at % 2 else added}"

    def and_more(self, others: Sequence[Paired]) -> Paired:
        """The same with others behind it."""
        return Paired(self.names, [row for each in (self, *others) for row in each.rows])


def readings(name: str, rows: Sequence[tuple[int, int]]) -> Readings:
    """Rows of a time and a value, of which each is two whole numbers."""
    if len(name_word(name)) > LONGEST_SENT:
        raise refusal_of("LINE", f"append {name[:LONGEST_LINE]}..")
    numbers = _plain(rows)
    if numbers is None:     # one by one, so that the row that isn't two whole numbers is told
        numbers = [number for time, value in rows for number in (whole(time), whole(value))]
    return Readings(name, numbers)


def paired(names: tuple[str, str], rows: Sequence[tuple[int, int, int]]) -> Paired:
    """Rows of a time, a value and an increment, for two streams."""
    return Paired((name_word(names[0]), name_word(names[1])), rows)


def _plain(rows: Sequence[tuple[int, int]]) -> Sequence[int] | None:
    """The numbers of rows that surely are pairs of `int` of 64 bits, one after the other."""
    if set(map(type, rows)) - {tuple, list} or set(map(len, rows)) - {2}:
        return None
    found = tuple(chain.from_iterable(rows))
    if set(map(type, found)) - {int}:
        return None
    return found if -2**64 < min(found, default=0) and max(found, default=0) < 2**64 else None


def landmark_open(name: str, time: int) -> str:
    """`landmark NAME open T`."""
    return f"landmark {name_word(name)} open {whole(time)}"


def landmark_close(name: str, time: int) -> str:
    """`landmark NAME close T`."""
    return f"landmark {name_word(name)} close {whole(time)}"


def drop(name: str) -> str:
    """`drop NAME`."""
    return f"drop {name_word(name)}"


def query(name: str, kind: str, first: int, last: int) -> str:
    """`query NAME KIND T1 T2`."""
    return f"query {name_word(name)} {kind} {whole(first)} {whole(last)}"


def has(name: str, value: int, first: int, last: int) -> str:
    """`query NAME has V T1 T2`."""
    return f"query {name_word(name)} has {whole(value)} {whole(first)} {whole(last)}"


def series(name: str, kind: str, first: int, last: int, step: int) -> str:
    """`series NAME KIND T1 T2 STEP`."""
    return f"series {name_word(name)} {kind} {whole(first)} {whole(last)} {whole(step)}"


def estimate(name: str, kind: str, first: int, last: int) -> str:
    """`estimate NAME KIND T1 T2`."""
    return f"estimate {name_word(name)} {kind} {whole(first)} {whole(last)}"


def estimates(name: str, kind: str, first: int, last: int, step: int) -> str:
    """`estimates NAME KIND T1 T2 STEP`."""
    return f"estimates {name_word(name)} {kind} {whole(first)} {whole(last)} {whole(step)}"


def certify(name: str, kind: str, end: str, first: int, last: int) -> str:
    """`certify NAME KIND END T1 T2`."""
    return f"certify {name_word(name)} {kind} {end} {whole(first)} {whole(last)}"


def windows(name: str) -> str:
    """`windows NAME`."""
    return f"windows {name_word(name)}"


def last(name: str) -> str:
    """`last NAME`."""
    return f"last {name_word(name)}"


def values(name: str, first: int, last_time: int) -> str:
    """`values NAME T1 T2`."""
    return f"values {name_word(name)} {whole(first)} {whole(last_time)}"


def cursor_open(name: str) -> str:
    """`cursor open NAME`."""
    return f"cursor open {name_word(name)}"


def cursor_next(count: int) -> str:
    """`cursor next C`."""
    return f"cursor next {whole(count)}"


LIST = "list"
NOTHING = "nothing"
"""A line that the program refuses, whatever stands: its reply says that all before it were taken."""
CURSOR_CLOSE = "cursor close"


def tagged(session: int, lines: Iterable[str]) -> bytes:
    """Commands as the lines of a session, each with its line end."""
    return "".join([f"@{session} {line}\n" for line in lines]).encode("utf-8")


# ---- replies ----------------------------------------------------------------------------


class Reply(NamedTuple):
    """The reply to one line: its head, and its rows where it has some."""

    head: str
    rows: Sequence[str] = ()


def rows_after(head: str) -> int:
    """How many rows follow the head of a reply."""
    first, _, rest = head.partition(" ")
    each = _ROWS.get(first, 0)
    return each * _integer(rest.rpartition(" ")[2], head) if each else 0


def _integer(word: str, line: str) -> int:
    if not INTEGER.fullmatch(word):
        raise ProtocolError(f"not a reply of the program: {line[:200]}")
    return int(word)


def numbers(text: str, count: int) -> list[int]:
    """So many whole numbers with a blank between two."""
    words = text.split(" ")
    if len(words) != count:
        raise ProtocolError(f"{count} numbers were to come: {text[:200]}")
    return [_integer(word, text) for word in words]


def after(head: str, first: str) -> str:
    """The head of a reply behind its first word."""
    word, _, rest = head.partition(" ")
    if word != first:
        raise ProtocolError(f"a reply `{first}` was to come: {head[:200]}")
    return rest


def stored_of(reply: Reply) -> Stored:
    """`ok N K`."""
    return Stored(*numbers(after(reply.head, "ok"), 2))


def interval_of(text: str) -> Interval:
    """`LO HI`, `LO HI maybe-none` or `none`."""
    if text == "none":
        return Interval.nothing()
    words = text.split(" ")
    maybe_none = words[2:] == ["maybe-none"]
    if len(words) != 2 + maybe_none:
        raise ProtocolError(f"an interval was to come: {text[:200]}")
    return Interval(_integer(words[0], text), _integer(words[1], text), maybe_none=maybe_none)


def estimate_of(text: str) -> tuple[Interval, int]:
    """`LO GUESS HI`."""
    lo, guess, hi = numbers(text, 3)
    if not lo <= guess <= hi:
        raise ProtocolError(f"a number between two was to come: {text[:200]}")
    return Interval(lo, hi), guess


def presence_of(reply: Reply) -> Presence:
    """`has absent`, `has present` or `has maybe`."""
    word = after(reply.head, "has")
    if word not in ("absent", "present", "maybe"):
        raise ProtocolError(f"a reply `has` was to come: {reply.head[:200]}")
    return Presence(word)


def rows_of(reply: Reply, first: str) -> Sequence[str]:
    """The rows of a reply that begins with this word."""
    if rows_after(reply.head) != len(reply.rows):
        raise ProtocolError(f"rows are missing: {reply.head[:200]}")
    after(reply.head, first)
    return reply.rows


def stream_of(row: str) -> Stream:
    """`NAME TARGET N K L M`, where `within E` may end TARGET. Its name is the program's own."""
    words = row.split(" ")
    if len(words) < 7:
        raise ProtocolError(f"a row of `list` was to come: {row[:200]}")
    target, within = words[1:-4], None
    if target[-2:-1] == ["within"]:
        within = _integer(target[-1], row)
        target = target[:-2]
    values, windows_, landmarks, marked = (_integer(word, row) for word in words[-4:])
    return Stream(words[0], " ".join(target), within, values, windows_, landmarks, marked, words[0])


def soundness_of(text: str) -> Soundness:
    """`sound streams S windows W landmarks L values V`."""
    found = SOUND.fullmatch(text.rstrip("\n"))
    if not found:
        raise ProtocolError(f"the line of a check was to come: {text[:200]}")
    return Soundness(*(int(word) for word in found.groups()))
