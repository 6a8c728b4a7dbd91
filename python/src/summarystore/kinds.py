"""The kinds of answers, as types and as what an error lists."""

from __future__ import annotations

from collections.abc import Sequence
from typing import Literal, TypeVar, cast, get_args

from .errors import KindError

Kind = Literal["count", "sum", "min", "max", "mean", "increase", "integral", "time_mean"]
"""What `query` and `series` answer."""
Estimated = Literal["count", "sum", "mean"]
"""What has a likeliest number, and certificates."""
End = Literal["lo", "hi"]

KINDS: Sequence[Kind] = get_args(Kind)
ESTIMATED: Sequence[Estimated] = get_args(Estimated)
ENDS: Sequence[End] = get_args(End)
T = TypeVar("T", bound=str)


def one_of(given: object, words: Sequence[T], what: str = "kind") -> T:
    """A word that is one of these. Raises KindError, which lists them, where it is none."""
    if given not in words:
        raise KindError("SYNTAX", repr(given)[:80], f"the {what} is one of {', '.join(words)}")
    return cast(T, given)
