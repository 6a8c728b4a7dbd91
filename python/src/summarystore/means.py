"""What the program says of means: fractions in lowest terms, and how they are shown."""

from __future__ import annotations

import re
from decimal import ROUND_CEILING, ROUND_FLOOR, ROUND_HALF_EVEN
from fractions import Fraction
from typing import NamedTuple

from .codec import Codec
from .errors import ProtocolError
from .interval import Interval
from .records import Estimate

RATIO = re.compile("(-?[0-9]+)(?:/([0-9]+))?")


class Mean(NamedTuple):
    """What a mean lies between. Where `maybe_none` holds there may be no value, and so no mean."""

    lo: Fraction
    hi: Fraction
    maybe_none: bool = False


def ratio_of(word: str) -> Fraction:
    """`N`, or `N/D` in lowest terms with a D of at least 2."""
    found = RATIO.fullmatch(word)
    ratio = Fraction(int(found[1]), int(found[2] or 1)) if found and found[2] != "0" else None
    if found is None or ratio is None or found[2] is not None and str(ratio) != word:
        raise ProtocolError(f"a fraction was to come: {word[:200]}")
    return ratio


def _ratios(text: str, count: int) -> tuple[list[Fraction], bool]:
    """So many fractions that don't fall, and whether `maybe-none` stands behind them."""
    words = text.split(" ")
    maybe_none = words[count:] == ["maybe-none"]
    found = [ratio_of(word) for word in words[:count]]
    if len(words) != count + maybe_none or found != sorted(found):
        raise ProtocolError(f"{count} fractions were to come, none below the one before: {text[:200]}")
    return found, maybe_none


def mean_of(text: str) -> Mean | None:
    """`LO HI`, `LO HI maybe-none`, or `none`."""
    if text == "none":
        return None
    (lo, hi), maybe_none = _ratios(text, 2)
    return Mean(lo, hi, maybe_none)


def guess_of(text: str) -> tuple[Mean, Fraction] | None:
    """`LO GUESS HI`, `LO GUESS HI maybe-none`, or `none`."""
    if text == "none":
        return None
    (lo, guess, hi), maybe_none = _ratios(text, 3)
    return Mean(lo, hi, maybe_none), guess


def shown(codec: Codec, mean: Mean | None) -> Interval:
    """A mean by the scale of its stream. Ends that have too many digits are rounded outwards."""
    if mean is None:
        return Interval.nothing()
    return Interval(codec.ratio_back(mean.lo, ROUND_FLOOR), codec.ratio_back(mean.hi, ROUND_CEILING),
                    maybe_none=mean.maybe_none)


def estimate_shown(codec: Codec, text: str) -> Estimate:
    """The same with the likeliest mean, which is rounded half to even. There may be none."""
    found = guess_of(text)
    if found is None:
        return Estimate(Interval.nothing(), None)
    return Estimate(shown(codec, found[0]), codec.ratio_back(found[1], ROUND_HALF_EVEN))
