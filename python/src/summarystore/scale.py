"""Values as people have them, as whole numbers of a scale, and back. Nothing goes through a float."""

from __future__ import annotations

import re
from collections.abc import Sequence
from decimal import Context, Decimal
from fractions import Fraction

from .decimals import EXACT, Number, exact, places_of, shortened
from .description import ROUNDINGS
from .errors import ScaleError
from .interval import Interval


class Scale:
    """What one step of the kept number is worth."""

    def __init__(self, scale: Number, rounding: str | None) -> None:
        self._scale = Decimal(scale)
        self._is_one = scale == 1
        self._whole = int(scale) if scale == int(scale) else None
        self._rounding = ROUNDINGS[rounding] if rounding else None
        _, digits, exponent = self._scale.normalize(EXACT).as_tuple()
        assert isinstance(exponent, int)
        # Where the scale is 0.1, 0.01, .., so many digits stand behind the point.
        self._places = -exponent if digits == (1,) and exponent <= 0 else None
        places = self._places or 0
        self._units = 10**places
        part = rf"(?:\.([0-9]{{1,{places}}}))?" if places else "(){0}"
        self._plain = re.compile(rf"(-?[0-9]{{1,40}}){part}")
        point = rf"\.[0-9]{{{places}}}" if places else ""
        self._column = re.compile(rf"(?:-?[0-9]{{1,40}}{point}\n)+")
        shorter = rf"(?:\.[0-9]{{1,{places}}})?" if places else ""
        self._shorter = re.compile(rf"(?:-?[0-9]{{1,40}}{shorter}\n)+")

    def number(self, given: object) -> int:
        """The whole number of a value."""
        if type(given) is str and self._places is not None:
            found = self._of_text(given)
            if found is not None:
                return found
        value = exact(given)
        if self._is_one and isinstance(value, int):
            return value
        count = self._counted(Decimal(value))
        whole = count.to_integral_value(context=EXACT) if self._rounding is None else \
            count.to_integral_value(rounding=self._rounding, context=Context(prec=EXACT.prec))
        if whole != count and self._rounding is None:
            raise ScaleError(f"{given} isn't a multiple of the scale {self._scale}")
        return int(whole)

    def numbers(self, texts: Sequence[str]) -> Sequence[int]:
        """The whole numbers of many texts. Those that all have the places of the scale, or fewer, are read
        at once."""
        if self._places is None:
            return list(map(self.number, texts))
        together = "\n".join(texts) + "\n"
        if self._column.fullmatch(together):
            return list(map(int, together.replace(".", "").split()))
        if not self._shorter.fullmatch(together):
            return list(map(self.number, texts))
        parted = [text.partition(".") for text in texts]
        return [int(whole + part.ljust(self._places, "0")) for whole, _, part in parted]

    def _of_text(self, text: str) -> int | None:
        """The number of plain text: digits, with at most the places of the scale behind a point."""
        found = self._plain.fullmatch(text)
        if not found:
            return None
        whole, part = found.groups()
        places = self._places or 0
        return int(whole + part.ljust(places, "0")) if part else int(whole) * self._units

    def _counted(self, value: Decimal) -> Decimal:
        """How many steps a value is. One that lies between two is told by more digits than it has."""
        if self._places is not None:
            return value.scaleb(self._places, EXACT)
        quotient, rest = EXACT.divmod(value, self._scale)
        if rest == 0:
            return quotient
        if self._rounding is None:
            raise ScaleError(f"{value} isn't a multiple of the scale {self._scale}")
        # Between two steps only the side of their middle counts: three halves of a step are enough.
        double = EXACT.compare(EXACT.multiply(EXACT.abs(rest), Decimal(2)), self._scale)
        part = Decimal("0.25") if double < 0 else Decimal("0.5") if double == 0 else Decimal("0.75")
        return EXACT.add(quotient, part.copy_sign(rest))

    def value(self, number: int) -> Number:
        """A whole number as a value."""
        if self._whole is not None:
            return number * self._whole
        if self._places is not None:
            return Decimal(number).scaleb(-self._places, EXACT)
        return EXACT.multiply(Decimal(number), self._scale)

    def ratio(self, ratio: Fraction, rounding: str) -> Number:
        """A mean of whole numbers as one of values, rounded where it has more than 12 digits more than the
        scale."""
        return shortened(ratio * Fraction(self._scale), places_of(self._scale), rounding)

    def interval(self, interval: Interval) -> Interval:
        """An interval of whole numbers as one of values."""
        if self._is_one or interval.none:
            return interval
        assert isinstance(interval.lo, int) and isinstance(interval.hi, int)
        return Interval(self.value(interval.lo), self.value(interval.hi), maybe_none=interval.maybe_none)


def decimal_places(text: str) -> int:
    """How many digits a decimal has behind its point, without zeros at its end."""
    return places_of(exact(text))
