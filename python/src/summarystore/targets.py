"""Targets: the lengths of their windows by age, and the windows that stand after so many values.

docs/DEFINITIONS.md has the definitions ("Targets", "Boundaries"). What is here by a closed form is
proved of each target (docs/CONTRACTS.md, ss_laws).
"""

from __future__ import annotations

from bisect import bisect_right
from collections.abc import Callable, Iterator, Sequence
from itertools import count
from typing import NamedTuple

MOST_VALUES = 1 << 40
LEAST_BASE, GREATEST_BASE = 2, 16
LEAST_POWER, GREATEST_POWER = 1, 4
GREATEST_GROWTH = 3
GREATEST = 65536
"""Of how many windows a group has, R, and of the length of the first ones, S."""


def power_sum(exponent: int, last: int) -> int:
    """The sum of j to this power, for j from 1 to the last."""
    n, next_, twice = last, last + 1, 2 * last + 1
    return (n, n * next_ // 2, n * next_ * twice // 6, (n * next_ // 2) ** 2,
            n * next_ * twice * (3 * n * n + 3 * n - 1) // 30,
            n * n * next_ * next_ * (2 * n * n + 2 * n - 1) // 12,
            n * next_ * twice * (3 * n**4 + 6 * n**3 - 3 * n + 1) // 42)[exponent]


def least(holds: Callable[[int], bool]) -> int:
    """The least whole number from 0 on of which this holds, and with it of all greater ones."""
    high = 1
    while not holds(high):
        high *= 2
    low = high // 2 if high > 1 else 0      # it doesn't hold of this, or this is 0
    while low < high:
        middle = (low + high) // 2
        if holds(middle):
            high = middle
        else:
            low = middle + 1
    return low


class Target(NamedTuple):
    """A target as `create` takes it: `exp B R S` or `power P Q R S`. Its groups count from 0 here."""

    family: str
    numbers: tuple[int, ...]

    @classmethod
    def of(cls, text: str) -> Target:
        """The target that a text spells."""
        family, *words = text.split()
        found = cls(family, tuple(map(int, words)))
        if len(words) != {"exp": 3, "power": 4}.get(family) or not found.is_in_range:
            raise ValueError(f"not a target: {text}; write exp B R S or power P Q R S")
        return found

    @property
    def is_in_range(self) -> bool:
        """Whether the program takes these numbers."""
        *shape, repeat, scale = self.numbers
        least_, most = ((LEAST_BASE,), (GREATEST_BASE,)) if self.family == "exp" else \
            ((LEAST_POWER, 0), (GREATEST_POWER, GREATEST_GROWTH))
        return all(low <= number <= high for low, number, high in zip(least_, shape, most)) \
            and 1 <= repeat <= GREATEST and 1 <= scale <= GREATEST

    def __str__(self) -> str:
        return " ".join([self.family, *map(str, self.numbers)])

    def groups(self) -> Iterator[tuple[int, int]]:
        """The groups of target windows, the newest first: how many, and of what length."""
        return ((self.repeated(group), self.length(group)) for group in count())

    def repeated(self, group: int) -> int:
        """How many windows a group has."""
        if self.family == "exp":
            return self.numbers[1]
        power, _, repeat, _ = self.numbers
        return int(repeat * (group + 1) ** (power - 1))

    def length(self, group: int) -> int:
        """How long its windows are."""
        if self.family == "exp":
            base, _, scale = self.numbers
            return int(scale * base**group)
        _, growth, _, scale = self.numbers
        return int(scale * (group + 1) ** growth)

    def start(self, group: int) -> int:
        """How many values lie in the groups before it."""
        if self.family == "exp":
            base, repeat, scale = self.numbers
            return int(repeat * scale * (base**group - 1) // (base - 1))
        power, growth, repeat, scale = self.numbers
        return repeat * scale * power_sum(power - 1 + growth, group)

    def windows_before(self, group: int) -> int:
        """How many windows lie in the groups before it."""
        if self.family == "exp":
            return self.numbers[1] * group
        power, _, repeat, _ = self.numbers
        return repeat * power_sum(power - 1, group)

    def group_at(self, age: int) -> int:
        """The group that holds an age."""
        return least(lambda group: self.start(group + 1) > age)

    def length_at(self, age: int) -> int:
        """How long the target window is that holds an age: by the definition."""
        return self.length(self.group_at(age))

    def cover(self, values: int) -> int:
        """How many target windows cover so many values: by the definition."""
        if values == 0:
            return 0
        group = self.group_at(values - 1)
        return self.windows_before(group) + (values - 1 - self.start(group)) // self.length(group) + 1

    def most_windows(self, values: int, steps: int = 1) -> int:
        """No more windows than these stand after so many values, nor after fewer, where their times lie in
        no more steps of `within` than these: one more for each step. Without it they lie in one."""
        return max(0, 2 * self.cover(values) + min(steps, values) - 2)

    def length_by_form(self, age: int) -> int:
        """No target window at this age is longer: by the closed form."""
        if self.family == "exp":
            base, repeat, scale = self.numbers
            return (base - 1) * age // repeat + scale
        power, growth, repeat, scale = self.numbers
        both = power + growth
        return int(scale * least(lambda g: repeat * scale * int(g**both) > both * age) ** growth)

    def cover_by_form(self, values: int) -> int:
        """No more target windows cover so many values: by the closed form."""
        if self.family == "exp":
            base, repeat, scale = self.numbers
            return repeat * least(
                lambda g: (base - 1) * values <= repeat * scale * (int(base**g) - 1))
        power, growth, repeat, scale = self.numbers
        both = power + growth
        return int(repeat * least(lambda g: repeat * scale * int(g**both) >= both * values) ** power)


def sizes_of(target: Target, values: int) -> Sequence[tuple[int, int]]:
    """How windows grow with age: the age at which they grow, and the size that they have then.

    Windows that stand side by side have one size. They are joined, two or more, where the first target
    window begins that has room for two, as many as it has room for; and again at the next one that has
    room for two of these.
    """
    age, size = 0, 1
    grown: list[tuple[int, int]] = []
    for number, length in target.groups():
        if age >= values:
            break
        if length >= 2 * size:
            size *= length // size
            grown.append((age, size))
        age += number * length
    return grown


def boundaries(target: Target, values: int) -> Sequence[int]:
    """The positions after which a window ends, by how windows grow."""
    ends: list[int] = []
    size = 1
    for age, larger in [*sizes_of(target, values), (values, values)]:
        # A boundary between two windows that grow together stays until the newer of them has that age.
        first = max(values - size - age + 1, 1)
        ends += [p for p in range(first + -first % size, values, size) if p % larger]
        size = larger
    return sorted(ends)


def defined_boundaries(target: Target, values: int, steps: Sequence[int] | None = None) \
        -> Iterator[Sequence[int]]:
    """The boundaries after each count of values, by the definition: what stands side by side in one
    target window is joined, where it lies in one step too. The steps are those of the values."""
    starts = [0]
    for number, length in target.groups():
        starts += [starts[-1] + length * i for i in range(1, number + 1)]
        if starts[-1] > values:
            break
    ends: list[int] = []
    for now in range(1, values + 1):
        tried, ends, first = ends + [now - 1] * (now > 1), [], 1
        for at, end in enumerate(tried):
            last = tried[at + 1] if at + 1 < len(tried) else now
            apart = steps is not None and steps[first - 1] != steps[last - 1]
            if apart or bisect_right(starts, now - first) != bisect_right(starts, now - last):
                ends.append(end)
                first = end + 1
        yield ends
