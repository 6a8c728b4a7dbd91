"""The series that scripts measure: made up, of a reading each minute and the like, and the same each time."""

import math
from itertools import accumulate

DAYS = 3652


class Series:
    """The readings of each day: what the day adds, and what the time of day takes away."""

    def __init__(self, a_day):
        self.a_day = a_day
        self.days = [500 + round(200 * math.cos(math.tau * day / 365.25)) for day in range(DAYS)]
        self.hours = [-round(150 * math.cos(math.tau * part / a_day)) for part in range(a_day)]
        self.day_sums, self.hour_sums = [0, *accumulate(self.days)], [0, *accumulate(self.hours)]

    def at(self, position):
        """The reading at a position."""
        day, part = divmod(position - 1, self.a_day)
        return self.days[day] + self.hours[part]

    def total(self, number):
        """The sum of so many readings from the first on."""
        day, part = divmod(number, self.a_day)
        whole = self.day_sums[day] * self.a_day + day * self.hour_sums[-1]
        return whole + self.hour_sums[part] + (part * self.days[day] if part else 0)

    def sum(self, first, last):
        """The sum of the readings at these positions, both included."""
        return self.total(last) - self.total(first - 1)

    def extremes(self, first, last):
        """The least and the greatest of the readings at these positions, both included."""
        day, part = divmod(first - 1, self.a_day)
        end, end_part = divmod(last - 1, self.a_day)
        if day == end:
            parts = [(self.days[day], self.hours[part:end_part + 1])]
        else:
            parts = [(self.days[day], self.hours[part:]), (self.days[end], self.hours[:end_part + 1])]
            whole = self.days[day + 1:end]
            if whole:
                parts += [(min(whole), self.hours), (max(whole), self.hours)]
        return min(of_day + min(hours) for of_day, hours in parts), max(of_day + max(hours) for of_day, hours in parts)


def looks_random(position, salt):
    """A number from 0 to 2^31 - 1 that looks random, and is the same each time."""
    x = (position * 2654435761 + salt * 40503) % 2**64
    for _ in range(2):
        x = (x ^ x >> 29) * 11400714819323198485 % 2**64
    return x >> 33


class Minutes:
    """Readings a minute that are told one by one, each by its position."""

    def __init__(self, value):
        self.value, self.known = value, {}

    def at(self, position):
        if position not in self.known:
            self.known[position] = self.value(position)
        return self.known[position]

    def sum(self, first, last):
        return sum(map(self.at, range(first, last + 1)))

    def extremes(self, first, last):
        values = [self.at(position) for position in range(first, last + 1)]
        return min(values), max(values)


SMOOTH = Series(1440)


def noisy(position):
    return SMOOTH.at(position) + looks_random(position, 1) % 201 - 100


def spiky(position):
    return 150 + 2000 * any(looks_random(position - before, 2) % 100 == 0 for before in range(3))


SHOWERS = Minutes(lambda position: looks_random(position, 3) % 1000 == 0)


def rain(position):
    falls = any(SHOWERS.at(position - before) for before in range(30))
    return 1 + looks_random(position, 4) % 20 if falls else 0


# What the series are, and the readings of each.
KINDS = (
    ("smooth: the series above", SMOOTH),
    ("noisy: the same, each reading up to 100 W more or less", Minutes(noisy)),
    ("spiky: 150 W, and in 3 of 100 minutes 2,150 W", Minutes(spiky)),
    ("rain: in 3 of 100 minutes 1 to 20, in showers of half an hour, and else 0", Minutes(rain)),
)
