"""The windows of a stream that takes a reading each minute from 0 on, by their definition: over ten years, in steps or not."""

import heapq
from bisect import bisect_left, bisect_right

import numpy

from made_up import DAYS
from summarystore.targets import Target, boundaries, sizes_of

READINGS = DAYS * 1440
EMPTY_FILE, RECORD = 36864, 128     # bytes
NEVER = 2**63


class Merging:
    """The windows by a target, within steps of so many minutes, or without a step where it is 0."""

    def __init__(self, target, step):
        self.target, self.step = Target.of(target), step
        self.name = f"{target} within {step}" if step else target
        if step:
            joined = joins_in_step(self.target, step)
            self.places = sorted(range(1, step), key=joined.__getitem__)
            self.moments = [joined[place] for place in self.places]

    def ends(self, taken):
        """The positions after which a window ends when so many readings were taken, with 0 and the last."""
        if not self.step:
            return [0, *boundaries(self.target, taken), taken]
        found = []
        for first in range(0, taken, self.step):
            inside = sorted(self.places[bisect_right(self.moments, taken - first):])
            found += [first, *(first + place for place in inside if first + place < taken)]
        return [*found, taken]

    def joins(self):
        """How many pairs of windows are joined after each reading of all."""
        count = numpy.zeros(READINGS + 1, dtype=numpy.int64)
        if self.step:
            for moment in self.moments:
                count[moment::self.step] += 1
        else:       # those that are no boundary between larger ones, when the newer of the two has the age
            size = 1
            for age, larger in sizes_of(self.target, READINGS):
                count[size + size + age::size] += 1
                count[larger + size + age::larger] -= 1
                size = larger
        return count

    def standing(self):
        """How many windows stand after each reading of all."""
        return numpy.cumsum(1 - self.joins()[1:]).tolist()

    def most(self):
        """No more windows stand after all readings: by the target windows that cover these, and the steps that hold some."""
        steps = -(-READINGS // self.step) if self.step else 1
        return 2 * (self.target.cover(READINGS) + steps - 1) - 1


def joins_in_step(target, step):
    """How many readings came from the first of a step on when two windows of it are joined, for each place between two of its
    readings. Other steps have no part in it, so each step goes the same way."""
    starts, lengths, age = [], [], 0
    for number, length in target.groups():
        starts.append(age)
        lengths.append(length)
        age += number * length
        if age > READINGS:
            break
    joined, before, after, due = [NEVER] * step, [0] * (step + 1), [0] * (step + 1), []

    def plan(place, taken):
        """Notes when the windows beside a place first lie together in one target window."""
        length, age = after[place] - before[place], taken - after[place]
        group = bisect_right(starts, age) - 1
        if lengths[group] >= length:
            behind = (age - starts[group]) % lengths[group]
            first = taken if behind + length <= lengths[group] else taken + lengths[group] - behind
        else:
            group = bisect_left(lengths, length)
            if group == len(lengths):
                return
            first = after[place] + starts[group]
        heapq.heappush(due, (first, place, before[place], after[place]))

    taken = newest = 0      # the newest place
    while taken < step or due:
        taken = taken + 1 if taken < step else due[0][0]
        if 1 < taken <= step:
            before[taken - 1], after[taken - 1], newest = newest, taken, taken - 1
            plan(newest, taken)
        while due and due[0][0] <= taken:
            _, place, low, high = heapq.heappop(due)
            if joined[place] < NEVER or (before[place], after[place]) != (low, high):
                continue
            joined[place] = taken
            if place == newest:
                newest = low
            if low:
                after[low] = high
                plan(low, taken)
            if high < min(taken, step):
                before[high] = low
                plan(high, taken)
    return joined


def file_of(standing):
    """The bytes of the file that appends leave: the record of the stream, and before its pairs are joined an append takes a slot more
    than there were windows."""
    return EMPTY_FILE + RECORD * (2 + max(standing[:-1], default=0))
