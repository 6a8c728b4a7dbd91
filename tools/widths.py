"""How wide the sum of a range is, where the time of each reading is its position, so that each count is exact."""

from bisect import bisect_left


def windows_at(ends, first, last):
    """The windows that hold the ends of a range, each by its first and last position. `ends` are the positions after which a window
    ends, with 0 and the last position."""
    places = {bisect_left(ends, position) for position in (first, last)}
    return [(ends[at - 1] + 1, ends[at]) for at in sorted(places)]


def interval(series, windows, first, last):
    """The least and the greatest that the sum of a range can be, where these windows hold its ends."""
    least_sum = greatest_sum = series.sum(first, last)
    for begin, end in windows:
        low, high = max(begin, first), min(end, last)
        inside, outside = high - low + 1, low - begin + end - high
        if outside:
            here, whole = series.sum(low, high), series.sum(begin, end)
            least, greatest = series.extremes(begin, end)
            least_sum += max(inside * least, whole - outside * greatest) - here
            greatest_sum += min(inside * greatest, whole - outside * least) - here
    return least_sum, greatest_sum
