"""What the pictures of tools/plot share: numbers and times as they are read and written, round marks, and an SVG in the making."""

import math
from datetime import datetime, timedelta
from xml.sax.saxutils import escape

WIDTH = 960  # of a plot, without what stands round it
LINE = 22
STYLE = "text{font:13px sans-serif;fill:#333}.title{font-weight:bold}.grid{stroke:#ddd}"


class Mistake(Exception):
    """Something that was given is wrong."""


def numbers(words, what):
    try:
        return [int(word) for word in words]
    except ValueError:
        raise Mistake(f"{what}: not a whole number") from None


def readings_of(text, file):
    """The times and the values of a file, a pair a line, with a comma, a semicolon or blanks between them. Its first line may name
    the columns."""
    points = []
    for number, line in enumerate(text.splitlines(), 1):
        words = line.replace(",", " ").replace(";", " ").split()
        try:
            time, value = words
            points.append((int(time), float(value)))
        except ValueError:
            if number > 1:
                raise Mistake(f"{file}: line {number}: not a time and a value") from None
    return points


def read(path):
    with open(path, encoding="utf-8") as text:
        return text.read()


def ticks(low, high, most, least_step=1):
    """Round numbers from low to high, `most` and one at the most."""
    rough = max((high - low) / most, least_step)
    power = 10 ** math.floor(math.log10(rough))
    step = next(power * k for k in (1, 2, 5, 10) if power * k >= rough)
    # Below one a step is the inverse of a whole number, so that a mark isn't off by the last digit.
    scale = round(1 / step) if step < 1 else 1
    first, last = math.ceil(low / step), math.floor(high / step)
    return [k / scale if step < 1 else k * step for k in range(first, last + 1)]


def shown(number):
    """A number with its thousands apart, and no more digits than it needs."""
    return f"{number:,.6f}".rstrip("0").rstrip(".") if isinstance(number, float) else f"{number:,}"


class Numbers:
    """Times that are numbers."""

    def marks(self, start, end):
        """The times that get a mark, each with its text."""
        return [(time, shown(time)) for time in ticks(start, end, min(9, 110 // len(shown(end))))]


# Each step of calendar marks: its size in days, how it goes on, and what a mark says.
STEPS = [(1 / 24, ("hours", 1), "%H:%M"), (1 / 8, ("hours", 3), "%H:%M"), (1 / 4, ("hours", 6), "%H:%M"), (1 / 2, ("hours", 12), "%H:%M"),
         (1, ("days", 1), "%-d %b"), (2, ("days", 2), "%-d %b"), (7, ("days", 7), "%-d %b"), (14, ("days", 14), "%-d %b"),
         (30, ("months", 1), "%b"), (61, ("months", 2), "%b"), (91, ("months", 3), "%b"), (182, ("months", 6), "%b %Y"),
         *((365 * years, ("months", 12 * years), "%Y") for years in (1, 2, 5, 10, 20, 50, 100))]


class Dates:
    """Times that count so many seconds each since a day."""

    def __init__(self, text):
        seconds, _, day = text.partition("@")
        try:
            self.seconds, self.day = int(seconds), datetime.strptime(day or "1970-01-01", "%Y-%m-%d")
        except ValueError:
            self.seconds = 0
        if self.seconds < 1:
            raise Mistake(f"--dates {text}: not SECONDS nor SECONDS@YYYY-MM-DD")

    def at(self, time):
        try:
            return self.day + timedelta(seconds=time * self.seconds)
        except OverflowError:
            raise Mistake(f"--dates: the time {time} is after the year 9999") from None

    def marks(self, start, end):
        """The times that get a mark, each with its text: round ones of the calendar, in UTC."""
        first, last = self.at(start), self.at(end)
        days = (last - first) / timedelta(days=1)
        _, (unit, count), form = next((step for step in STEPS if days / step[0] <= 14), STEPS[-1])
        marks, date = [], begin_of(first, unit, count)
        while date <= last:
            if date >= first:
                text = f"{date:{form}}"
                # The first mark and the first of a year, or of a day, say what the others leave out.
                if form == "%b" and (not marks or date.month == 1):
                    text = f"{date:%b %Y}"
                elif form == "%H:%M" and date.hour == 0:
                    text = f"{date:%-d %b}"
                elif form == "%H:%M" and not marks:
                    text = f"{date:%-d %b %H:%M}"
                elif form == "%-d %b" and (not marks or date.timetuple().tm_yday <= count):
                    text = f"{date:%-d %b %Y}"
                marks.append(((date - self.day) / timedelta(seconds=self.seconds), text))
            date = after(date, unit, count)
        return marks


def begin_of(date, unit, count):
    """The round date at or before a date."""
    day = date.replace(hour=0, minute=0, second=0, microsecond=0)
    if unit == "hours":
        return day
    if unit == "days":
        return day - timedelta(days=day.toordinal() % count if count > 1 else 0)
    month = day.replace(day=1)
    if count < 12:
        return month.replace(month=(month.month - 1) // count * count + 1)
    return month.replace(month=1, year=max(1, month.year - month.year % (count // 12)))


def after(date, unit, count):
    """The round date after a round one."""
    if unit != "months":
        return date + timedelta(**{unit: count})
    months = date.year * 12 + date.month - 1 + count
    return date.replace(year=months // 12, month=months % 12 + 1)


def write(text, x, y, anchor="start", more=""):
    return f'<text x="{x}" y="{y}" text-anchor="{anchor}"{more}>{escape(text)}</text>'


def svg(across, down, style, title, left, out):
    """The picture as text, with its title above what was drawn."""
    size = f'viewBox="0 0 {across} {down}" width="{across}" height="{down}"'
    head = [f'<svg xmlns="http://www.w3.org/2000/svg" {size}>', f"<style>{STYLE}{style}</style>",
            f'<rect width="{across}" height="{down}" fill="#fff"/>', f'<text class="title" x="{left}" y="20">{escape(title)}</text>']
    return "\n".join([*head, *out, "</svg>", ""])
