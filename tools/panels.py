"""Draws what `series` answered as bars over time: what `tools/plot --series` does."""

from bisect import bisect_left
from itertools import accumulate

from drawing import LINE, WIDTH, Mistake, numbers, read, readings_of, shown, svg, ticks, write

HEIGHTS = {1: 340, 2: 240}  # of a panel, by how many there are
LOWEST = 170
RIGHT, ABOVE, BETWEEN = 40, 46, 44
LETTER = 7  # about how wide a letter is
KINDS = {"": "answer", "count": "count", "sum": "sum", "min": "least", "max": "greatest"}
COLOURS = {"": "#2f6fb0", "count": "#6a1b9a", "sum": "#00796b", "min": "#2f6fb0", "max": "#c8661a"}
NARROW = 5  # a row that has less room has bars over each other, and without an outline
STYLE = """.zero{stroke:#999}.frame{fill:none;stroke:#bbb}.bar{fill-opacity:.42;stroke-width:.8}.maybe{fill-opacity:.14;stroke-width:.8;stroke-opacity:.7;stroke-dasharray:3 2}
.narrow{fill-opacity:.5}.none{fill:#eee}.readings{stroke:#222;stroke-width:.8;fill:none}.dense{stroke:#777;stroke-width:.4;fill:none}
.truth{stroke:#111;stroke-width:1.6;fill:none}"""


class Row:
    """An answer: from which time on, up to which, its interval, or None where there is no value, and whether there may be none."""

    def __init__(self, words, what):
        self.start, self.end = numbers(words[:1], what)[0], None
        self.may_be_none = words[3:] == ["maybe-none"]
        self.interval = None
        if words[1:] != ["none"]:
            if len(words) != 3 + self.may_be_none:
                raise Mistake(f"{what}: not a row `A LO HI`")
            self.interval = tuple(numbers(words[1:3], what))
            if self.interval[0] > self.interval[1]:
                raise Mistake(f"{what}: LO is above HI")


def series_of(text, file, until):
    """The series of a report, one after the other, each as its rows. A row lasts until the next one begins, and the last as long as
    the one before it, or until the last time that is asked for."""
    lines, at, found = text.splitlines(), 0, []
    while at < len(lines):
        head = lines[at].split()
        if len(head) != 2 or head[0] != "series":
            raise Mistake(f"{file}: line {at + 1}: not a head `series R`")
        count = numbers(head[1:], f"{file}: line {at + 1}")[0]
        rows = [Row(line.split(), f"{file}: line {number}") for number, line in enumerate(lines[at + 1:at + 1 + count], at + 2)]
        if count < 1 or len(rows) < count:
            raise Mistake(f"{file}: line {at + 1}: {count} rows announced, {len(rows)} follow")
        step = rows[1].start - rows[0].start if count > 1 else 1
        for number, (row, after) in enumerate(zip(rows, rows[1:]), at + 3):
            if step < 1 or after.start - row.start != step:
                raise Mistake(f"{file}: line {number}: not a row that follows the one before")
        for row in rows:
            row.end = row.start + step
        if until:
            rows[-1].end = min(rows[-1].end, numbers([until], "--until")[0] + 1)
            if rows[-1].end <= rows[-1].start:
                raise Mistake(f"--until {until}: the last row begins at {rows[-1].start}")
        found.append(rows)
        at += 1 + count
    return found


def truths(kind, points, rows):
    """The true count or sum of the values in each row, None where there is none."""
    times = [time for time, _ in points]
    totals = [0, *accumulate(value for _, value in points)]
    for row in rows:
        first, end = bisect_left(times, row.start), bisect_left(times, row.end)
        yield end - first if kind == "count" else totals[end] - totals[first]


class Panel:
    """One or more series over the same times, with their names, and the values themselves."""

    def __init__(self, series, kinds, name, axis, divisor, points):
        self.series, self.kinds, self.name, self.axis, self.divisor = series, kinds, name, axis, divisor
        self.start, self.end = series[0][0].start, max(rows[-1].end for rows in series)
        self.points = [point for point in points if self.start <= point[0] < self.end]
        self.top = self.height = 0
        self.low, self.high = self.range()

    def kind(self, number):
        return self.kinds[number] if self.kinds else ""

    def has_totals(self):
        return any(kind in ("count", "sum") for kind in self.kinds)

    def rows(self):
        return [row for rows in self.series for row in rows]

    def unbroken(self):
        """The values in pieces, which rows without a value keep apart."""
        gaps = sorted(row.start for row in self.rows() if row.interval is None)
        pieces = {}
        for time, value in self.points:
            pieces.setdefault(bisect_left(gaps, time + 1), []).append((time, value))
        return pieces.values()

    def range(self):
        """From where to where the values go, with a little room on both sides."""
        values = [value for row in self.rows() if row.interval for value in row.interval]
        values += [] if self.has_totals() else [value for _, value in self.points]
        low, high = min(values, default=0), max(values, default=1)
        low, high = (min(low, 0) if "count" in self.kinds else low) / self.divisor, high / self.divisor
        room = (high - low or 1) * 0.05
        return low - room * (low != 0), high + room

    def levels(self):
        return ticks(self.low, self.high, max(4, self.height // 36), 1 / self.divisor)

    def y(self, value):
        return round(self.top + (self.high - value / self.divisor) / (self.high - self.low) * self.height, 1)


class Picture:
    """A picture in the making: its panels below each other, over the same times."""

    def __init__(self, panels, clock, times):
        self.panels, self.times = panels, times
        self.start, self.end = min(panel.start for panel in panels), max(panel.end for panel in panels)
        self.out, self.legend = [], []
        for panel in panels:
            panel.height = HEIGHTS.get(len(panels), LOWEST)
        self.left = 36 + 8 * max(len(shown(level)) for panel in panels for level in panel.levels()) + LINE * any(panel.axis for panel in panels)
        self.marks = clock.marks(self.start, self.end)
        top = self.draw_legend() + LINE * any(panel.name for panel in panels)
        for panel in panels:
            panel.top = top
            self.draw(panel)
            top += panel.height + BETWEEN
        self.bottom = top - BETWEEN
        for mark, text in self.marks:
            self.out.append(write(text, self.x(mark), self.bottom + 18, "middle"))
        if times:
            self.out.append(write(times, self.left + WIDTH / 2, self.bottom + 18 + LINE, "middle"))

    def x(self, time):
        return round(self.left + (time - self.start) / (self.end - self.start) * WIDTH, 1)

    def draw(self, panel):
        self.draw_axes(panel)
        for row in panel.rows():
            if row.interval is None:
                self.box("none", self.x(row.start), panel.top, self.x(row.end), panel.top + panel.height)
        if not panel.has_totals():
            look = "readings" if len(panel.points) < WIDTH / 2 else "dense"
            for points in panel.unbroken():
                path = " ".join(f"{self.x(time)},{panel.y(value)}" for time, value in points)
                self.out.append(f'<polyline class="{look}" points="{path}"/>')
        for number, rows in enumerate(panel.series):
            self.draw_bars(panel, rows, number)
        self.out.append(f'<rect class="frame" x="{self.left}" y="{panel.top}" width="{WIDTH}" height="{panel.height}"/>')

    def draw_axes(self, panel):
        for level in panel.levels():
            y = panel.y(level * panel.divisor)
            self.out.append(f'<path class="{"grid" if level else "zero"}" d="M{self.left} {y}h{WIDTH}"/>')
            self.out.append(write(shown(level), self.left - 8, round(y + 4, 1), "end"))
        for mark, _ in self.marks:
            self.out.append(f'<path class="grid" d="M{self.x(mark)} {panel.top}v{panel.height}"/>')
        self.out.append(write(panel.name, self.left, panel.top - 9))
        if panel.axis:
            middle = panel.top + panel.height / 2
            self.out.append(write(panel.axis, 18, middle, "middle", f' transform="rotate(-90 18 {middle})"'))

    def draw_bars(self, panel, rows, number):
        kind = panel.kind(number)
        for row in rows:
            if row.interval is None:
                continue
            left, width = self.x(row.start), self.x(row.end) - self.x(row.start)
            name = "maybe" if row.may_be_none else "bar"
            if width < NARROW:
                name = "narrow"
            else:
                # Those of a panel stand beside each other.
                width /= len(panel.series)
                left, width = left + width * number + min(1, width / 8), width - 2 * min(1, width / 8)
            low, high = row.interval
            self.box(name, left, panel.y(high), left + width, panel.y(low), COLOURS[kind])
        if panel.points and kind in ("count", "sum"):
            marks = "".join(f"M{self.x(row.start)} {panel.y(truth)}H{self.x(row.end)}" for row, truth in zip(rows, truths(kind, panel.points, rows)))
            self.out.append(f'<path class="truth" d="{marks}"/>')

    def box(self, name, left, top, right, bottom, colour=None):
        # A bar of one number has no height: it gets three points.
        lift = max(0, 3 - (bottom - top)) / 2
        outline = f' stroke="{colour}"' * (name in ("bar", "maybe"))
        fill = f' fill="{colour}"' if colour else ""
        self.out.append(f'<rect class="{name}"{fill}{outline} x="{left:.1f}" y="{top - lift:.1f}" width="{max(right - left, 0.5):.1f}" '
                        f'height="{bottom - top + 2 * lift:.1f}"/>')

    def looks(self):
        """What is drawn, in words, each with its look."""
        kinds = [panel.kind(number) for panel in self.panels for number in range(len(panel.series))]
        for kind in KINDS:
            if kind in kinds:
                yield f"the {KINDS[kind]} lies here", ("bar", COLOURS[kind])
        if any(row.may_be_none and self.x(row.end) - self.x(row.start) >= NARROW for panel in self.panels for row in panel.rows()):
            yield "if there is a value", ("maybe", "#555")
        if any(row.interval is None for panel in self.panels for row in panel.rows()):
            yield "no value", ("none", None)
        if any(panel.points and not panel.has_totals() for panel in self.panels):
            yield "the values themselves", ("readings", None)
        if any(panel.points and panel.has_totals() for panel in self.panels):
            yield "the true answer", ("truth", None)

    def draw_legend(self):
        """Lines below the title that say what is drawn, and how far down they go."""
        x, y = self.left, 34
        for text, (name, colour) in self.looks():
            width = 24 + LETTER * len(text) + 20
            if x > self.left and x + width > self.left + WIDTH:
                x, y = self.left, y + LINE
            if name in ("readings", "truth"):
                self.out.append(f'<path class="{name}" d="M{x} {y + 6}h18"/>')
            else:
                self.box(name, x, y, x + 18, y + 12, colour)
            self.out.append(write(text, x + 24, y + 10))
            x += width
        return y + ABOVE - 12

    def svg(self, title):
        down = self.bottom + 40 + LINE * bool(self.times)
        return svg(self.left + WIDTH + RIGHT, down, STYLE, title, self.left, self.out)


def kinds_of(text):
    kinds = text.split(",")
    if not all(kind and kind in KINDS for kind in kinds):
        raise Mistake(f"--kinds {text}: not of count, sum, min and max, with commas between them")
    return kinds


def divisor_of(text):
    [divisor] = numbers([text], f"--divide {text}")
    if divisor < 1:
        raise Mistake(f"--divide {text}: not 1 or more")
    return divisor


def given_to(given, option, number):
    """What an option says of a panel: the last that was given goes on."""
    return given[option][min(number, len(given[option]) - 1)] if given[option] else ""


def panels_of(given, texts):
    """The panels of these reports. Their options are given in the order of the panels."""
    series = [rows for file, text in texts for rows in series_of(text, file, "".join(given["--until"][-1:]))]
    if not series:
        raise Mistake("no series in the report")
    panels = []
    while series:
        number = len(panels)
        kinds = kinds_of(given_to(given, "--kinds", number)) if given["--kinds"] else []
        together, series = series[:max(1, len(kinds))], series[max(1, len(kinds)):]
        if len(together) < len(kinds):
            raise Mistake(f"{len(kinds)} series share a panel, and the last has {len(together)}")
        if any(rows[0].start != together[0][0].start or len(rows) != len(together[0]) for rows in together):
            raise Mistake("series that share a panel have other times")
        file = given_to(given, "--readings", number)
        points = sorted(readings_of(read(file), file)) if file else []
        name = given["--panel"][number] if number < len(given["--panel"]) else ""
        panels.append(Panel(together, kinds, name, given_to(given, "--values", number), divisor_of(given_to(given, "--divide", number) or "1"), points))
    return panels


def picture(given, texts, clock):
    """The picture as text, of what was given by options and of the reports."""
    panels = panels_of(given, texts)
    return Picture(panels, clock, "".join(given["--times"][-1:])).svg("".join(given["--title"][-1:]))
