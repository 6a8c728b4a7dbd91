"""The command `summarystore-plan`: which targets surely keep answers as exact as is wished, and what
they take. It needs no store and no program."""

from __future__ import annotations

import argparse
import json
import re
import sys
from collections.abc import Iterable, Sequence
from fractions import Fraction
from typing import TYPE_CHECKING

from .errors import SourceError
from .planner import Choice, Plan, Planner
from .wishes import SECONDS, Readings, Wish, every_of, number_of, span_of

if TYPE_CHECKING:
    from matplotlib.axes import Axes

SHOWN, DRAWN = 10, 4
BYTES = re.compile(r"([0-9]+)(?: ?([kMG])(i?)B?)?")
POWERS = {None: 0, "k": 1, "M": 2, "G": 3}
EXPLAINED = """
A wish is: [count|sum|mean of] RANGE after AGE within X[%], as 'day after 1y within 5%' or
'sum of a week after 2y within 100'. RANGE and AGE are spans: 15min, hour, day, week, month (30 days),
year (365.25). The range ended so long ago. Within says how far the middle of the interval is from the
truth at most: half its width. A part is one of the least truth that there may be, if the range has as
many readings as come in its time. Where fewer came, a part and a mean may be less exact than told.

What is shown is sure by what is proved, whatever the readings are, as long as none comes sooner than
told: no window is longer than the target's at its age, which is reckoned by the definition and is never
above the closed forms of the guide. What no wish is about may be wide, the recent past too. The least
R is told, so each greater one does as well, and takes more.

With --within windows get no longer, and one more may stand for each further step that has readings. A
range of whole steps is then known exactly, which no wish asks for.

Ends with 0 where a target meets all wishes, with 1 where none does, and with 2 where something that was
given has no meaning."""


def bytes_of(text: str) -> int:
    """Bytes, as 1000000, 1MB or 64KiB."""
    found = BYTES.fullmatch(text.strip().replace("K", "k"))
    if not found:
        raise SourceError(f"not a number of bytes: {text!r}; write 1000000, 5MB or 64KiB")
    return int(found[1]) * int((1024 if found[3] else 1000) ** POWERS[found[2]])


def shown(number: Fraction) -> str:
    """A number that may be rounded upwards: with four digits at least, and no fewer than it has before
    the point."""
    if number == int(number):
        return f"{int(number):,}"
    places = max(0, 4 - len(str(int(number)))) if number >= 1 else 4
    scaled = -(-number.numerator * 10**places // number.denominator)
    text = f"{scaled // 10**places:,}" + (f".{scaled % 10**places:0{places}}" if places else "")
    return text.rstrip("0").rstrip(".") if places else text


class Report:
    """A plan in words."""

    def __init__(self, planner: Planner, plan: Plan, every: str, within: str | None = None) -> None:
        self.planner, self.plan, self.every, self.within = planner, plan, every, within

    def half(self, choice: Choice, at: int) -> str:
        """How far the middle is from the truth at most, and beside it which part of the truth that is."""
        half, wish = choice.halves[at], self.planner.wishes[at]
        truth = wish.truth(self.planner.readings)
        return f"{shown(half)} = {shown(half * 100 / truth)} %" if truth else shown(half)

    def row(self, choice: Choice) -> list[str]:
        """A target, and what it keeps to."""
        halves = [self.half(choice, at) for at in range(len(choice.halves))]
        return [str(choice.target), f"{choice.windows:,}", f"{choice.bytes:,}", *halves]

    def lines(self, most: int) -> Iterable[str]:
        """All that is told."""
        planner, plan = self.planner, self.plan
        each = f"{planner.streams:,} streams of " if planner.streams > 1 else ""
        step = "" if self.within is None else f", no window across a multiple of {self.within}"
        yield f"{each}{planner.readings.count:,} readings, at most one each {self.every}{step}"
        for number, (wish, allowed) in enumerate(zip(planner.wishes, planner.allowed), 1):
            given = f": {shown(allowed)} of {shown(wish.truth(planner.readings))}" if wish.share else ""
            yield f"wish {number}: {wish.text}{given}"
        choices = list(plan.choices[:most])
        if plan.why is not None:
            yield f"no target surely meets this: {plan.why}"
            for what, choice in (("meets the wishes", plan.larger), ("comes nearest", plan.nearest)):
                if choice is not None:
                    yield f"{choice.target} {what}"
                    choices.append(choice)
        if choices:
            yield from _columns([["target", "windows", "bytes", *self._heads()], *map(self.row, choices)])

    def _heads(self) -> list[str]:
        return [f"wish {number}" for number in range(1, len(self.planner.wishes) + 1)]

    def facts(self) -> dict[str, object]:
        """The same for a program. Numbers that aren't whole are text: a fraction."""
        planner, plan = self.planner, self.plan
        wishes = [{"wish": wish.text, "kind": wish.kind, "within": str(allowed),
                   "truth": str(wish.truth(planner.readings))}
                  for wish, allowed in zip(planner.wishes, planner.allowed)]
        step = None if self.within is None else str(span_of(self.within))
        return {"readings": planner.readings.count, "streams": planner.streams, "step": step,
                "wishes": wishes, "met": plan.why is None, "why": plan.why,
                "targets": [_facts(choice) for choice in plan.choices],
                "larger": _facts(plan.larger), "nearest": _facts(plan.nearest)}


def _facts(choice: Choice | None) -> dict[str, object] | None:
    if choice is None:
        return None
    return {"target": str(choice.target), "windows": choice.windows, "records": choice.records,
            "bytes": choice.bytes, "within": [str(half) for half in choice.halves]}


def _columns(rows: Sequence[Sequence[str]]) -> Iterable[str]:
    """Rows below each other: the first column to the left, the others to the right."""
    widths = [max(map(len, column)) for column in zip(*rows)]
    for first, *rest in rows:
        cells = [cell.rjust(width) for cell, width in zip(rest, widths[1:])]
        yield "  ".join([first.ljust(widths[0]), *cells])


def draw(planner: Planner, choices: Sequence[Choice], path: str) -> None:
    """Draws half the width by age, a panel for each kind and range that is wished, with the wishes as
    points."""
    from matplotlib.figure import Figure
    kinds = list(dict.fromkeys((wish.kind, wish.span) for wish in planner.wishes))
    figure = Figure(figsize=(8.0, 0.6 + 3.4 * len(kinds)), layout="constrained")
    for place, (kind, span) in enumerate(kinds, 1):
        axes = figure.add_subplot(len(kinds), 1, place)
        wishes = [wish for wish in planner.wishes if (wish.kind, wish.span) == (kind, span)]
        _panel(axes, planner, choices, wishes)
    figure.savefig(path)


def _panel(axes: Axes, planner: Planner, choices: Sequence[Choice], wishes: Sequence[Wish]) -> None:
    """One kind and range."""
    readings, first = planner.readings, wishes[0]
    ages = _ages(readings, first.span)
    for choice in choices:
        halves = [Wish(first.text, first.kind, first.span, age, Fraction(0), False)
                  .half(choice.target, readings) for age in ages]
        axes.plot([float(age / SECONDS["d"]) for age in ages], [float(half) for half in halves],
                  drawstyle="steps-post", label=str(choice.target))
    axes.plot([float(wish.age / SECONDS["d"]) for wish in wishes],
              [float(wish.allowed(readings)) for wish in wishes], "kx", label="wished")
    axes.set_xscale("log")
    axes.set_yscale("symlog", linthresh=1)
    axes.set_ylim(bottom=0)
    axes.set_xlabel("days since the range ended")
    axes.set_ylabel(f"{first.kind}: at most so far from the middle")
    axes.set_title(f"a range of {float(first.span / SECONDS['h']):g} h, "
                   f"{first.inside(readings):,} readings", fontsize=10)
    axes.grid(alpha=0.3)
    axes.legend(frameon=False, fontsize=8)


def _ages(readings: Readings, span: Fraction) -> Sequence[Fraction]:
    """Ages that grow by a tenth, from a reading on to the oldest that a range may have."""
    ages, age = [], readings.every
    while age <= readings.seconds - span:
        ages.append(age)
        age = Fraction(int(age / readings.every * 11 / 10) + 1) * readings.every
    return ages


def arguments() -> argparse.ArgumentParser:
    """The arguments of the command."""
    parser = argparse.ArgumentParser(
        prog="summarystore-plan", epilog=EXPLAINED, formatter_class=argparse.RawDescriptionHelpFormatter,
        description="Says which targets surely keep answers as exact as is wished, and what they take.")
    add = parser.add_argument
    add("--every", required=True, metavar="SPAN", help="from a reading to the next, as 60s or 15min; or a "
        "rate, as 10/s")
    add("--years", required=True, metavar="N", help="how long the readings come")
    add("--streams", type=int, default=1, metavar="N", help="of the same kind in one store (default: 1)")
    add("--bytes", metavar="N", help="the most that the file may take, as 5MB (default: what a store has)")
    add("--range", nargs=2, metavar=("LO", "HI"), help="the least and the greatest value; for sums and means")
    add("--wish", action="append", default=[], metavar="WISH", help="what is to be known; may come again")
    add("--within", metavar="SPAN", help="no window crosses a multiple of it, as day: create .. within E")
    add("--scale", type=int, metavar="S", help="tries this S alone, as 1: the newest readings one by one")
    add("--show", type=int, default=SHOWN, metavar="N", help=f"how many targets at most (default: {SHOWN})")
    add("--json", action="store_true", help="writes all of them as JSON")
    add("--plot", metavar="FILE", help=f"draws width by age of the first {DRAWN}, as .svg or .png")
    return parser


def planner_of(words: argparse.Namespace) -> Planner:
    """What the arguments ask for."""
    values = None if words.range is None else (number_of(words.range[0]), number_of(words.range[1]))
    seconds = number_of(words.years) * span_of("year")
    readings = Readings(every_of(words.every), seconds, values)
    most = None if words.bytes is None else bytes_of(words.bytes)
    within = None if words.within is None else span_of(words.within)
    return Planner(readings, [Wish.of(text) for text in words.wish], words.streams, most, words.scale, within)


def main(given: Sequence[str] | None = None) -> int:
    """Runs the command."""
    words = arguments().parse_args(given)
    try:
        planner = planner_of(words)
    except SourceError as error:
        print(f"summarystore-plan: {error}", file=sys.stderr)
        return 2
    plan = planner.plan()
    report = Report(planner, plan, words.every, words.within)
    if words.json:
        print(json.dumps(report.facts(), indent=2))
    else:
        print("\n".join(report.lines(max(0, words.show))))
    if words.plot:
        near = [choice for choice in (plan.larger, plan.nearest) if choice is not None]
        try:
            draw(planner, list(plan.choices[:DRAWN]) or near, words.plot)
        except (ImportError, OSError, ValueError) as error:     # of a kind of picture that isn't known
            print(f"summarystore-plan: {error}", file=sys.stderr)
            return 3
    return 0 if plan.why is None else 1


if __name__ == "__main__":
    sys.exit(main())
