"""What an import proposes for streams that it makes, so that more of them is known exactly."""

from __future__ import annotations

from collections.abc import Sequence

from .calendars import LONGEST_STEP, Calendar
from .description import NANOSECONDS
from .timeforms import TimeForm

DEFAULT_TARGET = "power 1 1 4 1"
STEP_TARGET = "exp 2 60 1"
"""What goes with a step: windows merge soon, since whole steps are exact however old they are."""


def of_times(by_minutes: bool, resolution: str, is_told: bool) -> list[str]:
    """What is said of rows that stand 60 s apart: counted in minutes, full windows have no time to spare."""
    if by_minutes and not is_told:
        return ["rows stand 60 s apart: time minute is taken; --resolution s keeps seconds"]
    if by_minutes and NANOSECONDS[resolution] < NANOSECONDS["minute"]:
        return [f"rows stand 60 s apart: --resolution minute is proposed in the place of {resolution}"]
    return []


def of_targets(form: TimeForm, texts: Sequence[str], resolution: str) -> list[str]:
    """What is said of targets: which one keeps whole days of the zone exact, and what the default keeps."""
    step = step_of(form, texts, resolution)
    if step is None:
        return []
    whose = "each zone whose midnights are at full hours" if form.zone is None else str(form.zone)
    return [f"proposed: --target '{STEP_TARGET}' --within {step}: whole days of {whose} stay exact",
            f"{DEFAULT_TARGET} is for all that is recent, and nothing that is old"]


def step_of(form: TimeForm, texts: Sequence[str], resolution: str) -> int | None:
    """The longest step, in counts of a resolution, that keeps days of the table's zone whole: a day in UTC,
    an hour where midnights are at full hours, and a part of one elsewhere. None where it would be a single
    count, or longer than steps are."""
    moment = next((moment for moment in map(form.moment, texts) if moment is not None), None)
    if moment is None:
        return None
    days = None if form.zone is None else Calendar("day", form.zone)
    edges = days.edges(moment, moment, 1) if days else None
    common = days.common(edges) if days and edges else NANOSECONDS["hour"]
    counts, rest = divmod(common, NANOSECONDS[resolution])
    return counts if not rest and 1 < counts <= LONGEST_STEP else None
