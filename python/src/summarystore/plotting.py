"""Series as pictures, by matplotlib: a band from lo to hi, its middle, and its exact parts."""

from __future__ import annotations

from collections.abc import Sequence
from typing import TYPE_CHECKING

from .decimals import MORE, places_of
from .errors import TimeError
from .records import Row
from .series import Series

if TYPE_CHECKING:
    from matplotlib.axes import Axes

    from .kinds import Kind
    from .questions import Questions

BAND, LINE = "#9ecae1", "#08519c"


def plot_store(store: Questions, name: str, kind: Kind, t1: object | None, t2: object | None,
               step: object | None, ax: Axes | None) -> Axes:
    """Draws a series of a stream. What isn't given is that of the whole stream, in about 200 rows."""
    series, last = store.whole_series(name, kind, t1, t2, step)
    return draw(series, store.ends(name, last), ax)


def draw(series: Series, end: object, ax: Axes | None = None) -> Axes:
    """Draws a series whose last row ends here. Rows without a value are left out."""
    import matplotlib.pyplot as pyplot
    if ax is None:
        _, ax = pyplot.subplots(figsize=(9.6, 4.0), layout="constrained")
    starts: list[object] = [row.start for row in series]
    if len({isinstance(moment, int) for moment in [*starts, end]}) > 1:
        raise TimeError(f"{series.name} reaches beyond the year 9999, which no axis of dates shows: give t2")
    edges = list(zip(starts, [*starts[1:], end]))
    for run in _runs(series):
        times = [time for at in run for time in edges[at]]
        rows = [series[at] for at in run for _ in range(2)]
        lows, highs = ([float(end) for end in ends] for ends in
                       ([row.interval.lo for row in rows], [row.interval.hi for row in rows]))
        ax.fill_between(times, lows, highs, color=BAND, linewidth=0)
        ax.plot(times, [float(row.interval.mid) for row in rows], color=LINE, linewidth=0.7,
                linestyle=":")
        for at in run:
            if _is_known(series[at]):
                level = float(series[at].interval.mid)
                ax.plot(edges[at], [level, level], color=LINE, linewidth=1.6, solid_capstyle="butt")
    return _labelled(ax, series)


def _runs(series: Sequence[Row]) -> list[list[int]]:
    """The places of rows with a value, those beside each other together."""
    runs: list[list[int]] = []
    for at, row in enumerate(series):
        if row.interval.none:
            continue
        if runs and runs[-1][-1] == at - 1:
            runs[-1].append(at)
        else:
            runs.append([at])
    return runs


def _is_known(row: Row) -> bool:
    """Whether both ends are one, as far as a picture shows. A mean without a last digit is rounded outwards
    at its twelfth, or a later one."""
    interval = row.interval
    if interval.maybe_none:
        return False
    digits = max(places_of(interval.lo), places_of(interval.hi))
    return interval.exact or digits >= MORE and interval.width * 10**digits == 1


def _labelled(ax: Axes, series: Series) -> Axes:
    from matplotlib.lines import Line2D
    from matplotlib.patches import Patch
    ax.set_title(series.name)
    ax.set_ylabel(f"{series.kind}, {series.unit}" if series.unit else series.kind)
    ax.margins(x=0.01)
    ax.grid(alpha=0.3)
    ax.legend(handles=[Patch(color=BAND, label="the truth lies within"),
                       Line2D([], [], color=LINE, linewidth=0.7, linestyle=":", label="the middle"),
                       Line2D([], [], color=LINE, linewidth=1.6, label="known exactly")],
              loc="best", frameon=False)
    return ax
