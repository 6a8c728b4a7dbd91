"""The functions of Graphite that are known, by the names and with the arguments that targets give them."""

from __future__ import annotations

from collections.abc import Callable, Mapping, Sequence
from dataclasses import dataclass
from functools import partial

from . import graphite_points as points_of
from .graphite_functions import (Combined, Consolidated, Drawn, Each, Expression, Moving, Paths, Renamed,
                                 Summarized, offset, scale)
from .graphite_targets import Arguments, Bare, Call, TargetError, read
from .graphite_times import span_of

KINDS: Mapping[str, str] = {"average": "mean", "avg": "mean", "mean": "mean", "sum": "sum", "total": "sum",
                            "min": "min", "max": "max"}
"""What `consolidateBy` may say, and what is asked of the store then."""
STORED: Mapping[str, str] = {**KINDS, "increase": "increase"}
"""The same with what a counter is asked."""
SUMMARIES: Mapping[str, str] = {**KINDS, "count": "count", "last": "last"}
MOST_WINDOW = 10_000
"""So many points a moving average takes at most."""
NODES = 1000


@dataclass(frozen=True)
class Constant:
    """A line at one value, by which a client tests whether it is answered."""

    value: str


Target = Expression | Constant


def target_of(text: str) -> Target:
    """What a target asks for."""
    found = read(text.strip())
    if isinstance(found, Call) and found.name == "constantLine":
        wanted = "a number"
        arguments = Arguments(found)
        value = arguments.bare_number(wanted)
        arguments.end(wanted)
        return Constant(value)
    return _expression(found)


def _expression(found: Call | Bare) -> Expression:
    if isinstance(found, Bare):
        return Paths(found)
    function = FUNCTIONS.get(found.name)
    if function is None:
        raise TargetError(f"the function {found.name[:40]} isn't known: there are constantLine, "
                          f"{', '.join(FUNCTIONS)}")
    return function(found.name, Arguments(found))


def _series(arguments: Arguments, wanted: str) -> Expression:
    return _expression(arguments.series(wanted))


def _alias(_name: str, arguments: Arguments) -> Expression:
    wanted = "series and a text in quotes"
    of, text = _series(arguments, wanted), arguments.text(wanted)
    arguments.end(wanted)
    return Renamed(of, lambda _drawn: text)


def _alias_by_node(_name: str, arguments: Arguments) -> Expression:
    wanted = "series and the numbers of nodes"
    of = _series(arguments, wanted)
    nodes = [arguments.whole(wanted, -NODES, NODES)]
    while len(arguments):
        nodes.append(arguments.whole(wanted, -NODES, NODES))
    return Renamed(of, partial(_by_nodes, nodes))


def _by_nodes(nodes: Sequence[int], drawn: Drawn) -> str:
    """Some nodes of a path. One that it doesn't have is empty, as Graphite has it."""
    path = drawn.path.split(".")
    return ".".join(path[at] if -len(path) <= at < len(path) else "" for at in nodes)


def _consolidate_by(_name: str, arguments: Arguments) -> Expression:
    wanted = f"series and one of {', '.join(STORED)} in quotes"
    of, word = _series(arguments, wanted), arguments.text(wanted)
    arguments.end(wanted)
    if word not in STORED:
        raise arguments.wrong(wanted)
    return Consolidated(of, STORED[word])


def _by_number(make: Callable[..., Expression]) -> Function:
    def made(name: str, arguments: Arguments) -> Expression:
        wanted = "series and a number"
        of, number = _series(arguments, wanted), arguments.number(wanted)
        arguments.end(wanted)
        return make(of, f"{name}({{}},{float(number):g})", number)
    return made


def _derivative(name: str, arguments: Arguments) -> Expression:
    of = _series(arguments, "series")
    arguments.end("series")
    return Each(of, f"{name}({{}})", points_of.derivative)


def _non_negative_derivative(name: str, arguments: Arguments) -> Expression:
    wanted = "series, and perhaps the greatest and the least value of the counter"
    of = _series(arguments, wanted)
    most = arguments.number_or_none(wanted)
    least = arguments.number_or_none(wanted)
    arguments.end(wanted)
    return Each(of, f"{name}({{}})", partial(points_of.rises, most=most, least=least))


def _keep_last_value(name: str, arguments: Arguments) -> Expression:
    wanted = "series, and perhaps how many points a gap has at most"
    of = _series(arguments, wanted)
    limit = arguments.whole(wanted, 0, MOST_WINDOW) if len(arguments) else None
    arguments.end(wanted)
    return Each(of, f"{name}({{}})", partial(points_of.kept, limit=limit))


def _moving_average(name: str, arguments: Arguments) -> Expression:
    wanted = "series, and a number of points or a span as \"5min\""
    of = _series(arguments, wanted)
    if arguments.is_text():
        text = arguments.text(wanted)
        arguments.end(wanted)
        return Moving(of, f'{name}({{}},"{_quoted(text)}")', None, span_of(text))
    count = arguments.whole(wanted, 1, MOST_WINDOW)
    arguments.end(wanted)
    return Moving(of, f"{name}({{}},{count})", count, 0)


def _summarize(name: str, arguments: Arguments) -> Expression:
    wanted = f"series, a span as \"1h\", one of {', '.join(SUMMARIES)} in quotes, and true or false"
    of, text = _series(arguments, wanted), arguments.text(wanted)
    word = arguments.text(wanted) if len(arguments) else "sum"
    begins = arguments.truth(wanted) if len(arguments) else False
    arguments.end(wanted)
    if word not in SUMMARIES:
        raise arguments.wrong(wanted)
    form = f'{name}({{}}, "{_quoted(text)}", "{word}"{", true" if begins else ""})'
    return Summarized(of, form, span_of(text), SUMMARIES[word], begins)


def _combined(kind: str, known: str) -> Function:
    def made(_name: str, arguments: Arguments) -> Expression:
        of = [_series(arguments, "series")]
        while len(arguments):
            of.append(_series(arguments, "series"))
        return Combined(of, known, kind)
    return made


def _quoted(text: str) -> str:
    """A text within a form."""
    return text.replace("{", "{{").replace("}", "}}")


Function = Callable[[str, Arguments], Expression]
FUNCTIONS: Mapping[str, Function] = {
    "alias": _alias, "aliasByNode": _alias_by_node, "averageSeries": _combined("mean", "averageSeries"),
    "avg": _combined("mean", "averageSeries"), "consolidateBy": _consolidate_by, "derivative": _derivative,
    "keepLastValue": _keep_last_value, "movingAverage": _moving_average,
    "nonNegativeDerivative": _non_negative_derivative, "offset": _by_number(offset),
    "scale": _by_number(scale), "sum": _combined("sum", "sumSeries"),
    "summarize": _summarize, "sumSeries": _combined("sum", "sumSeries")}
