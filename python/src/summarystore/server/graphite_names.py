"""Streams as Graphite's tree: paths of nodes with dots between them, and patterns of such paths.

A stream `home/living room/temperature` has the path `home.living_room.temperature`. Its mean is the
series of that path, and the ends of what is known of it are those with `.lo` and `.hi` behind it.
"""

from __future__ import annotations

import re
from collections.abc import Callable, Iterable, Iterator, Sequence
from typing import NamedTuple

from ..errors import SummaryStoreError

ENDS = ("lo", "hi")
LONGEST_PATTERN = 1000
# What a target can't say without quotes.
_UNSAYABLE = re.compile(r"[\s\x00-\x1f\x7f-\x9f(){}\[\]*?,;=\"'\\&~]")
_WORD = re.compile(r"[^*?\[{]+")

Places = set[int]
Step = Callable[[str, Places], Places]
"""What a part of a pattern does: from where it may begin in a text to where it may end."""


class PatternError(SummaryStoreError, ValueError):
    """A pattern of paths is malformed."""


class Leaf(NamedTuple):
    """One series: a stream, and which part of its answers: `mid`, `lo` or `hi`."""

    stream: str
    part: str


def path_of(name: str) -> str:
    """The path of a stream. No node of it is empty."""
    nodes = [_UNSAYABLE.sub("_", node) for node in re.split(r"[./]", name)]
    return ".".join(node or "_" for node in nodes)


# ---- patterns of one node ---------------------------------------------------------------


def _word(word: str) -> Step:
    return lambda text, places: {at + len(word) for at in places if text.startswith(word, at)}


def _any(text: str, places: Places) -> Places:
    return {at + 1 for at in places if at < len(text)}


def _star(text: str, places: Places) -> Places:
    return set(range(min(places), len(text) + 1)) if places else places


def _one_of(inner: str) -> Step:
    """`a-c7`, or `!a` for all but these: the signs between two with a minus between them, and signs."""
    negated = inner[0] in "!^" and len(inner) > 1
    ranges = re.findall(r"(.)-(.)|(.)", inner[1:] if negated else inner, re.DOTALL)
    ends = [(first or sign, last or sign) for first, last, sign in ranges]
    return lambda text, places: {at + 1 for at in places if at < len(text) and negated is not any(
        first <= text[at] <= last for first, last in ends)}


def _choices(inner: str) -> Step:
    each = [_steps(choice) for choice in inner.split(",")]
    return lambda text, places: {end for steps in each for end in _after(steps, text, places)}


def _steps(pattern: str) -> Sequence[Step]:
    """The parts of a pattern of one node."""
    steps: list[Step] = []
    at = 0
    while at < len(pattern):
        step, at = _step(pattern, at)
        steps.append(step)
    return steps


def _step(pattern: str, at: int) -> tuple[Step, int]:
    """The part that begins at a place of a pattern, and the place after it."""
    word = _WORD.match(pattern, at)
    if word:
        return _word(word[0]), word.end()
    if pattern[at] in "*?":
        return (_star if pattern[at] == "*" else _any), at + 1
    end = pattern.find("}", at) if pattern[at] == "{" else pattern.find("]", at + 2)
    if end < 0 or "{" in pattern[at + 1:end]:
        raise PatternError(f"not a pattern of a node: {pattern[:60]!r}")
    inner = pattern[at + 1:end]
    return (_choices(inner) if pattern[at] == "{" else _one_of(inner)), end + 1


def _after(steps: Sequence[Step], text: str, places: Places) -> Places:
    """Where a text may stand after these steps. Its time grows with the product of both lengths."""
    for step in steps:
        places = step(text, places)
    return places


def node_test(pattern: str) -> Callable[[str], bool]:
    """Whether a node is named by a pattern: `*`, `?`, `[a-z]` and `{one,other}` stand for choices."""
    if pattern == "*":
        return lambda node: True
    steps = _steps(pattern)
    return lambda node: len(node) in _after(steps, node, {0})


# ---- the tree ---------------------------------------------------------------------------


class Node:
    """A node of the tree: the series that it is, if it is one, and the nodes below it."""

    def __init__(self) -> None:
        self.leaf: Leaf | None = None
        self.below: dict[str, Node] = {}


class Tree:
    """The paths of some streams. Of two with one path the second has `~2` behind it, and so on."""

    def __init__(self, names: Iterable[str]) -> None:
        self._top = Node()
        paths: dict[str, str] = {}
        for name in names:
            paths[_free(path_of(name), paths)] = name
        for path, name in paths.items():
            self._at(path).leaf = Leaf(name, "mid")
        for path, name in paths.items():
            for end in ENDS:
                node = self._at(f"{path}.{end}")
                node.leaf = node.leaf or Leaf(name, end)    # a stream of that path keeps it

    def _at(self, path: str) -> Node:
        node = self._top
        for part in path.split("."):
            node = node.below.setdefault(part, Node())
        return node

    def found(self, pattern: str) -> Sequence[tuple[str, Node]]:
        """The nodes that a pattern of a path names, each with its path, in order."""
        if not pattern or len(pattern) > LONGEST_PATTERN:
            raise PatternError(f"a pattern has 1 to {LONGEST_PATTERN} characters")
        nodes = [("", self._top)]
        for part in pattern.split("."):
            nodes = [below for path, node in nodes for below in _below(path, node, part)]
        return sorted(nodes, key=lambda found: found[0])

    def leaves(self, pattern: str) -> Sequence[tuple[str, Leaf]]:
        """The series that a pattern names, each with its path, in order."""
        return [(path, node.leaf) for path, node in self.found(pattern) if node.leaf is not None]

    def all_leaves(self) -> Iterator[str]:
        """The paths of all series."""
        waiting = [("", self._top)]
        while waiting:
            path, node = waiting.pop()
            if node.leaf is not None:
                yield path
            waiting += _below(path, node, "*")


def _free(path: str, taken: dict[str, str]) -> str:
    """A path that no other stream has."""
    count, found = 1, path
    while found in taken:
        count += 1
        found = f"{path}~{count}"
    return found


def _below(path: str, node: Node, pattern: str) -> list[tuple[str, Node]]:
    """The nodes below one that a pattern names."""
    if _WORD.fullmatch(pattern):
        names: Iterable[str] = [pattern] if pattern in node.below else []
    else:
        names = filter(node_test(pattern), node.below)
    return [(f"{path}.{name}" if path else name, node.below[name]) for name in names]
