"""Bodies of line protocol as columns: what is read and what becomes of it is as line by line."""

from __future__ import annotations

import os
from collections.abc import Sequence
from decimal import Decimal
from pathlib import Path
from typing import Any

import pytest
from hypothesis import given, settings
from hypothesis import strategies as st

from summarystore.server import column_intake, linebody, lineprotocol
from summarystore.server.intake import Incoming
from summarystore.server.linebody import Body
from summarystore.server.lineprotocol import Mistake

from ..waiting import run
from .serving import over_http

LONG = bool(os.environ.get("SUMMARYSTORE_LONG"))
EXAMPLES = 3000 if LONG else 150
LONGEST, MOST = 200, 1000
PARTS = ("a", "b", "a,t=1", "a,t=1,u=2", "a,u=2,t=1", "", "#", "a b", " a", "é", "a,t", "a\t")
FIELDS = ("x=1", "x=2.50", "y=-3i", "y=4u", "x=1e3", "x=t", 'x="s"', "x=", "=1", "x", "x=1=2", "z=.5",
          "z=1_0", "z=\u0663", "x=1\r", "x=-0.0", "\\ x=1")
STAMPS = (" 5", " 7", " -5", "", " ", "  9", " 5 ", " x", " 5\r", " +5", " 123456789012345678901", " \u0663")
ROW = st.one_of(
    st.tuples(st.sampled_from(PARTS), st.lists(st.sampled_from(FIELDS), min_size=1, max_size=3).map(",".join),
              st.sampled_from(STAMPS)).map(lambda row: f"{row[0]} {row[1]}{row[2]}"),
    st.sampled_from(("", "  ", "# a b=1 5", "a b=1 5" + "0" * LONGEST)))
PLAIN = st.tuples(
    st.sampled_from(("a", "a,t=1", "b,t=2")), st.sampled_from(("x=1", "x=2.50", "x=1,y=2", "y=3i")),
    st.sampled_from((" 5", " 7", " -5"))).map(lambda row: f"{row[0]} {row[1]}{row[2]}")


def read(text: str, most: int = MOST) -> Body:
    """The body that a text is."""
    (found,) = [body for body in linebody.read(text, 10, LONGEST, most) if body is not None]
    return found


def one_by_one(body: Body) -> tuple[list[tuple[int, Incoming]], Sequence[Mistake]]:
    assert sorted(place for column in body.columns for place in column.places) == list(range(len(body.lines)))
    return list(zip(body.lines, body.readings())), list(body.mistakes)


@settings(max_examples=EXAMPLES)
@given(st.one_of(st.lists(ROW, max_size=5), st.lists(PLAIN, max_size=12)).map("\n".join))
def test_columns_are_the_lines(text: str) -> None:
    readings: list[tuple[int, Incoming]] = []
    mistakes: list[Mistake] = []
    for found in lineprotocol.parse(text, 10, LONGEST):
        if isinstance(found, Mistake):
            mistakes.append(found)
        else:
            readings += [(found[0], each) for each in found[1]]
    assert one_by_one(read(text)) == (readings, mistakes)


@pytest.mark.parametrize("text", ["a,t=1 x=1 5\na,t=1 x=2 6\n", "a x=1.5,y=2i 5\nb x=1\n\n# c\n",
                                  "a x=1i 5\na x=2i 6"])
def test_plain_bodies_are_cut(text: str, monkeypatch: pytest.MonkeyPatch) -> None:
    """They aren't read line by line."""
    def never(*given_: object) -> Any:
        raise AssertionError(given_)
    monkeypatch.setattr(linebody, "_by_lines", never)
    assert read(text).lines


def test_too_many_are_not_all_read() -> None:
    for text in ("a x=1 5\n" * 3000, "a x=1,y=2 5\n" * 900, "wrong\n" * 3000):
        body = read(text)
        assert MOST < len(body.lines) + len(body.mistakes)


MAPPING = """
[[mapping]]
match = "plain/**"
scale = 0.1
target = "exp 2 60 1"

[[mapping]]
match = "both/**"
stream = "both"
scale = 0.1
target = "exp 2 60 1"

[[mapping]]
match = "words/**"
words = { 7 = 70 }
target = "exp 2 60 1"

[[mapping]]
match = "gone/**"
ignore = true
"""
T = 1764406800


def test_what_becomes_of_columns(path: Path, monkeypatch: pytest.MonkeyPatch) -> None:
    monkeypatch.setattr(column_intake, "BATCH", 700)

    async def work() -> None:
        async with over_http(MAPPING, path) as client:
            async def write(*lines: str, status: int = 204) -> Any:
                return await client.post("/write?precision=s", "\n".join(lines), status)
            store, counters = client.service.store(), client.service.counters
            rows = [f"plain/a v={at}.{at % 10} {T + at}" for at in range(1500)]
            assert await write(*rows) is None
            assert await store.query("plain/a/v", "count") == 1500
            total = sum(Decimal(f"{at}.{at % 10}") for at in range(1500))
            assert await store.query("plain/a/v", "sum") == total
            assert await write(*rows) is None           # all of them are there
            assert counters.of("readings") == {("influx", "stored"): 1500, ("influx", "there"): 1500}
            told = await write(f"plain/a v=1 {T + 1500}", f"plain/a v=2 {T}", f"plain/a v=3.25 {T + 1501}",
                               f"plain/a v=4 {T + 1502}", f"none/a v=4 {T}", status=400)
            assert (told["stored"], told["dropped"]) == (2, 3)
            assert [(each["line"], each["code"]) for each in told["refused"]] == [
                (2, "late"), (3, "scale"), (5, "unmatched")]
            # Unsorted lines of one stream are sorted, also where two names are one stream.
            assert await write(f"plain/b v=2 {T + 1}", f"plain/b v=1 {T}") is None
            assert await write(f"both/a v=2 {T + 1}", f"both/b v=1 {T}", f"both/a v=3 {T + 2}") is None
            assert await store.query("both", "count") == 3 and await store.query("plain/b/v", "count") == 2
            assert await write(f"words/a v=7 {T}", f"words/a v=8 {T + 1}") is None
            assert await store.query("words/a/v", "sum") == 78
            assert await write(f"gone/a v=7 {T}", "plain/c v=7", "plain/c v=8") is None
            assert await store.query("plain/c/v", "count") == 2 and client.service.intake.queued == 0
    run(work())


def test_a_name_that_is_known_is_known_no_more(path: Path) -> None:
    """A route is kept until the mapping is another."""
    async def work() -> None:
        async with over_http(MAPPING, path) as client:
            for at in range(2):
                assert await client.post("/write?precision=s", f"plain/a v={at} {T + at}", 204) is None
            from summarystore.server.mapping import Mappings
            client.service.intake.remap(Mappings([]))
            assert await client.post("/write?precision=s", f"plain/a v=2 {T + 2}", 204) is None    # it stands
            told = await client.post("/write?precision=s", f"plain/z v=2 {T + 2}", 400)
            assert told["refused"][0]["code"] == "unmatched"
    run(work())
