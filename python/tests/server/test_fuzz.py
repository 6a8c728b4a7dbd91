"""Whatever is sent: it is read right, or refused with a reason, and nothing else."""

from __future__ import annotations

import json
import os
import tempfile
from decimal import Decimal
from pathlib import Path
from typing import Any

import pytest
from hypothesis import HealthCheck, given, settings
from hypothesis import strategies as st

from summarystore.server import asked, exactjson, lineprotocol
from summarystore.server.endpoints import ApiError
from summarystore.server.intake import Incoming
from summarystore.server.lineprotocol import Mistake

from ..waiting import run
from .conftest import ANY
from .serving import over_http

LONGEST = 65536
LONG = bool(os.environ.get("SUMMARYSTORE_LONG"))
EXAMPLES = 1000 if LONG else 60
TEXT = st.text(st.characters(blacklist_categories=("Cs",), blacklist_characters="\n\r\\"), min_size=1,
               max_size=8)
NUMBERS = st.one_of(st.integers(-10**18, 10**18).map(lambda n: (f"{n}i", str(n))),
                    st.integers(0, 10**18).map(lambda n: (f"{n}u", str(n))),
                    st.decimals(-10**9, 10**9, places=3).map(lambda d: (f"{d:f}", f"{d:f}")),
                    st.booleans().map(lambda b: (str(b).lower(), str(b).lower())),
                    st.text(st.characters(blacklist_categories=("Cs",)), max_size=8).map(
                        lambda t: ('"' + t.replace("\\", "\\\\").replace('"', '\\"') + '"', t)))
LINES = st.tuples(TEXT, st.dictionaries(TEXT, TEXT, max_size=3),
                  st.lists(st.tuples(TEXT, NUMBERS), min_size=1, max_size=3),
                  st.one_of(st.none(), st.integers(-10**19, 10**19)))
Line = tuple[str, dict[str, str], list[tuple[str, tuple[str, str]]], "int | None"]


def parsed(text: str) -> list[Any]:
    return list(lineprotocol.parse(text, 1, LONGEST))


def escaped(text: str, special: str) -> str:
    return "".join(f"\\{each}" if each in special else each for each in text)


def written(line: Line) -> str:
    measurement, tags, fields, time = line
    told = escaped(measurement, ", ")
    told += "".join(f",{escaped(key, ',= ')}={escaped(value, ',= ')}" for key, value in tags.items())
    told += " " + ",".join(f"{escaped(key, ',= ')}={value[0]}" for key, value in fields)
    return told if time is None else f"{told} {time}"


@settings(max_examples=EXAMPLES)
@given(st.lists(LINES.filter(lambda line: line[0][0] not in " #"), max_size=4))
def test_lines_are_read_as_they_were_meant(lines: list[Line]) -> None:
    found = parsed("\n".join(map(written, lines)))
    assert [each[1] for each in found] == [
        [Incoming(f"{measurement}/{key}", value[1], time, tags, "influx") for key, value in fields]
        for measurement, tags, fields, time in lines]


@settings(max_examples=EXAMPLES)
@given(st.text(st.sampled_from('ab,= \\"\n\r#01.ietT-\0é'), max_size=60))
def test_any_text_is_lines_and_mistakes(text: str) -> None:
    numbers = []
    for each in parsed(text):
        if isinstance(each, Mistake):
            assert each.reason
            numbers.append(each.line)
        else:
            assert each[1] and all(reading.name and reading.source == "influx" for reading in each[1])
            numbers.append(each[0])
    assert numbers == sorted(set(numbers)) and all(1 <= n <= text.count("\n") + 1 for n in numbers)


@pytest.mark.parametrize("line, readings", [
    ("a b=1", [("a/b", "1")]), ("a b=1.50e3", [("a/b", "1.50e3")]), ("a b=-.5", [("a/b", "-.5")]),
    ("a b=T,c=false", [("a/b", "true"), ("a/c", "false")]), ('a b="x\\"y\\\\z"', [("a/b", 'x"y\\z')]),
    ('a b="two\nlines" 5\na c=2', [("a/b", "two\nlines")]),
    ("a\\ b,t\\,u=v\\=w c\\ d=2i", [("a b/c d", "2")]),
    ("a b=1 5\r", [("a/b", "1")]), ("  a b=1", [("a/b", "1")]), ("a   b=1   5  ", [("a/b", "1")]),
    ("C:\\x y=1", [("C:\\x/y", "1")])])
def test_lines(line: str, readings: list[tuple[str, str]]) -> None:
    found = parsed(line)[0]
    assert [(each.name, each.value) for each in found[1]] == readings


@pytest.mark.parametrize("line", [
    "a", "a ", "a b", "a b=", "a b=x", "a b=1x", "a b=1i2", "a b=0x10", "a b=nan", "a b=inf", "a b=1 x",
    "a b=1 5 6",
    "a,b c=1", "a,b= c=1", "a,=b c=1", "a,b=1,b=2 c=1", ",a=b c=1", "a =1", "a b=1,", 'a b="x', 'a b="x"y',
    "a b=1 123456789012345678901", "a b=--1", "a b=1.2.3", "a,b=c", "=", "a b=1 5.5", "a b=t1", "a b=5uu"])
def test_mistakes(line: str) -> None:
    found = parsed(line + "\ngood v=1")
    assert isinstance(found[0], Mistake) and found[0].line == 1
    assert found[0].reason.startswith("unable to parse")
    assert found[-1][1][0].name == "good/v" and found[-1][0] == 2


def test_hostile_lines_take_no_time() -> None:
    for text in ("a b=" + "\\" * 60000, 'a b="' + '\\"' * 30000, "a" + ",b" * 30000, 'a b="\n' * 20000,
                 "a " + "b=1," * 16000, " " * 60000, "a b=1 " + " " * 60000 + "x"):
        parsed(text)


JSON = st.recursive(st.none() | st.booleans() | st.integers(-2**70, 2**70) | st.text(max_size=5)
                    | st.decimals(allow_nan=False, allow_infinity=False, places=4, min_value=-10**9,
                                  max_value=10**9),
                    lambda inner: st.lists(inner, max_size=3) | st.dictionaries(st.text(max_size=4), inner,
                                                                                max_size=3), max_leaves=10)


@settings(max_examples=EXAMPLES)
@given(JSON.filter(lambda value: "\\ud" not in ascii(value)))
def test_json_is_exact_both_ways(value: object) -> None:
    assert exactjson.loads(exactjson.dumps(value).encode()) == value


@settings(max_examples=EXAMPLES)
@given(st.binary(max_size=60) | st.text(max_size=40).map(str.encode))
def test_any_bytes_are_json_or_refused(data: bytes) -> None:
    try:
        exactjson.loads(data)
    except ValueError as error:
        assert str(error)


@settings(max_examples=EXAMPLES)
@given(st.text(max_size=30) | st.integers() | st.decimals() | st.booleans() | st.none()
       | st.from_regex(r"\A(now)?[+-]?[0-9]{1,12}(ns|us|ms|s|m|min|h|d|w|y)?\Z")
       | st.datetimes().map(lambda moment: moment.isoformat() + "+01:00"))
def test_any_time_is_one_or_refused(given_time: object) -> None:
    try:
        assert isinstance(asked.nanoseconds(given_time, "from"), int)
    except ApiError as error:
        assert error.status == 400 and error.reason and error.code in ("bad_time", "bad_request")


def test_times() -> None:
    assert asked.nanoseconds(Decimal("1.5"), "t") == 1_500_000_000 == asked.nanoseconds("1.5", "t")
    assert asked.nanoseconds("1970-01-01T00:00:01.5Z", "t") == 1_500_000_000
    assert asked.span("15min", "step") == asked.span("900", "step")


KEYS = ["stream", "kind", "from", "to", "value", "step", "rows", "limit", "match"]
VALUES = ["home/a", "sum", "has", "mean", "0", "-1", "9" * 20, "now", "now-1h", "\0", "1.5", "é", "*",
          "x" * 600, "nan", "1e9", "10"]
WORDS = st.dictionaries(st.sampled_from(KEYS), st.sampled_from(VALUES), max_size=5)


@settings(max_examples=300 if LONG else 10, suppress_health_check=list(HealthCheck))
@given(st.lists(st.tuples(st.sampled_from(["query", "series", "windows", "landmarks", "streams"]), WORDS),
                min_size=20, max_size=20), st.lists(st.binary(max_size=40) | JSON.map(
                    lambda value: exactjson.dumps(value).encode("utf-8", "replace")), max_size=10))
def test_any_request_is_answered(program: str, words: list[tuple[str, dict[str, str]]], bodies: list[bytes]
                                 ) -> None:
    async def work() -> None:
        with tempfile.TemporaryDirectory() as folder:
            async with over_http(ANY, Path(folder) / "any.store") as client:
                await client.post("/api/append", {"stream": "home/a", "time": 5, "value": 1})
                for address, query in words:
                    async with client.session.get(f"{client.base}/api/{address}", params=query) as answer:
                        told = json.loads(await answer.text())
                        assert answer.status == 200 or 400 <= answer.status < 500 and told["reason"], told
                for body in bodies:
                    for address in ("append", "landmark", "v2/write"):
                        async with client.session.post(f"{client.base}/api/{address}", data=body) as answer:
                            assert answer.status in (200, 204, 422) or 400 <= answer.status < 500
    run(work())
