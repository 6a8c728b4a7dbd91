"""Graphite's lines and the server for them, times, patterns of paths and targets."""

from __future__ import annotations

import asyncio
import datetime
import os
import re
import signal
import time
from collections.abc import AsyncIterator
from contextlib import asynccontextmanager
from decimal import Decimal

import aiohttp
import pytest
from hypothesis import given
from hypothesis import strategies as st

from summarystore.errors import TimeError
from summarystore.server import refusals
from summarystore.server.app import Service
from summarystore.server.counters import Counters
from summarystore.server.graphite import GraphiteListener, LineError, Lines, reading_of
from summarystore.server.graphite_names import PatternError, Tree, node_test, path_of
from summarystore.server.graphite_targets import Bare, Call, TargetError, Text, read
from summarystore.server.graphite_times import time_of
from summarystore.server.http import Http

from ..waiting import run, soon, within
from .conftest import Serving

NOW = datetime.datetime(2026, 11, 29, 12, 30, 5, tzinfo=datetime.timezone.utc)     # a Sunday
NAMES = st.text("abc_-.", min_size=1, max_size=12)

# ---- lines ------------------------------------------------------------------------------


@pytest.mark.parametrize("line, name, value, moment", [
    (b"home.room 21.5 1764406800", "home.room", "21.5", 1764406800 * 10**9),
    (b"home.room\t21.5  1764406800\r", "home.room", "21.5", 1764406800 * 10**9),
    (b"a -1e3 1764406800.25", "a", "-1e3", 1764406800250000000),
    (b"a 1 0", "a", "1", 0),
    (b"a 1 -1", "a", "1", None),
    (b"a nan 5", "a", "nan", 5 * 10**9),            # what is no number the intake refuses by its name
    ("küche.wärme 1 5".encode(), "küche.wärme", "1", 5 * 10**9),
])
def test_line(line: bytes, name: str, value: str, moment: int | None) -> None:
    found = reading_of(line)
    assert found is not None
    assert (found.name, found.value, found.time, found.source) == (name, value, moment, "graphite")


@pytest.mark.parametrize("line", [
    b"a", b"a 1", b"a 1 2 3", b"a 1 N", b"a 1 nan", b"a 1 -2", b"a 1 0.0000000001", b"\xff 1 5", b"a 1 0x5",
    b"a;b 1 5", b"a;b= 1 5", b"a;=c 1 5", b"a;b=c;b=d 1 5", b"a 1 1_000", "a 1 \u0661".encode()])
def test_no_line(line: bytes) -> None:
    with pytest.raises(LineError):
        reading_of(line)


def test_tags_of_a_line() -> None:
    found = reading_of(b"disk.used;rack=a1;dc=x 42 5")
    assert found is not None and found.name == "disk.used" and found.tags == {"rack": "a1", "dc": "x"}
    assert reading_of(b"  ") is None


@given(st.binary(max_size=100))
def test_any_line(line: bytes) -> None:
    """A line is a reading, is blank, or is refused with a reason."""
    try:
        found = reading_of(line)
    except LineError as error:
        assert str(error)
    else:
        assert found is not None or not line.decode().split()


@given(NAMES, st.decimals(allow_nan=False, allow_infinity=False, places=3), st.integers(0, 2**40))
def test_no_digit_is_lost(name: str, value: Decimal, seconds: int) -> None:
    found = reading_of(f"{name} {value:f} {seconds}\n".encode())
    assert found is not None and found.time == seconds * 10**9
    assert isinstance(found.value, str) and Decimal(found.value) == value


@given(st.lists(st.binary(max_size=30).map(lambda line: line.replace(b"\n", b"")), max_size=20),
       st.lists(st.integers(1, 40), max_size=30), st.integers(1, 25))
def test_lines_from_any_pieces(given_lines: list[bytes], cuts: list[int], longest: int) -> None:
    """However it is cut, what comes out are the lines, but for those that are too long."""
    lines, data = Lines(longest), b"".join(line + b"\n" for line in given_lines)
    found: list[bytes] = []
    for cut in [*cuts, len(data) + 1]:
        if data:
            found += lines.take(data[:cut])
        data = data[cut:]
        assert len(lines.rest) <= longest
    assert found == [line for line in given_lines if len(line) <= longest]
    assert lines.too_long == sum(len(line) > longest for line in given_lines) and lines.rest == b""


# ---- times ------------------------------------------------------------------------------


@pytest.mark.parametrize("text, moment", [
    ("now", "2026-11-29 12:30:05"), ("", "2026-11-29 12:30:05"), ("-1h", "2026-11-29 11:30:05"),
    ("now-5min", "2026-11-29 12:25:05"), ("-1d12h", "2026-11-28 00:30:05"), ("+1d", "2026-11-30 12:30:05"),
    ("now - 2 days", "2026-11-27 12:30:05"), ("-1mon", "2026-10-30 12:30:05"),
    ("-90s", "2026-11-29 12:28:35"),
    ("today", "2026-11-29 00:00:00"), ("midnight", "2026-11-29 00:00:00"), ("noon", "2026-11-29 12:00:00"),
    ("noon yesterday", "2026-11-28 12:00:00"), ("6pm today", "2026-11-29 18:00:00"),
    ("12am", "2026-11-29 00:00:00"), ("12pm", "2026-11-29 12:00:00"), ("teatime", "2026-11-29 16:00:00"),
    ("10:30_20261129", "2026-11-29 10:30:00"), ("20261129", "2026-11-29 00:00:00"),
    ("11/29/26", "2026-11-29 00:00:00"), ("11/29/1999", "1999-11-29 00:00:00"),
    ("monday", "2026-11-23 00:00:00"), ("sunday", "2026-11-29 00:00:00"), ("nov 28", "2026-11-28 00:00:00"),
    ("noon_nov_28-1h", "2026-11-28 11:00:00"), ("1764406800", "2025-11-29 09:00:00"),
    ("0", "1970-01-01 00:00:00"),
])
def test_time(text: str, moment: str) -> None:
    expected = datetime.datetime.fromisoformat(f"{moment}+00:00")
    assert time_of(text, NOW) == int(expected.timestamp())


@pytest.mark.parametrize("text", [
    "-", "-1", "-5m", "25:00", "13pm", "0am", "soon", "nov 31", "13/01/26", "now-", "9" * 70, "-99999999999d",
    "1e3", "\u0661", "--1h", "now-1h-", "monday3"])
def test_no_time(text: str) -> None:
    with pytest.raises(TimeError):
        time_of(text, NOW)


@given(st.text(st.sampled_from("now-+ _:/0123456789adhmsypt"), max_size=20))
def test_any_time(text: str) -> None:
    try:
        time_of(text, NOW)
    except TimeError:
        pass


# ---- the tree ---------------------------------------------------------------------------


TREE = Tree(["home/living room/temperature", "home/attic/temperature", "cpu-0", "cpu-1", "cpu-10", "a",
             "a.lo", "x/y", "x.y"])


@pytest.mark.parametrize("pattern, expected", [
    ("*", ["a", "cpu-0", "cpu-1", "cpu-10"]), ("cpu-?", ["cpu-0", "cpu-1"]), ("cpu-[1-9]", ["cpu-1"]),
    ("cpu-[!0]", ["cpu-1"]), ("cpu-{1*,0}", ["cpu-0", "cpu-1", "cpu-10"]), ("*1*", ["cpu-1", "cpu-10"]),
    ("home.*.temperature", ["home.attic.temperature", "home.living_room.temperature"]),
    ("home.{attic,cellar}.t*", ["home.attic.temperature"]), ("home.attic", []),
    ("home.attic.temperature.*", ["home.attic.temperature.hi", "home.attic.temperature.lo"]),
    ("a.*", ["a.hi", "a.lo"]), ("x.*", ["x.y", "x.y~2"]), ("nothing", []), ("", None), ("[", None),
    ("a{b", None), ("{a{b}}", None), ("a[]", None)])
def test_pattern(pattern: str, expected: list[str] | None) -> None:
    if expected is None:
        with pytest.raises(PatternError):
            TREE.leaves(pattern)
    else:
        assert [path for path, _ in TREE.leaves(pattern)] == expected


def test_leaves() -> None:
    assert [leaf for _, leaf in TREE.leaves("a.*")] == [("a", "hi"), ("a.lo", "mid")]
    assert [leaf for _, leaf in TREE.leaves("x.*")] == [("x/y", "mid"), ("x.y", "mid")]
    assert path_of("home//living room/°C (1)") == "home._.living_room.°C__1_"
    assert len(list(TREE.all_leaves())) == 3 * 9 - 1      # `a.lo` is a stream by itself


def test_a_pattern_takes_no_long_time() -> None:
    start = time.process_time()
    assert not Tree(["a" * 500]).leaves("*a" * 400 + "*b")
    assert time.process_time() - start < 5


@given(st.text("ab.*?[]{},!-", min_size=1, max_size=15), st.text("ab-", min_size=1, max_size=8))
def test_any_pattern(pattern: str, node: str) -> None:
    try:
        node_test(pattern)(node)
        Tree([node]).leaves(pattern)
    except PatternError:
        pass


@given(st.text("abc", max_size=8),
       st.lists(st.sampled_from(["a", "b", "?", "*", "[ab]", "{a,bc}"]), max_size=6))
def test_patterns_mean_what_they_say(node: str, parts: list[str]) -> None:
    """The same by expressions of Python's, which can take long."""
    plain = {"?": ".", "*": ".*", "{a,bc}": "(?:a|bc)"}
    expected = re.fullmatch("".join(plain.get(part, part) for part in parts), node) is not None
    assert node_test("".join(parts))(node) is expected


# ---- targets ----------------------------------------------------------------------------


@pytest.mark.parametrize("text, target", [
    ("a.*.c", Bare("a.*.c")), ("a.{b,c}", Bare("a.{b,c}")),
    ('alias(a.{b,c}, "x, y")', Call("alias", [Bare("a.{b,c}"), Text("x, y")])),
    ("consolidateBy( alias(a,'n') ,'max')",
     Call("consolidateBy", [Call("alias", [Bare("a"), Text("n")]), Text("max")])),
    ("constantLine(1.5)", Call("constantLine", [Bare("1.5")]))])
def test_target(text: str, target: object) -> None:
    assert read(text) == target


@pytest.mark.parametrize("text", ["a(", "alias(a))", "alias(a) b", "", "'a'", "a" * 2001, "scale(" * 17])
def test_no_target(text: str) -> None:
    with pytest.raises(TargetError):
        read(text)


# ---- the server -------------------------------------------------------------------------


MAPPING = """
[http]
listen = "127.0.0.1:0"
[limits]
idle_seconds = 1
line = 200
connections = 3
[[mapping]]
match = "servers.*.load"
source = "graphite"
scale = 0.01
target = "exp 2 60 1"
"""


@asynccontextmanager
async def listening(serving: Serving, text: str = MAPPING) -> AsyncIterator[tuple[Service, GraphiteListener]]:
    async with serving(text) as service:
        listener = GraphiteListener(service, ("127.0.0.1", 0))
        await listener.start()
        try:
            yield service, listener
        finally:
            await listener.stop()


async def send(listener: GraphiteListener, *pieces: bytes) -> None:
    """Sends pieces, and waits until the server has read them to their end."""
    reader, writer = await asyncio.open_connection("127.0.0.1", listener.port)
    for piece in pieces:
        writer.write(piece)
        await writer.drain()
        await asyncio.sleep(0.01)
    writer.write_eof()
    assert await reader.read() == b""
    writer.close()


def test_lines_are_stored(serving: Serving) -> None:
    async def work() -> None:
        async with listening(serving) as (service, listener):
            rows = [f"servers.web1.load {at / 100:.2f} {1764406800 + at}\n" for at in range(3_000)]
            await send(listener, "".join(rows).encode())
            store = service.store()
            assert await store.query("servers.web1.load", "count") == len(rows)
            assert await store.query("servers.web1.load", "sum") == Decimal(sum(range(3_000))) / 100
            assert "listening on 127.0.0.1" in listener.state
    run(work())


def test_what_is_refused_is_counted_and_listed(serving: Serving) -> None:
    async def work() -> None:
        async with listening(serving) as (service, listener):
            await send(listener, b"servers.a.load 1 10\nservers.a.load nan 11\n"
                       b"nothing.of.it 1 10\nbad\n" + b"x" * 500 + b"\nservers.a.load 3", b" 1", b"2\r\n",
                       b"servers.a.load 4 13")
            await send(listener, b"servers.a.load 2 9\n")
            counted = service.counters.of("refused")
            codes = ("not_a_number", "late", "too_long", "unmatched", "malformed", "unterminated")
            assert counted == {("graphite", code): 1 for code in codes}
            assert await service.store().query("servers.a.load", "sum") == 4
            listed = {(each.name, each.code): each for each in listener.refusals.all()}
            assert listed["servers.a.load", "not_a_number"].count == 1
            assert [each.name for each in service.unmatched.list()] == ["nothing.of.it"]
            assert "'bad'" in listed["", "malformed"].reason
            service.attach(listener)
            http = Http(service, refusals.endpoints(service))
            await http.start()
            assert http.address is not None
            async with aiohttp.ClientSession() as session:
                async with session.get(f"http://127.0.0.1:{http.address[1]}/api/refused") as answer:
                    found = await answer.json()
            await http.stop()
            assert found["unlisted"] == 0 and len(found["refused"]) == 5
            row = next(each for each in found["refused"] if each["code"] == "late")
            assert row["name"] == "servers.a.load" and row["count"] == 1 and row["last"] > 1.7e9
    run(work())


def test_the_list_of_refusals_is_bounded() -> None:
    listed = refusals.Refusals(Counters(), 10)
    for at in range(100):
        listed.add("graphite", f"{at:03}" * 500, "late", "x" * 1000)
        listed.add("graphite", "000" * 500, "late", "y" * 1000)
    assert len(listed.all()) == 10 and listed.unlisted == 90
    assert listed.all()[0].count == 101 and len(listed.all()[0].reason) == len(listed.all()[0].name) == 200


def test_slow_and_too_many_clients(serving: Serving) -> None:
    async def work() -> None:
        async with listening(serving) as (service, listener):
            opened = [await asyncio.open_connection("127.0.0.1", listener.port) for _ in range(3)]
            await soon(lambda: ", 3 " in listener.state)
            more, writer = await asyncio.open_connection("127.0.0.1", listener.port)
            assert await more.read() == b""     # a fourth is refused
            writer.close()
            opened[0][1].write(b"servers.a.load 1")     # never ends
            assert await within(opened[0][0].read()) == b""
            opened[1][1].write(b"servers.a.load 1 10\n")     # was silent for longer, and is served
            await soon(lambda: service.counters.total("readings") > 1)
            assert service.counters.of("connections") == {("refused",): 1, ("slow",): 1}
            assert await service.store().query("servers.a.load", "count") == 1
            for _, writer in opened:
                writer.close()
    run(work())


def test_what_came_before_the_end_is_stored(serving: Serving) -> None:
    async def work() -> None:
        async with listening(serving) as (service, listener):
            reader, writer = await asyncio.open_connection("127.0.0.1", listener.port)
            writer.write(b"".join(b"servers.a.load 1 %d\n" % at for at in range(1, 2001)))
            await writer.drain()
            await soon(lambda: service.counters.total("readings"))
            await listener.stop()
            stored = service.counters.of("readings").get(("graphite", "stored"), 0)
            assert await service.store().query("servers.a.load", "count") == stored > 0
            writer.close()
    run(work())


def test_the_program_is_killed_under_lines(serving: Serving) -> None:
    """Each line is stored once, in order, whatever happens to the program."""
    async def work() -> None:
        async with listening(serving) as (service, listener):
            reader, writer = await asyncio.open_connection("127.0.0.1", listener.port)
            for at in range(1, 2001):
                writer.write(b"servers.a.load %d %d\n" % (at % 7, at))
                if at % 400 == 200:
                    await asyncio.sleep(0.1)
                    if service.supervisor.pid is not None:
                        os.kill(service.supervisor.pid, signal.SIGKILL)
                await writer.drain()
            writer.write_eof()
            await reader.read()
            writer.close()
            store = await service.supervisor.wait_open()
            assert await store.query("servers.a.load", "count") == 2000
            assert await store.query("servers.a.load", "sum") == sum(at % 7 for at in range(1, 2001))
    run(work())
