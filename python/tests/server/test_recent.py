"""What was stored is known to be there when it is sent again, also after a kill of the service."""

from __future__ import annotations

import asyncio
import random
import signal
import threading
import time
import urllib.error
from collections.abc import Callable, Iterator, Sequence
from contextlib import suppress
from http.client import HTTPException
from pathlib import Path

import pytest

import summarystore
from summarystore.server.journal import Journal
from summarystore.server.recent import Recent

from ..waiting import ended, joined, run
from .conftest import Serving
from .running import Running
from .test_intake import incoming

MERGED = '[[mapping]]\nmatch = "home/**"\nscale = 0.1\ntarget = "exp 2 1 1"\n'
Starting = Callable[[], Running]


def body(first: int, count: int = 96) -> bytes:
    """Lines of two streams, with a value that doesn't tell the time."""
    return b"".join(b"home,room=%d v=%d.%d %d\n" % (at % 2, at * 7 % 20, at % 10, at)
                    for at in range(first, first + count))


@pytest.fixture
def starting(folder: Path, path: Path) -> Iterator[Starting]:
    """Starts the service, and ends it with the test."""
    made: list[Running] = []

    def start() -> Running:
        if not made:
            made.append(Running(folder, "--listen=127.0.0.1:0", f"--store={path}", config=MERGED))
        else:
            made[0].start_again()
        return made[0]
    yield start
    for each in made:
        if each.process.poll() is None:
            each.process.kill()
            each.process.wait()


def test_the_same_body_after_a_kill(starting: Starting, path: Path) -> None:
    service = starting()
    assert service.ask("/write?precision=s", body(1))[0] == 204
    assert service.ask("/write?precision=s", body(1))[0] == 204
    service.end(signal.SIGKILL)
    service = starting()
    status, told = service.ask("/write?precision=s", body(1))
    assert status == 204, told
    status, told = service.ask("/write?precision=s", body(1).replace(b" v=", b" v=1"))
    assert (status, told["dropped"]) == (400, 96)       # other values at these times aren't there
    service.end()
    service = starting()
    assert service.ask("/write?precision=s", body(1))[0] == 204
    service.end()
    with summarystore.open(path) as store:
        assert [store.query(f"home,room={room}/v", "count") for room in (0, 1)] == [48, 48]


def test_kills_while_bodies_are_under_way(starting: Starting, path: Path) -> None:
    """Each body is sent until it is answered, and none is told as dropped."""
    drawn = random.Random(5)
    bodies = [body(first) for first in range(1, 1 + 96 * 60, 96)]
    service = starting()
    for each in bodies:
        status = 0
        while status != 204:
            killer = None
            if drawn.random() < 0.2:
                killer = threading.Thread(target=_kill, args=(service, drawn.random() * 0.03))
                killer.start()
            with suppress(urllib.error.URLError, ConnectionError, HTTPException, AssertionError):
                status, told = service.ask("/write?precision=s", each)
                assert status in (204, 503), told
            if killer is not None:
                joined(killer)
                assert status in (0, 204, 503)
                service = starting()
    service.end()
    with summarystore.open(path) as store:
        for room in (0, 1):
            assert store.query(f"home,room={room}/v", "count") == 48 * len(bodies)


def _kill(service: Running, seconds: float) -> None:
    time.sleep(seconds)     # at any moment of the request
    service.process.kill()
    ended(service.process)


def recent(path: Path, most: int = 50_000) -> Recent:
    """As a run that begins knows it."""
    return Recent(Journal(str(path), most), most)


ROWS = [(1, "1.5"), (2, "2.5"), (4, "3")]


@pytest.mark.parametrize("values, last, there", [
    (5, 0, 0), (6, 1, 1), (7, 2, 2), (8, 4, 3), (8, 2, 0), (7, 4, 0), (9, 5, 0), (4, 0, 0)])
def test_what_a_kill_left_open(path: Path, values: int, last: int, there: int) -> None:
    """How many values the stream has had, and its last time, say which rows were stored."""
    recent(path).begin("a", 5, 0, [*ROWS, (3, "late")])
    for _ in range(2):      # it is kept what was found out
        found = recent(path)
        found.settle("a", values, last)
        assert [found.value("a", count) for count, _ in ROWS] == [
            value if at < there else None for at, (_, value) in enumerate(ROWS)]
        assert found.value("a", 3) is None
        found.close()


def test_what_was_refused_isnt_there(path: Path) -> None:
    first = recent(path)
    first.begin("a", 0, -1, ROWS)
    first.stored("a", [ROWS[0], ROWS[2]], 2, 4)
    first.begin("a", 2, 4, [(5, 1)])
    first.stored("a", [(5, 1)], 3, 5)
    first.begin("b", 0, -1, ROWS)
    first.stored("b", ROWS, 3, 4)
    first.forget("b")
    first.close()
    again = recent(path)
    again.settle("a", 3, 5)
    assert [again.value("a", count) for count in (1, 2, 4, 5)] == ["1.5", None, "3", 1]
    assert again.value("b", 1) is None and len(again) >= 3


def test_an_older_store_has_less(path: Path) -> None:
    """What was put back to an older copy has its own truth."""
    first = recent(path)
    for values in range(0, 30, 3):
        rows = [(values + count, value) for count, value in ROWS]
        first.begin("a", values, values, rows)
        first.stored("a", rows, values + 3, values + 4)
    first.close()
    again = recent(path)
    again.settle("a", 30, 31)
    assert again.value("a", 1) == "1.5" and again.value("a", 28) == "1.5"
    again.close()
    again = recent(path)
    again.settle("a", 6, 7)
    assert again.value("a", 1) is None and again.value("a", 20) is None


def test_where_the_number_of_values_isnt_known_it_is_told_afterwards(path: Path) -> None:
    first = recent(path)
    first.begin("a", None, 0, ROWS)
    first.stored("a", ROWS, None, 4)
    assert first.value("a", 2) == "2.5"
    first.begin("a", 9, 4, [(5, "4")])
    first.stored("a", [(5, "4")], 10, 5)
    first.close()
    again = recent(path)
    again.settle("a", 10, 5)
    assert (again.value("a", 5), again.value("a", 6)) == ("4", None)


def test_the_file_is_bounded_and_a_cut_line_does_no_harm(path: Path) -> None:
    first = recent(path, 100)
    for count in range(1000):
        first.begin("a", count, count - 1, [(count, str(count))])
        first.stored("a", [(count, str(count))], count + 1, count)
    first.close()
    taken = Path(f"{path}.taken")
    assert len(first) == 100
    assert taken.stat().st_size + Path(f"{taken}.old").stat().st_size < 20_000
    with open(taken, "ab") as out:
        out.write(b'["x","a",1000,999,[[1000,')
    again = recent(path, 100)
    again.settle("a", 1000, 999)
    assert [again.value("a", count) for count in (899, 900, 999)] == [None, "900", "999"]
    again.begin("a", 1000, 999, [(1000, "n")])
    again.stored("a", [(1000, "n")], 1001, 1000)
    again.close()
    last = recent(path, 100)
    last.settle("a", 1001, 1000)
    assert (last.value("a", 999), last.value("a", 1000)) == ("999", "n")


def test_where_it_cant_be_written_readings_are_stored(serving: Serving, path: Path,
                                                      caplog: pytest.LogCaptureFixture) -> None:
    Path(f"{path}.taken").mkdir()

    async def work() -> None:
        async with serving("") as service:
            await service.store().create("a", "exp 2 1 1")
            service.intake.streams.learn(await service.store().list())
            found = await asyncio.gather(*(service.intake.append(incoming(at, at, "a")) for at in (1, 2)))
            assert all(outcome.good for outcome in found)
            assert (await service.intake.append(incoming(1, 1, "a"))).good
    logs: Sequence[str] = ()
    with caplog.at_level("WARNING", "summarystored"):
        run(work())
        logs = [record.getMessage() for record in caplog.records]
    assert sum("what was taken isn't kept" in line for line in logs) == 1
