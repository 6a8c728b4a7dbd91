"""The intake: what becomes of readings, and that nothing is said before it is so."""

from __future__ import annotations

import asyncio
import os
import signal
from collections.abc import Callable
from contextlib import suppress
from decimal import Decimal
from pathlib import Path

import pytest

from summarystore import Interval
from summarystore.server.app import Service
from summarystore.server.configuration import parse
from summarystore.server.errors import BusyError, UnavailableError
from summarystore.server.intake import Incoming, Result

from ..waiting import run
from .conftest import ANY, Serving

SECOND = 10**9


def incoming(time: int, value: object, name: str = "home/room") -> Incoming:
    return Incoming(name, value, time * SECOND)


def test_readings_are_stored(serving: Serving) -> None:
    async def work() -> None:
        async with serving(ANY) as service:
            found = await service.intake.append_many([incoming(10, "21.5"), incoming(11, "21.6")])
            assert [outcome.result for outcome in found] == [Result.STORED] * 2
            last = await service.store().last("home/room")
            assert last is not None and last.value == Interval("21.6")
            assert service.store().description("home/room") is not None
            assert service.intake.queued == 0
    run(work())


@pytest.mark.parametrize("value, code", [
    ("unavailable", "not_a_number"), ("", "not_a_number"), ("ON", "not_a_number"), ("21.55", "scale"),
    ("nan", "not_a_number"), ("1e400", "not_a_number"), (True, "not_a_number"), ("9" * 30, "range")])
def test_what_is_no_value_is_refused(serving: Serving, value: object, code: str) -> None:
    async def work() -> None:
        async with serving(ANY) as service:
            readings = [incoming(10, "1"), incoming(11, value), incoming(12, "3")]
            found = await service.intake.append_many(readings)
            assert [outcome.result for outcome in found] == [Result.STORED, Result.REFUSED, Result.STORED]
            assert found[1].code == code and found[1].final and found[1].reason
            assert await service.store().query("home/room", "count") == 2
    run(work())


def test_words_are_numbers_where_the_mapping_says_so(serving: Serving) -> None:
    async def work() -> None:
        async with serving('[[mapping]]\nmatch = "lamp"\nwords = { ON = 1, OFF = 0 }') as service:
            found = await service.intake.append_many([incoming(1, "ON", "lamp"), incoming(2, "OFF", "lamp"),
                                                      incoming(3, "dimmed", "lamp")])
            assert [outcome.code for outcome in found] == ["", "", "not_a_number"]
            assert await service.store().query("lamp", "sum") == 1
    run(work())


def test_late_and_repeated(serving: Serving) -> None:
    async def work() -> None:
        async with serving(ANY) as service:
            await service.intake.append_many([incoming(10, "21.5"), incoming(20, "21.6")])
            found = await service.intake.append_many([incoming(10, "21.5"), incoming(20, "21.7"),
                                                      incoming(20, "21.6"), incoming(15, "3")])
            assert [outcome.result for outcome in found] == [Result.THERE, Result.REFUSED, Result.THERE,
                                                             Result.REFUSED]
            assert found[1].code == found[3].code == "late"
            assert "1970-01-01 00:00:20" in found[1].reason
            assert await service.store().query("home/room", "count") == 2
    run(work())


def test_what_matches_nothing_is_counted_and_listed(serving: Serving) -> None:
    async def work() -> None:
        async with serving(ANY + "[limits]\nunmatched = 2\n") as service:
            names = ["a", "b", "a", "c", "d"]
            found = await service.intake.append_many([incoming(1, "1", name) for name in names])
            assert {outcome.code for outcome in found} == {"unmatched"}
            assert [(each.name, each.count) for each in service.unmatched.list()] == [("a", 2), ("b", 1)]
            assert (service.unmatched.count, service.unmatched.unlisted) == (5, 2)
    run(work())


def test_a_stream_that_stands_needs_no_mapping(serving: Serving) -> None:
    async def work() -> None:
        async with serving("") as service:
            await service.store().create("plain", "exp 2 60 1")
            assert (await service.intake.append(incoming(5, "7", "plain"))).code == "unmatched"
            service.intake.streams.learn(await service.store().list())
            assert (await service.intake.append(incoming(5, "7", "plain"))).good
            assert (await service.intake.append(incoming(6, "7.5", "plain"))).code == "scale"
            assert (await service.intake.append(incoming(6, "8.0", "plain"))).good
            last = await service.store().last("plain")
            assert last is not None and (last.time, last.value) == (6, Interval(8))
    run(work())


def test_a_mapping_that_the_program_refuses(serving: Serving) -> None:
    async def work() -> None:
        async with serving('[[mapping]]\nmatch = "a"\ntarget = "exp 0 0 0"') as service:
            found = await service.intake.append(incoming(1, "1", "a"))
            assert (found.result, found.code) == (Result.REFUSED, "mapping") and "PARAM" in found.reason
    run(work())


def test_the_queue_is_bounded(serving: Serving) -> None:
    async def work() -> None:
        async with serving(ANY + "[limits]\nqueue = 10\nlines = 10\n") as service:
            eight = [incoming(time, "1") for time in range(8)]
            first = asyncio.create_task(service.intake.append_many(eight))
            await asyncio.sleep(0)
            with pytest.raises(BusyError):
                await service.intake.append_many([incoming(time, "1") for time in range(8, 11)])
            more = [incoming(time, "1") for time in range(8, 40)]
            waited = asyncio.create_task(service.intake.append_many(more, wait=True))
            assert all(outcome.good for outcome in [*await first, *await waited])
            assert service.counters.total("busy") == 1
            assert await service.store().query("home/room", "count") == 40
    run(work())


def test_nothing_is_taken_any_more_once_it_is_closed(serving: Serving) -> None:
    async def work() -> None:
        async with serving(ANY) as service:
            task = asyncio.create_task(service.intake.append(incoming(1, "1")))
            await asyncio.sleep(0)
            await service.intake.close()
            assert task.done() and task.result().good
            for wait in (False, True):
                with pytest.raises(UnavailableError):
                    await service.intake.append(incoming(2, "1"), wait=wait)
    run(work())


def test_a_caller_that_is_cancelled_takes_nothing_back(serving: Serving) -> None:
    async def work() -> None:
        async with serving(ANY) as service:
            task = asyncio.create_task(service.intake.append(incoming(1, "1")))
            await asyncio.sleep(0)
            task.cancel()
            assert (await service.intake.append(incoming(2, "1"))).good
            assert await service.store().query("home/room", "count") == 2
    run(work())


def test_the_program_is_killed(serving: Serving) -> None:
    """What isn't final is sent again: then nothing is missing, and nothing is there twice."""
    async def work() -> None:
        async with serving(ANY) as service:
            killed: set[int] = set()
            seen: set[Result] = set()

            async def send(name: str) -> int:
                time = 0
                while len(killed) < 6:
                    left = [incoming(time := time + 1, "0.1", name) for _ in range(50)]
                    while left:
                        found = await service.intake.append_many(left, wait=True)
                        seen.update(outcome.result for outcome in found)
                        left = [each for each, outcome in zip(left, found) if not outcome.final]
                return time

            names = [f"home/{number}" for number in range(4)]
            sending = [asyncio.create_task(send(name)) for name in names]
            while not all(task.done() for task in sending):
                await asyncio.sleep(0.25)
                pid = service.supervisor.pid
                if pid is not None and pid not in killed:
                    with suppress(ProcessLookupError):
                        os.kill(pid, signal.SIGKILL)
                    killed.add(pid)
            for name, task in zip(names, sending):
                sent = await task
                assert await service.ask(lambda store: store.query(name, "count")) == sent
                total = await service.ask(lambda store: store.query(name, "sum"))
                assert total == Interval(Decimal(sent) / 10)
            assert Result.REFUSED not in seen
            assert service.counters.total("ended") >= 1
    run(work())


def test_what_becomes_of_each_is_told_apart(path: Path, fake: Callable[[str], str]) -> None:
    """Two of five have a reply, one is sent without one, and the program ends."""
    async def work() -> None:
        program = fake('''read line; echo "@0 list 1"; echo "@0 a exp 2 60 1 0 0 0 0"
            read line; echo "@0 list 1"; echo "@0 a exp 2 60 1 0 0 0 0"
            read line; echo "@0 last none"
            read line; echo "@0 ok 1 1"; read line; echo "@0 refused TIME"; read line
            kill -9 $$''')
        service = Service(parse(f'[store]\nprogram = "{program}"\n', "test.toml"), str(path))
        path.write_bytes(b"")
        await service.start()
        found = await service.intake.append_many([incoming(time, time, "a") for time in range(1, 6)])
        assert found[0].result is Result.STORED and found[1].result is Result.REFUSED
        assert {outcome.result for outcome in found[2:]} == {Result.UNKNOWN}
        assert all("9" in outcome.reason for outcome in found[2:])
        await service.stop()
    run(work())
