"""What isn't a reading, or is odd in another way, and must not be taken for what it isn't."""

from __future__ import annotations

import asyncio
import contextlib
import datetime
import json
import os
import signal
import threading
import time
import warnings
import zoneinfo
from collections.abc import Callable
from pathlib import Path
from typing import cast

import pytest

import summarystore
from summarystore import (CertificateError, Interval, LineTooLongError, NamesFileError, NotANumberError,
                          NumberError, ProcessEndedError, RowsRefusedError, StoreClosedError, TimeError)
from summarystore import aio
from summarystore.certificate import Bounds, Certificate, Cut, Known, Side
from summarystore.clock import Clock, span_of, zone_of
from summarystore.decimals import exact
from summarystore.description import EPOCH
from summarystore.errors import KindError
from summarystore.kinds import Kind
from summarystore.pipeline import Commands, Pipeline
from summarystore.program import Process
from summarystore.store import Store

from .waiting import in_time, joined, within
from summarystore.wire import whole

HUGE = 10**4200
"""A number whose text is longer than what a pipe takes at once."""


def test_numbers_and_words_that_are_longer_than_a_line(plain: Store) -> None:
    plain.create("a", "exp 2 1 1")
    for moment, value in ((1, HUGE), (HUGE, 1), (1, -HUGE), (1, 10**6000)):
        with pytest.raises(NumberError):
            plain.append("a", moment, value)
    with pytest.raises(KindError):
        plain.query("a", cast(Kind, "c" * 5000))
    with pytest.raises(LineTooLongError):
        plain.append("n" * 5000, 1, 1)
    for length in (33, 240, 300, 990, 5000):
        with pytest.raises(RowsRefusedError, match="NAME" if length < 256 else "LINE"):
            plain.append_many("n" * length, [(1, 1)])
    refused: list[object] = []
    rows = [(1, 1), (2, HUGE), (3, 3), (4, 10**6000), (HUGE, 5), (6, 6)]
    assert plain.append_many("a", rows, refused=lambda row, error: refused.append(row)) == 3
    assert refused == [rows[1], rows[3], rows[4]]


def test_rows_that_are_no_pairs(store: Store) -> None:
    store.create("a", "exp 2 1 1", scale=1)
    for rows in (["12", "34"], [(1, 2), (2, 2, 3)], [(1, 2), 5], [(1, 2), (2,)]):
        with pytest.raises(RowsRefusedError):
            store.append_many("a", rows)
    assert store.query("a", "count") == 1


def test_a_fork_holds_nothing_open(path: Path, backend: str) -> None:
    store = Store(path)
    store.create("a", "exp 2 1 1")
    told, tell = os.pipe()
    child = os.fork()
    if child == 0:
        try:
            store.append("a", 1, 1)
        except StoreClosedError:
            os.write(tell, b"closed")
            store.close()
        time.sleep(60)
        os._exit(0)
    try:
        assert os.read(told, 10) == b"closed"
        began = time.monotonic()
        store.append("a", 1, 1)
        store.close()
        Store(path).close()     # nor the lock
        in_time(began, 30)      # the child holds nothing that it waits for: that lives for 60
    finally:
        os.kill(child, signal.SIGKILL)
        os.waitpid(child, 0)
        os.close(told)
        os.close(tell)


def test_numpy_times_beyond_64_bits_of_nanoseconds() -> None:
    numpy = pytest.importorskip("numpy")
    seconds, nanoseconds = (Clock(unit, EPOCH, None) for unit in ("s", "ns"))
    assert seconds.time(numpy.datetime64("3000-01-01")) == 32503680000
    assert seconds.time(numpy.datetime64(5, "10s")) == 50
    with pytest.raises(TimeError):
        nanoseconds.time(numpy.datetime64("2600-01-01"))
    assert span_of(numpy.timedelta64(400 * 365, "D")) == 400 * 365 * 86400 * 10**9
    for odd in (numpy.timedelta64(1, "M"), numpy.timedelta64("NaT"), numpy.timedelta64(5)):
        with pytest.raises(TimeError):
            span_of(odd)
    for odd in (numpy.datetime64("NaT"), numpy.datetime64("NaT", "s")):
        with pytest.raises(TimeError):
            seconds.time(odd)


def test_truth_values_of_numpy_are_no_numbers() -> None:
    numpy = pytest.importorskip("numpy")
    for value in (numpy.True_, numpy.array([5])):
        with pytest.raises(NumberError):
            whole(value)
        with pytest.raises(NotANumberError):
            exact(value)


def test_a_zone_of_pytz_is_the_zone_and_not_its_local_mean_time() -> None:
    pytz = pytest.importorskip("pytz")
    clock = Clock("s", EPOCH, zone_of(pytz.timezone("Europe/Berlin")))
    assert clock.time("2026-11-29T10:00") == Clock("s", EPOCH, None).time("2026-11-29T10:00+01:00")
    assert Clock("s", EPOCH, zone_of(pytz.utc)).time("1970-01-01T00:01") == 60


def test_moments_that_no_clock_shows() -> None:
    clock = Clock("s", EPOCH, None)
    berlin = zoneinfo.ZoneInfo("Europe/Berlin")
    with pytest.raises(TimeError):
        clock.time(datetime.datetime(2026, 3, 29, 2, 30, tzinfo=berlin))
    twice = [clock.time(datetime.datetime(2026, 10, 25, 2, 30, tzinfo=berlin, fold=fold)) for fold in (0, 1)]
    assert twice[1] - twice[0] == 3600
    # In some places the clock goes forward at midnight: then the day begins at one.
    brazil = Clock("s", EPOCH, zoneinfo.ZoneInfo("America/Sao_Paulo"))
    assert brazil.begin("2018-11-04") == clock.time("2018-11-04T01:00-02:00")
    assert brazil.end("2018-11-03") == brazil.begin("2018-11-04") - 1


def test_fractions_are_of_seconds_and_whole() -> None:
    clock = Clock("us", EPOCH, datetime.timezone.utc)
    assert clock.time("1970-01-01T00:00:00,5") == clock.time("19700101T000000.500000") == 500000
    for text in ("2026-11-29T10:00.5", "2026-11-29_100000.1234567", "2026-11-29T10:00:00+01:00:00.1234567",
                 "2026-11-29T10:00:00.1234567"):
        with pytest.raises(TimeError):
            clock.time(text)


def test_names_are_written_while_the_store_is_open_alone(path: Path, backend: str) -> None:
    store = summarystore.open(path)
    store.create("room/a", "exp 2 1 1", scale="0.1")
    store.close()
    with pytest.raises(StoreClosedError):
        store.create("room/b", "exp 2 1 1", scale="0.1")
    with pytest.raises(StoreClosedError):
        store.describe("room/a", unit="K")
    text = Path(f"{path}.names.json").read_text()
    assert "room/b" not in text and '"K"' not in text


@pytest.mark.parametrize("change", [{"scale": "1"}, {"time": "ms"}, {"since": "1970-01-02"}, {"labels": []},
                                    {"scale": None, "time": None}, {"name": None}])
def test_names_whose_numbers_mean_something_else(path: Path, backend: str, change: dict[str, object]) -> None:
    with summarystore.open(path) as store:
        store.create("room/a", "exp 2 1 1", scale="0.1")
        store.append("room/a", 1, "1.5")
    file = Path(f"{path}.names.json")
    found = json.loads(file.read_text())
    found["streams"]["room/a"].update(change)
    file.write_text(json.dumps(found))
    with pytest.raises(NamesFileError):
        summarystore.open(path)


def test_paths_of_bytes(path: Path, backend: str) -> None:
    with summarystore.open(os.fsencode(path)) as store:
        store.create("room/a", "exp 2 1 1", scale="0.1")
    assert Path(f"{path}.names.json").exists()


def test_a_write_that_is_interrupted_may_have_been_made() -> None:
    pipeline = Pipeline()
    request = Commands(0, ["append a 1 1"])
    pipeline.add(request)
    assert pipeline.next_write() and request.written == 0
    pipeline.ended(lambda: ProcessEndedError(None, ""))     # between the write and its note
    assert isinstance(request.error, ProcessEndedError)
    assert request.error.unknown == ["append a 1 1"] and not request.error.not_stored


def test_late_rows_and_an_end_of_the_program(fake: Callable[[str], str], folder: Path) -> None:
    program = fake("[ \"$2\" = --existing ] && exit 4; read x; echo '@0 refused NO_CURSOR'; read x; "
                   "k=${x%% *}; read x; echo \"$k ok 1 1\"; echo \"$k refused TIME\"; exit 7")
    (folder / "b").write_text("")
    store = Store(folder / "b", program=program)
    with pytest.raises(ProcessEndedError) as caught:
        store.append_many("a", [(1, 1), (1, 2), (3, 3)])
    assert (caught.value.status, caught.value.acknowledged, list(caught.value.unknown)) == (7, 1, [(3, 3)])


@pytest.mark.by_program("it kills the process")
def test_who_waits_for_a_cursor_when_the_program_ends(plain: Store) -> None:
    plain.create("a", "exp 2 1 1")
    plain.append("a", 1, 1)
    held = [plain.windows("a") for _ in range(8)]
    found: list[object] = []

    def ninth() -> None:
        with warnings.catch_warnings():
            warnings.simplefilter("ignore")
            found.extend(plain.windows("a"))
    waiting = threading.Thread(target=ninth, daemon=True)
    waiting.start()
    time.sleep(0.3)
    assert plain.pid is not None
    os.kill(plain.pid, signal.SIGKILL)
    with pytest.raises(ProcessEndedError):
        next(held[0])
    joined(waiting)
    assert len(found) == 1


def test_a_task_that_waits_for_a_cursor_when_the_program_ends(path: Path) -> None:
    async def all_of_it() -> None:
        async with await aio.open(path) as store:
            await store.create("a", "exp 2 1 1")
            await store.append("a", 1, 1)
            held = [store.windows("a") for _ in range(8)]
            for windows in held:
                await windows.__anext__()
            ninth = asyncio.create_task(_first(store))
            await asyncio.sleep(0.1)
            assert store.pid is not None
            os.kill(store.pid, signal.SIGKILL)
            for windows in held:
                with contextlib.suppress(ProcessEndedError, StopAsyncIteration):
                    await windows.__anext__()
            assert await within(ninth) == 1

    async def _first(store: aio.Store) -> int:
        return len([window async for window in store.windows("a")])
    with warnings.catch_warnings():
        warnings.simplefilter("ignore")
        asyncio.run(all_of_it())


def test_a_held_reading_that_is_called_off_or_asks_for_another(store: Store) -> None:
    store.create("a", "exp 2 1 1")
    with store.reordered("a", 10) as buffer:
        first, second = buffer.append(1, 1), buffer.append(2, 2)
        assert not first.cancel()
        second.add_done_callback(lambda done: found.append(buffer.append(60, 6)))
        found: list[object] = []
        buffer.append(50, 5)
        assert first.result(0) and second.result(0) and len(found) == 1
    assert store.query("a", "count") == 4


def test_intervals_as_keys_and_what_two_of_them_hold() -> None:
    assert {Interval(5), Interval(5, 6)} >= {5} and hash(Interval("0.5")) == hash(Interval("0.50"))
    maybe = Interval(1, 2, maybe_none=True), Interval(5, 6, maybe_none=True)
    assert (maybe[0] & maybe[1]).none
    with pytest.raises(ValueError):
        _ = maybe[0] & Interval(5, 6)


@pytest.mark.by_program("it kills the process")
def test_an_end_whose_wait_is_interrupted(plain: Store, monkeypatch: pytest.MonkeyPatch) -> None:
    plain.create("a", "exp 2 1 1")

    def interrupted(process: Process, said: str) -> tuple[int, str]:
        raise KeyboardInterrupt
    assert plain.pid is not None
    os.kill(plain.pid, signal.SIGKILL)
    with monkeypatch.context() as patch, pytest.raises(KeyboardInterrupt):
        patch.setattr(Process, "ended", interrupted)
        plain.append("a", 1, 1)
    with pytest.warns(summarystore.ReopenedWarning):
        plain.append("a", 2, 2)


def test_a_certificate_whose_landmarks_are_told_backwards() -> None:
    window = Bounds(1, 10, 10, 100, 10, 10, 10, 100)
    cuts = (Cut(1, 10, Side(9, ((10, 9),)), Side(1, ((10, 1),))),)

    def told(*landmarks: tuple[int, int]) -> Certificate:
        return Certificate("count", "hi", 10, 50, 9, Known(), cuts, 9, (window,), landmarks, Known(),
                           len(landmarks))
    assert told((60, 70)).check() == 9
    for wrong in ([(99, 11)], [(80, 90), (60, 70)]):
        with pytest.raises(CertificateError):
            told(*wrong).check()
