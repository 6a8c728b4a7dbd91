"""What became of rows is told whatever cuts them off, and many bytes go through more than one process."""

from __future__ import annotations

import asyncio
import os
import signal
import threading
import time
from collections.abc import Callable, Iterator
from pathlib import Path

import pytest

from summarystore import Outcome, aio, errors, outcome_of
from summarystore.pipeline import Appends, Pipeline
from summarystore.store import Store
from summarystore.wire import readings

Row = tuple[object, object]


def rows_until(end: int, error: BaseException) -> Iterator[tuple[int, int]]:
    """So many rows, and then an exception."""
    for moment in range(1, end + 1):
        yield moment, 7
    raise error


def told_of(error: BaseException) -> Outcome:
    outcome = outcome_of(error)
    assert outcome is not None
    return outcome


def count_of(store: Store) -> int:
    count = store.query("a", "count")
    assert count.exact and isinstance(count.lo, int)
    return count.lo


@pytest.mark.parametrize("error", [KeyboardInterrupt(), ValueError("of the rows"), SystemExit()])
@pytest.mark.parametrize("end", [0, 1, 1500, 4000, 9999])
def test_rows_that_raise(plain: Store, error: BaseException, end: int) -> None:
    plain.create("a", "exp 2 1 1")
    with pytest.raises(type(error)) as raised:
        plain.append_many("a", rows_until(end, error))
    told = told_of(raised.value)
    assert not told.unknown and told.acknowledged == count_of(plain)
    expected = [(moment, 7) for moment in range(told.acknowledged + 1, end + 1)]
    assert list(told.not_stored) == expected
    assert any("append_many was cut off" in note for note in raised.value.__notes__)
    assert plain.append_many("a", expected) == len(expected)


def test_rows_that_raise_while_some_are_held(plain: Store) -> None:
    plain.create("a", "exp 2 1 1")
    with pytest.raises(KeyboardInterrupt) as raised:
        plain.append_many("a", rows_until(3333, KeyboardInterrupt()), lateness=500)
    told = told_of(raised.value)
    assert told.acknowledged == count_of(plain)
    assert sorted(told.not_stored, key=str) == sorted(
        ((moment, 7) for moment in range(told.acknowledged + 1, 3334)), key=str)


def test_rows_after_a_refused_one(plain: Store) -> None:
    plain.create("a", "exp 2 1 1")
    rows: list[Row] = [(moment, 7) for moment in range(1, 2001)]
    rows[500] = (501, "x")
    left = iter(rows)
    with pytest.raises(errors.RowsRefusedError) as raised:
        plain.append_many("a", left)
    assert raised.value.stored == 500 == count_of(plain)
    assert [*rows[:500], rows[500], *raised.value.not_stored, *left] == rows
    assert told_of(raised.value) == (500, (), raised.value.not_stored)


def test_a_callback_that_raises(plain: Store) -> None:
    plain.create("a", "exp 2 1 1")

    def refused(row: Row, error: Exception) -> None:
        raise RuntimeError("enough")
    with pytest.raises(RuntimeError) as raised:
        plain.append_many("a", [(1, 1), (2, 2), (2, 3), (4, 4)], refused=refused)
    assert told_of(raised.value).acknowledged == count_of(plain) == 3


def interrupted(store: Store, rows: list[tuple[int, int]], after: float) -> tuple[int, Outcome | None]:
    """Sends rows and is interrupted after some seconds: how many were drawn, and what is told."""
    left = iter(rows)
    timer = threading.Timer(after, os.kill, (os.getpid(), signal.SIGINT))
    told = None
    try:
        timer.start()
        store.append_many("a", left)
        timer.join()
        time.sleep(0.1)     # it comes at once where it hasn't come yet
    except KeyboardInterrupt as error:
        told = outcome_of(error)
    timer.join()
    return len(rows) - len(list(left)), told


@pytest.fixture
def interrupts() -> Iterator[None]:
    """Where the tests run in the background of a shell, the signal is passed over without a handler."""
    before = signal.signal(signal.SIGINT, signal.default_int_handler)
    yield
    signal.signal(signal.SIGINT, before)


@pytest.mark.filterwarnings("ignore::summarystore.errors.ReopenedWarning")
def test_an_interrupt_at_any_time(plain: Store, interrupts: None) -> None:
    plain.create("a", "exp 2 1 1")
    begin, cut_off = 1, 0
    for part in range(15):
        rows = [(moment, 7) for moment in range(begin, begin + 20_000)]
        before = count_of(plain)
        drawn, told = interrupted(plain, rows, 0.003 * part * part)
        stored = count_of(plain) - before
        if told is not None:
            cut_off += 1
            assert [*rows[:told.acknowledged], *told.unknown, *told.not_stored] == rows[:drawn]
            assert told.acknowledged <= stored <= told.acknowledged + len(told.unknown)
        begin += 20_000
    assert cut_off


def test_a_task_that_is_cancelled(path: Path) -> None:
    async def work() -> None:
        async with await aio.open(path) as store:
            await store.create("a", "exp 2 1 1")
            rows = [(moment, 7) for moment in range(1, 20_001)]
            left = iter(rows)
            task = asyncio.create_task(store.append_many("a", left))
            while not (await store.query("a", "count")).lo:
                await asyncio.sleep(0)
            task.cancel()
            with pytest.raises(asyncio.CancelledError) as raised:
                await task
            told = told_of(raised.value)
            assert [*rows[:told.acknowledged], *told.unknown, *told.not_stored, *left] == rows
            assert await store.query("a", "count") == told.acknowledged and not told.unknown
    asyncio.run(work())


def test_lines_that_are_taken_back() -> None:
    pipeline = Pipeline()
    rows = list(range(1000))
    first, second, third = (Appends(0, readings("a", [(row, row) for row in rows]), rows)
                            for _ in range(3))
    pipeline.add(first)
    pipeline.add(second)
    sent = pipeline.next_write().count(b"\n")
    pipeline.wrote()
    for request in (first, second, third):      # of the third nothing was ever handed over
        pipeline.withdraw(request)
    assert not pipeline.unwritten and second.done and third.done and not first.done
    pipeline.received(b"@0 ok 1 1\n" * sent)
    assert first.done and pipeline.idle and (first.answered, first.written) == (sent, sent)
    pipeline.withdraw(first)


# ---- more bytes than one process takes --------------------------------------------------


def test_rows_go_on_over_another_process(path: Path) -> None:
    with Store(path, renew_at=20_000) as store:
        store.create("a", "exp 2 1 1")
        pids = set()

        def rows() -> Iterator[tuple[int, int]]:
            for moment in range(1, 12_001):
                pids.add(store.pid)
                yield moment, 7
        assert store.append_many("a", rows()) == 12_000
        assert len(pids) > 3 and count_of(store) == 12_000


def test_threads_go_on_over_another_process(path: Path) -> None:
    with Store(path, renew_at=50_000) as store:
        failed: list[BaseException] = []

        def work(name: str) -> None:
            try:
                store.create(name, "exp 2 1 1")
                for part in range(3):
                    rows = [(moment, 7) for moment in range(part * 2000, part * 2000 + 2000)]
                    assert store.append_many(name, rows) == 2000
                    assert store.query(name, "count") == part * 2000 + 2000
            except BaseException as error:
                failed.append(error)
        threads = [threading.Thread(target=work, args=(name,)) for name in "abcd"]
        first = store.pid
        for thread in threads:
            thread.start()
        for thread in threads:
            thread.join()
        assert not failed and store.pid != first


def test_a_cursor_keeps_its_process(path: Path) -> None:
    with Store(path, renew_at=10_000) as store:
        store.create("a", "exp 2 4096 1")
        store.append_many("a", [(moment, 7) for moment in range(1, 2501)])
        windows = store.windows("a")
        assert next(windows).first == 1
        held = store.pid
        store.append_many("a", [(moment, 7) for moment in range(3000, 5001)])
        assert store.pid == held
        assert len(list(windows)) == 2499
        store.append("a", 6000, 7)
        assert store.pid != held and count_of(store) == 4502


def test_tasks_go_on_over_another_process(path: Path) -> None:
    async def work() -> None:
        async with aio.Store(path, renew_at=30_000) as store:
            for name in "abc":
                await store.create(name, "exp 2 4 1")
            first = store.pid
            rows = [(moment, 1) for moment in range(9000)]
            assert await asyncio.gather(*(store.append_many(name, rows) for name in "abc")) == [9000] * 3
            assert store.pid != first and (await store.check()).streams == 3
    asyncio.run(work())


def test_another_process_that_does_not_start(fake: Callable[[str], str], path: Path, program: str) -> None:
    """Somebody else takes the lock between the two: what became of the rows is told."""
    refuses = 'echo "summarystore: $3: another process uses it" >&2; exit 4'
    script = fake(f'[ "$2" = --existing ] && [ ! -e "$3.free" ] && {{ {refuses}; }}; exec {program} "$@"')
    store = Store(path, program=script, renew_at=30_000)
    store.create("a", "exp 2 1 1")
    left = iter(rows := [(moment, 7) for moment in range(1, 9001)])
    with pytest.raises(errors.LockedError) as raised:
        store.append_many("a", left)
    told = raised.value
    assert not told.unknown and told.acknowledged >= 1000
    assert [*rows[:told.acknowledged], *told.not_stored, *left] == rows
    Path(f"{path}.free").touch()
    with pytest.warns(errors.ReopenedWarning):
        assert count_of(store) == told.acknowledged
    store.close()
