"""Threads share a store."""

from __future__ import annotations

import threading
from collections.abc import Callable, Iterator
from pathlib import Path

import pytest

from summarystore import errors
from summarystore.store import Store


def together(count: int, work: Callable[[int], None]) -> None:
    """Runs a function in so many threads at once. What one of them raises is raised."""
    failed: list[BaseException] = []
    gate = threading.Barrier(count)

    def run(number: int) -> None:
        gate.wait()
        try:
            work(number)
        except BaseException as error:
            failed.append(error)

    threads = [threading.Thread(target=run, args=(number,)) for number in range(count)]
    for thread in threads:
        thread.start()
    for thread in threads:
        thread.join()
    if failed:
        raise failed[0]


def test_sixteen_threads(plain: Store) -> None:
    def work(number: int) -> None:
        name = f"s{number}"
        plain.create(name, "exp 2 8 1")
        total = 0
        for time in range(1, 51):
            plain.append(name, time, time * number)
            total += time * number
            assert plain.query(name, "count").hi == time
        assert plain.append_many(name, [(time, 1) for time in range(100, 700)]) == 600
        assert plain.query(name, "sum") == total + 600
        assert sum(window.count for window in plain.windows(name)) == 650
        with pytest.raises(errors.LateError):
            plain.append(name, 1, 1)

    together(16, work)
    assert len(plain.list()) == 16


def test_sixteen_threads_in_one_stream(plain: Store) -> None:
    """Each value is stored or refused as late, and which is told."""
    plain.create("a", "exp 2 8 1")
    stored: list[int] = []

    def work(number: int) -> None:
        for time in range(number, 2000, 16):
            try:
                plain.append("a", time, time)
                stored.append(time)
            except errors.LateError as error:
                assert isinstance(error.newest, int) and error.newest >= time

    together(16, work)
    assert plain.query("a", "count") == len(stored) and plain.query("a", "sum") == sum(stored)


def test_eight_cursors_and_more_wait(plain: Store) -> None:
    plain.create("a", "exp 2 4096 1")
    plain.append_many("a", [(time, 0) for time in range(1, 2500)])
    iterators = [plain.windows("a") for _ in range(8)]
    for iterator in iterators:
        next(iterator)
    with pytest.raises(errors.CursorBusyError):
        plain.windows("a")
    found: list[int] = []
    started = threading.Event()

    def other() -> None:
        started.set()
        found.append(len(list(plain.windows("a"))))

    thread = threading.Thread(target=other)
    thread.start()
    started.wait()
    plain.append("a", 3000, 5)      # calls go on beside eight cursors
    assert not found
    assert len(list(iterators[0])) == 2498
    thread.join()
    assert found == [2500]
    with pytest.raises(errors.CursorBusyError):
        plain.check()
    del iterators, iterator
    assert plain.check().streams == 1


def test_an_iterator_shows_the_windows_as_they_were(plain: Store) -> None:
    plain.create("a", "exp 2 4096 1")
    plain.append_many("a", [(time, 0) for time in range(1, 2001)])
    windows = plain.windows("a")
    first = next(windows)
    plain.append_many("a", [(time, 1) for time in range(2001, 2101)])
    plain.drop("a")
    rest = list(windows)
    assert first.first == 1 and len(rest) == 1999 and all(window.sum == 0 for window in rest)
    with pytest.raises(errors.UnknownStreamError):
        plain.windows("a")
    for _ in range(20):     # a refused one gives its cursor back
        with pytest.raises(errors.UnknownStreamError):
            plain.windows("b")


def test_closing_waits_for_what_is_under_way(path: Path, backend: str) -> None:
    store = Store(path)
    store.create("a", "exp 2 1 1")
    begun = threading.Event()
    stored: list[int] = []

    def work() -> None:
        def rows() -> object:
            for time in range(1, 3001):
                yield time, 1
            begun.set()
        stored.append(store.append_many("a", rows()))

    thread = threading.Thread(target=work)
    thread.start()
    begun.wait()
    thread.join()
    store.close()
    with Store(path) as again:
        assert again.query("a", "count") == stored[0] == 3000


def test_calls_within_calls(plain: Store) -> None:
    """Sixteen threads, each of which asks while it sends: no session waits for itself."""
    for number in range(16):
        plain.create(f"s{number}", "exp 2 8 1")

    def work(number: int) -> None:
        def rows() -> Iterator[tuple[int, int]]:
            for time in range(1, 3001):
                if time % 500 == 0:
                    assert plain.query(f"s{number}", "count").lo < time
                yield time, 1
        assert plain.append_many(f"s{number}", rows()) == 3000

    together(16, work)


def test_iterators_that_are_let_go(plain: Store) -> None:
    plain.create("a", "exp 2 4096 1")
    plain.append_many("a", [(time, 0) for time in range(1, 2001)])
    for _ in range(50):
        assert next(plain.windows("a")).first == 1
    with plain.windows("a") as windows:
        assert next(windows).first == 1
    assert plain.check().streams == 1


def test_a_check_waits_for_calls(plain: Store) -> None:
    """A check, which ends the process for a while, comes between calls and not within one."""
    plain.create("a", "exp 2 8 1")
    begun = threading.Event()

    def work(number: int) -> None:
        if number == 0:
            def rows() -> Iterator[tuple[int, int]]:
                for time in range(1, 6001):
                    if time == 1500:
                        with pytest.raises(errors.CursorBusyError):
                            plain.check()
                        begun.set()
                    yield time, 1
            assert plain.append_many("a", rows()) == 6000
        else:
            begun.wait()
            assert plain.check().streams == 1

    together(4, work)
    assert plain.query("a", "count") == 6000
