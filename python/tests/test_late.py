"""Late readings: sorted as far as was asked for, and not acknowledged before they are stored."""

from __future__ import annotations

import os
import signal
from pathlib import Path

import pytest
from hypothesis import given
from hypothesis import strategies as st

from summarystore import errors
from summarystore.late import InOrder, ReorderBuffer
from summarystore.store import Store


@given(st.lists(st.integers(0, 200), max_size=100), st.integers(0, 50))
def test_order(times: list[int], lateness: int) -> None:
    given_times = list(InOrder(times, lambda time: time, lateness))
    assert sorted(given_times) == sorted(times)
    newest = late = -1
    behind = []
    for time in times:      # a reading that isn't later than lateness comes in order
        newest = max(newest, time)
        if time < newest - lateness:
            behind.append(time)
    for time in given_times:
        if time < late:
            assert time in behind
        late = max(late, time)


@given(st.lists(st.integers(0, 10**6), max_size=200), st.integers(1, 20))
def test_the_buffer_is_bounded(times: list[int], most: int) -> None:
    buffer: ReorderBuffer[int] = ReorderBuffer(10**6, most)
    left: list[int] = []
    for time in times:
        left += buffer.put(time, time)
        assert len(buffer) <= most
    left += buffer.flush()
    assert sorted(left) == sorted(times) and len(buffer) == 0


def test_rows_that_are_late(plain: Store) -> None:
    plain.create("a", "exp 2 1 1")
    assert plain.append_many("a", [(10, 1), (30, 3), (20, 2), (40, 4)], lateness=15) == 4
    met: list[object] = []
    assert plain.append_many("a", [(60, 1), (100, 3), (50, 2), (90, 4)], lateness=15,
                             refused=lambda row, error: met.append(row)) == 3
    assert met == [(50, 2)] and plain.query("a", "sum") == 18


def test_held_readings(plain: Store) -> None:
    plain.create("a", "exp 2 1 1")
    with plain.reordered("a", lateness=10) as buffer:
        first, second = buffer.append(20, 2), buffer.append(15, 1)
        assert not first.done() and not second.done() and plain.query("a", "count") == 0
        third = buffer.append(30, 3)
        assert first.result().values == 2 and second.result().values == 1 and not third.done()
        late = buffer.append(12, 9)
        assert isinstance(late.exception(), errors.LateError) and len(buffer) == 1
    assert third.result().values == 3


def test_held_readings_at_a_crash(path: Path) -> None:
    store = Store(path)
    store.create("a", "exp 2 1 1")
    buffer = store.reordered("a", lateness=100)
    held = [buffer.append(time, time) for time in (3, 1, 2)]
    assert store.pid is not None
    os.kill(store.pid, signal.SIGKILL)
    with pytest.raises(errors.KilledError):
        buffer.flush()
    told = [future.exception() for future in held]
    assert all(isinstance(error, errors.KilledError) for error in told)
    with pytest.warns(errors.ReopenedWarning):
        assert store.query("a", "count").hi <= 3
    store.close()


def test_what_is_no_reading_is_refused_at_once(plain: Store) -> None:
    plain.create("a", "exp 2 1 1")
    with plain.reordered("a", lateness=10) as buffer:
        with pytest.raises(errors.NumberError):
            buffer.append(1, "x")
    with pytest.raises(ValueError):
        ReorderBuffer(-1)
