"""A store against a model in plain Python, over thousands of steps with kills in between."""

from __future__ import annotations

import os
import shutil
import signal
import tempfile
import warnings
from collections.abc import Callable, Iterator, Sequence
from dataclasses import dataclass, field
from pathlib import Path

import pytest
from hypothesis import HealthCheck, settings
from hypothesis import strategies as st
from hypothesis.stateful import RuleBasedStateMachine, invariant, precondition, rule

from summarystore import Presence, errors
from summarystore.backends import Name
from summarystore.kinds import Kind
from summarystore.store import Store

from .conftest import must_have_library

RUNS = int(os.environ.get("SUMMARYSTORE_TEST_RUNS", "20"))
STEPS = int(os.environ.get("SUMMARYSTORE_TEST_STEPS", "100"))
NAMES = st.sampled_from(["a", "b", "c"])
TARGETS = st.sampled_from(["exp 2 1 1", "exp 2 4 2", "power 1 1 2 1", "power 1 1 4 3"])
VALUES = st.one_of(st.integers(-5, 5), st.sampled_from([-2**63, 2**63 - 1]), st.integers(-2**63, 2**63 - 1))
GAPS = st.integers(1, 9)


@dataclass
class Stream:
    """What a stream has surely taken: its values, its last time, and the landmark that is open."""

    values: list[tuple[int, int]] = field(default_factory=list)
    marked: list[tuple[int, int]] = field(default_factory=list)
    last: int = -1
    opened: int | None = None

    def take(self, time: int, value: int) -> None:
        """Takes a value."""
        (self.marked if self.opened is not None else self.values).append((time, value))
        self.last = time

    def within(self, first: int, last: int) -> list[int]:
        """The values in a range."""
        return [value for time, value in self.values + self.marked if first <= time <= last]


class Machine(RuleBasedStateMachine):
    """Calls, each with its answer by the model. A call that was cut off may have been done or not."""

    BACKEND: Name = "program"
    library: str | None = None

    def __init__(self) -> None:
        super().__init__()
        memory = "/dev/shm" if os.access("/dev/shm", os.W_OK) else None
        self.folder = tempfile.mkdtemp(prefix="summarystore-", dir=memory)
        self.path = Path(self.folder) / "any.store"
        self.store = Store(self.path, backend=self.BACKEND, library=self.library)
        self.streams: dict[str, Stream] = {}

    def teardown(self) -> None:
        """Ends the store and its folder."""
        self.store.close()
        shutil.rmtree(self.folder)

    @rule(name=NAMES, words=TARGETS)
    def create(self, name: str, words: str) -> None:
        """Makes a stream, or is refused where it stands."""
        if name in self.streams:
            with pytest.raises(errors.StreamExistsError):
                self.store.create(name, words)
        else:
            self.store.create(name, words)
            self.streams[name] = Stream()

    @rule(name=NAMES, gap=st.integers(-3, 9), value=VALUES)
    def append(self, name: str, gap: int, value: int) -> None:
        """Takes a value, or is refused where it is late."""
        stream = self.streams.get(name)
        if stream is None:
            with pytest.raises(errors.UnknownStreamError):
                self.store.append(name, 1, value)
            return
        time = max(0, stream.last + gap)
        opens = stream.opened == time == stream.last and not any(t == time for t, _ in stream.marked)
        if time > stream.last or opens:
            self.store.append(name, time, value)
            stream.take(time, value)
        else:
            with pytest.raises(errors.LateError) as late:
                self.store.append(name, time, value)
            assert late.value.newest == stream.last

    @rule(name=NAMES, rows=st.lists(st.tuples(GAPS, VALUES), max_size=60))
    def append_many(self, name: str, rows: list[tuple[int, int]]) -> None:
        """Takes many values."""
        stream = self.streams.get(name)
        if stream is None:
            return
        sent = self.rows_after(stream, rows)
        assert self.store.append_many(name, sent) == len(sent)
        for time, value in sent:
            stream.take(time, value)

    @staticmethod
    def rows_after(stream: Stream, rows: list[tuple[int, int]]) -> list[tuple[int, int]]:
        """Rows with times later than all before."""
        time, found = max(stream.last, 0), []
        for gap, value in rows:
            time += gap
            found.append((time, value))
        return found

    @precondition(lambda self: bool(self.BACKEND == "program"))
    @rule(name=NAMES, rows=st.lists(st.tuples(GAPS, VALUES), min_size=1, max_size=3000),
          at=st.integers(0, 3000))
    def append_many_killed(self, name: str, rows: list[tuple[int, int]], at: int) -> None:
        """The process is killed among them. What is acknowledged is stored, and the rest as is told."""
        stream = self.streams.get(name)
        if stream is None:
            return
        sent = self.rows_after(stream, rows)

        def killing() -> Iterator[tuple[int, int]]:
            for number, row in enumerate(sent):
                if number == min(at, len(sent) - 1) and self.store.pid is not None:
                    os.kill(self.store.pid, signal.SIGKILL)
                yield row

        try:
            stored = self.store.append_many(name, killing())
        except errors.ProcessEndedError as ended:
            told = [*sent[:ended.acknowledged], *ended.unknown, *ended.not_stored]
            assert told == sent[:len(told)]
            unknown = sent[ended.acknowledged:ended.acknowledged + len(ended.unknown)]
            stored = ended.acknowledged + self.stored_of_unknown(name, [time for time, _ in unknown])
        for time, value in sent[:stored]:
            stream.take(time, value)

    def stored_of_unknown(self, name: str, times: list[int]) -> int:
        """How many of these were stored: by the last time of the stream, which the next call tells."""
        with warnings.catch_warnings():
            warnings.simplefilter("ignore", errors.ReopenedWarning)
            found = self.store.last(name)
        last = -1 if found is None else found.time
        assert isinstance(last, int)
        return sum(time <= last for time in times)

    @precondition(lambda self: bool(self.BACKEND == "program"))
    @rule()
    def kill(self) -> None:
        """Kills the process while nothing is under way. The next call tells, and then all goes on."""
        if self.store.pid is not None:
            os.kill(self.store.pid, signal.SIGKILL)
            with pytest.raises(errors.KilledError):
                self.store.list()
        with warnings.catch_warnings():
            warnings.simplefilter("ignore", errors.ReopenedWarning)
            assert len(self.store.list()) == len(self.streams)

    @rule()
    def reopen(self) -> None:
        """Closes the store, and opens it again."""
        self.store.close()
        self.store = Store(self.path, backend=self.BACKEND, library=self.library)

    @rule(name=NAMES, gap=st.integers(-2, 5))
    def open_landmark(self, name: str, gap: int) -> None:
        """Opens a landmark, or is refused."""
        stream = self.streams.get(name)
        if stream is None:
            return
        time = max(0, stream.last + gap)
        reply = self.store.send([f"landmark {name} open {time}"]).replies[0].head
        if stream.opened is not None:
            assert reply == "refused OPEN"
        elif time <= stream.last:
            assert reply == "refused TIME"
        else:
            assert reply.startswith("ok ")
            stream.opened = stream.last = time

    @rule(name=NAMES, gap=st.integers(-2, 5))
    def close_landmark(self, name: str, gap: int) -> None:
        """Closes a landmark, or is refused."""
        stream = self.streams.get(name)
        if stream is None:
            return
        time = max(0, stream.last + gap)
        reply = self.store.send([f"landmark {name} close {time}"]).replies[0].head
        if stream.opened is None:
            assert reply == "refused NOT_OPEN"
        elif time < stream.last:
            assert reply == "refused TIME"
        else:
            assert reply.startswith("ok ")
            stream.opened, stream.last = None, time

    @precondition(lambda self: bool(self.streams))
    @rule(data=st.data())
    def query(self, data: st.DataObject) -> None:
        """Each interval holds the truth."""
        name = data.draw(st.sampled_from(sorted(self.streams)))
        stream = self.streams[name]
        first = data.draw(st.integers(0, max(1, stream.last)))
        last = data.draw(st.integers(first, stream.last + 10) if stream.last >= 0 else st.just(first))
        true = stream.within(first, last)
        assert len(true) in self.store.query(name, "count", first, last)
        assert sum(true) in self.store.query(name, "sum", first, last)
        extremes: dict[Kind, Callable[[Sequence[int]], int]] = {"min": min, "max": max}
        for kind, truth in extremes.items():
            found = self.store.query(name, kind, first, last)
            assert truth(true) in found if true else found.none or found.maybe_none
        mean = self.store.mean(name, first, last)
        if true:
            assert mean.lo * len(true) <= sum(true) <= mean.hi * len(true)
        else:
            assert mean.none or mean.maybe_none
        value = data.draw(st.sampled_from(true)) if true else data.draw(VALUES)
        presence = self.store.has(name, value, first, last)
        assert presence is not (Presence.ABSENT if value in true else Presence.PRESENT)
        step = data.draw(st.integers(1, max(1, last - first + 1)))
        rows = self.store.series(name, "sum", first, last, step)
        for row in rows:
            assert isinstance(row.start, int)
            assert sum(stream.within(row.start, min(last, row.start + step - 1))) in row.interval
        if not self.has_landmarks(name):
            found = self.store.query(name, "sum", first, last)
            assert self.store.certify(name, "sum", "lo", first, last).check() == found.lo
            assert self.store.certify(name, "sum", "hi", first, last).check() == found.hi

    def has_landmarks(self, name: str) -> bool:
        """Whether the stream has any landmark."""
        return next(stream.landmarks for stream in self.store.list() if stream.name == name) > 0

    @precondition(lambda self: bool(self.streams))
    @rule(data=st.data())
    def look(self, data: st.DataObject) -> None:
        """What is kept exactly, the windows, and the newest value."""
        name = data.draw(st.sampled_from(sorted(self.streams)))
        stream = self.streams[name]
        assert [tuple(reading) for reading in self.store.values(name)] == stream.marked
        windows = list(self.store.windows(name))
        assert sum(window.count for window in windows) == len(stream.values)
        assert sum(window.sum for window in windows) == sum(value for _, value in stream.values)
        last = self.store.last(name)
        if last is None:
            assert stream.last == -1
        else:
            assert last.time == stream.last
            newest = max(stream.values + stream.marked, default=None)
            if newest is None:
                assert last.newest is None
            else:
                assert last.newest == newest[0] and last.value is not None and newest[1] in last.value

    @rule(name=NAMES)
    def drop(self, name: str) -> None:
        """Removes a stream, or is refused."""
        if self.streams.pop(name, None) is None:
            with pytest.raises(errors.UnknownStreamError):
                self.store.drop(name)
        else:
            self.store.drop(name)

    @rule()
    def check(self) -> None:
        """The file is sound."""
        assert self.store.check().streams == len(self.streams)

    @invariant()
    def counts(self) -> None:
        """No acknowledged value is lost."""
        if self.BACKEND == "library" or self.store.pid is not None:
            for stream in self.store.list():
                assert stream.values == len(self.streams[stream.name].values)
                assert stream.landmark_values == len(self.streams[stream.name].marked)


class LibraryMachine(Machine):
    """The same over the library, which has no process to kill."""

    BACKEND: Name = "library"

    def __init__(self) -> None:
        self.library = must_have_library().path
        super().__init__()


OFTEN = settings(max_examples=RUNS, stateful_step_count=STEPS, deadline=None,
                 suppress_health_check=list(HealthCheck))
TestAgainstTheModel = Machine.TestCase
TestAgainstTheModel.settings = OFTEN
TestLibraryAgainstTheModel = LibraryMachine.TestCase
TestLibraryAgainstTheModel.settings = OFTEN
