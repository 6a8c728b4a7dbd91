"""A store that the library has open in this process: how it is found, what an interrupt leaves, and kills."""

from __future__ import annotations

import dis
import fcntl
import gc
import os
import random
import subprocess
import sys
import time
import types
import warnings
from collections.abc import Iterator
from contextlib import contextmanager
from pathlib import Path
from typing import Any

import pytest

import summarystore
from summarystore import (backends, errors, library, library_connection, library_cursors, library_tasks,
                          outcome_of)
from summarystore.store import Store
from summarystore.wire import COMMAND

from .conftest import HOME, must_have_library

KILLS = int(os.environ.get("SUMMARYSTORE_TEST_KILLS", "25"))
EXAMPLES = HOME.parent / "examples"
FILES = {module.__file__ for module in (library, library_connection, library_cursors, library_tasks)}


@pytest.fixture
def by_library(path: Path, monkeypatch: pytest.MonkeyPatch) -> Path:
    """The path of a store that isn't there yet, and that the library opens."""
    monkeypatch.setenv(library.VARIABLE, must_have_library().path)
    monkeypatch.setattr(backends, "DEFAULT", "library")
    return path


# ---- where it is ------------------------------------------------------------------------


def test_where_it_is(by_library: Path, folder: Path, program: str, monkeypatch: pytest.MonkeyPatch) -> None:
    found = os.path.realpath(library.find_library().path)
    with summarystore.open(by_library, library=found) as store:
        assert store.backend == "library" and store.pid is None
    with summarystore.open(by_library, program=program) as store:
        assert store.backend == "program" and store.pid is not None
    with pytest.raises(ValueError, match="library, program"):
        Store(by_library, backend="pipe")   # type: ignore[arg-type]
    monkeypatch.setattr(backends, "DEFAULT", None)
    with summarystore.open(by_library) as store:
        assert store.backend == "library"


@pytest.mark.parametrize("text", [None, b"", b"no library", b"\x7fELF"])
def test_what_is_no_library(path: Path, folder: Path, text: bytes | None, monkeypatch: pytest.MonkeyPatch
                            ) -> None:
    file = folder / "libsummarystore.so.1"
    if text is not None:
        file.write_bytes(text)
    with pytest.raises(errors.LibraryMissingError, match=str(file)):
        summarystore.open(path, library=file)
    monkeypatch.setattr(backends, "DEFAULT", None)
    monkeypatch.setenv(library.VARIABLE, str(file))     # who names one wants that one
    with pytest.raises(errors.LibraryMissingError):
        summarystore.open(path)
    assert not path.exists()


def test_a_library_of_others(path: Path) -> None:
    with pytest.raises(errors.LibraryMissingError, match="summarystore_open"):
        library.load("libc.so.6")


def test_the_program_where_none_is_installed(path: Path, monkeypatch: pytest.MonkeyPatch) -> None:
    monkeypatch.delenv(library.VARIABLE, raising=False)
    monkeypatch.setattr(library, "NAME", "libsummarystore-of-nobody.so.1")
    monkeypatch.setattr(backends, "DEFAULT", None)
    with summarystore.open(path) as store:
        assert store.backend == "program"
    with pytest.raises(errors.LibraryMissingError):
        summarystore.open(path, backend="library")


# ---- what it answers --------------------------------------------------------------------


def said(store: Store, lines: list[str]) -> list[tuple[str, list[str]]]:
    """The replies to some lines."""
    return [(reply.head, list(reply.rows)) for reply in store.send(lines).replies]


@pytest.mark.parametrize("file", sorted(EXAMPLES.glob("[!s]*.commands")), ids=lambda file: str(file.stem))
def test_it_answers_as_the_program_does(by_library: Path, file: Path) -> None:
    lines = [line for line in file.read_text(encoding="utf-8").splitlines()
             if COMMAND.fullmatch(line) and len(line) <= 250]   # in a session no longer ones are taken
    with Store(by_library) as here, Store(f"{by_library}.other", backend="program") as other:
        for line in lines:
            assert said(here, [line]) == said(other, [line])
    assert summarystore.check(by_library) == summarystore.check(f"{by_library}.other")


def test_cursors_answer_as_those_of_the_program(by_library: Path) -> None:
    lines = ["cursor open a", "create a exp 2 4 1", *(f"append a {time} 7" for time in range(9)),
             "cursor next 1", "cursor open", "cursor open a b", "cursor open é", "cursor open a",
             "cursor open a", "append a 9 7", "cursor next 2", "cursor next 0", "cursor next 1001",
             "cursor next x", " cursor  \tnext 1 ", "cursor next", "cursor next 99", "cursor next 1",
             "cursor close", "cursor close", "cursor", f"cursor open {'a' * 33}"]
    with Store(by_library) as here, Store(f"{by_library}.other", backend="program") as other:
        assert said(here, lines) == said(other, lines)


def test_a_check_without_the_program(by_library: Path, monkeypatch: pytest.MonkeyPatch) -> None:
    with Store(by_library) as store, warnings.catch_warnings():
        warnings.simplefilter("error")
        with monkeypatch.context() as patch:
            patch.setenv("SUMMARYSTORE", "/nowhere/summarystore")
            with pytest.raises(errors.ProgramMissingError):
                store.check()
        store.create("a", "exp 2 1 1")
        assert store.check().streams == 1


def test_rows_that_come_slowly_are_stored_meanwhile(by_library: Path) -> None:
    with Store(by_library) as store:
        store.create("a", "exp 2 60 1")
        images: list[bytes] = []

        def rows() -> Iterator[tuple[int, int]]:
            for moment in range(5000):
                if moment % 1000 == 500:
                    time.sleep(0.05)
                    images.append(by_library.read_bytes())
                yield moment, 7
        assert store.append_many("a", rows()) == 5000
    assert len(set(images)) == 5


# ---- one at a time ----------------------------------------------------------------------


def test_each_keeps_the_other_out(by_library: Path) -> None:
    for first, second in (("library", "program"), ("program", "library"), ("library", "library")):
        with Store(by_library, backend=backends.NAMES[first == "program"]):
            with pytest.raises(errors.LockedError, match="another process uses it"):
                Store(by_library, backend=backends.NAMES[second == "program"])


def test_a_store_that_nobody_holds_is_closed(by_library: Path) -> None:
    store = Store(by_library)
    store.create("a", "exp 2 1 1")
    assert store.append_many("a", [(1, 1), (2, 2)]) == 2
    del store
    gc.collect()
    with Store(by_library, backend="program") as other:
        assert other.query("a", "sum") == 3


def test_no_descriptor_goes_to_other_programs(by_library: Path) -> None:
    with Store(by_library):
        here = library.descriptors_of(str(by_library))
        assert here and all(fcntl.fcntl(file, fcntl.F_GETFD) & fcntl.FD_CLOEXEC for file in here)
    assert not library.descriptors_of(str(by_library))


# ---- interrupts -------------------------------------------------------------------------


class Interrupts:
    """Raises KeyboardInterrupt once, at one of the places between a store and the library where a signal
    may: behind a call, at the begin of a function, and where a loop goes back."""

    PLACES = ("CALL", "CALL_FUNCTION_EX", "RESUME", "JUMP_BACKWARD")

    def __init__(self, at: int) -> None:
        self.at = at
        self.seen = 0
        self._before: dict[types.FrameType, str] = {}

    def _step(self, frame: types.FrameType, event: str, _: Any) -> Any:
        if event == "opcode":
            self.seen += self._before.get(frame) in self.PLACES
            if self.seen == self.at:
                self.seen += 1
                raise KeyboardInterrupt
            self._before[frame] = dis.opname[frame.f_code.co_code[frame.f_lasti]]
        return self._step

    def _call(self, frame: types.FrameType, event: str, _: Any) -> Any:
        # What is raised while an object is thrown away goes nowhere.
        if frame.f_code.co_filename not in FILES or frame.f_code.co_name == "_let_go":
            return None
        frame.f_trace_opcodes = True
        return self._step

    @contextmanager
    def on(self) -> Iterator[None]:
        """Raises within."""
        before = sys.gettrace()
        sys.settrace(self._call)
        try:
            yield
        finally:
            sys.settrace(before)


@pytest.mark.filterwarnings("ignore::summarystore.errors.ReopenedWarning")
def test_rows_that_are_interrupted_at_each_step(by_library: Path) -> None:
    """What is told of the rows is right, wherever an interrupt comes, and all goes on."""
    with Store(by_library) as store:
        store.create("a", "exp 2 1 1")
        at, stood, told = 0, 0, None
        while at == 0 or told is not None:
            at += 1
            rows = [(10 * at, 7), (10 * at + 1, 7), (10 * at, 8), (10 * at + 2, 7)]     # the third is late
            refused: list[object] = []
            try:
                with Interrupts(at).on():
                    stored = store.append_many("a", rows, refused=lambda row, _: refused.append(row))
                assert stored == 3 and refused == [rows[2]]
                told = None
            except KeyboardInterrupt as error:
                told = outcome_of(error)
                assert told is not None
            count = int(store.query("a", "count").lo)
            assert store.query("a", "sum") == 7 * count
            if told is not None:
                assert told.acknowledged <= count - stood <= told.acknowledged + len(told.unknown)
                rest = {rows[2], *told.unknown, *told.not_stored}      # the late one may be told, or not yet
                assert told.acknowledged + len(rest) == len(rows) and rest <= set(rows)
            stood = count
        assert at > 50


@pytest.mark.filterwarnings("ignore::summarystore.errors.ReopenedWarning")
@pytest.mark.parametrize("lines, heads", [
    (["append a {} 7"], ["ok"]), (["append c {} 7", "append a {} 7"], ["refused", "ok"]),
    (["landmark b open {}", "append b {} 7", "landmark b close {}"], ["ok", "ok", "ok"]),
    (["windows a"], ["windows"]),
    (["cursor open a", "cursor next 2", "cursor next 2", "cursor close"],
     ["cursor", "rows", "rows", "closed"])])
def test_lines_that_are_interrupted_at_each_step(by_library: Path, lines: list[str], heads: list[str]
                                                 ) -> None:
    """None is done twice, and what comes after has its own reply."""
    with Store(by_library) as store:
        store.create("a", "exp 2 4 1")
        store.create("b", "exp 2 4 1")
        at, stood, cut_off = 0, 0, True
        while cut_off:
            at, cut_off = at + 1, False
            request = None
            try:
                with Interrupts(at).on():
                    request = store.send([line.format(at) for line in lines])
            except KeyboardInterrupt:
                cut_off = True
            assert request is None or [reply.head.split()[0] for reply in request.replies] == heads
            count = int(store.query("a", "count").lo)
            assert count - stood in ([1] if not cut_off else [0, 1]) or "append" not in lines[-1]
            assert [reply.head.split()[0] for reply in store.send(["list", "last a", "drop c"]).replies
                    ] == ["list", "last", "refused"]
            stood = count
        assert at > 20


# ---- kills ------------------------------------------------------------------------------


APPENDER = """
import sys
from summarystore.store import Store
from summarystore.wire import COMMAND
store, size = Store(sys.argv[1], backend="library", existing=True), int(sys.argv[2])
time = (store.last_count("a") or 0) + 1
while True:
    if size:
        assert store.append_many("a", [(at, 7) for at in range(time, time + size)]) == size
    else:
        store.append("a", time, 7)
    time += size or 1
    print(time - 1, flush=True)
"""


@pytest.mark.parametrize("size", [0, 3, 2500])
def test_kills(by_library: Path, size: int) -> None:
    """What was acknowledged stands, each once, whenever the process is killed."""
    chance = random.Random(size)
    with Store(by_library) as store:
        store.create("a", "exp 2 60 1")
    here = {**os.environ, "PYTHONPATH": str(HOME / "src")}
    for _ in range(KILLS):
        child = subprocess.Popen([sys.executable, "-c", APPENDER, str(by_library), str(size)], env=here,
                                 stdout=subprocess.PIPE, text=True)
        assert child.stdout is not None and child.stdout.readline()
        time.sleep(chance.random() * 0.05)
        child.kill()
        said = child.stdout.read().splitlines()
        child.wait()
        child.stdout.close()
        with Store(by_library) as store:
            last = store.last_count("a")
            assert last is not None and (not said[:-1] or last >= int(said[-2]))
            assert store.query("a", "count") == last and store.query("a", "sum") == 7 * last
    assert summarystore.check(by_library).streams == 1
