"""How the program ends, and what is told of what was under way."""

from __future__ import annotations

import os
import signal
import subprocess
import sys
import warnings
from collections.abc import Callable, Iterator
from pathlib import Path

import pytest

import summarystore
from summarystore import errors, storefile
from summarystore.store import Store

Fake = Callable[[str], str]
READY = "read line; echo '@0 refused NO_CURSOR'"
STATUSES = {2: errors.UsageError, 3: errors.DamagedStoreError, 4: errors.StoreFileError,
            5: errors.InputFaultError, 6: errors.OutputFaultError, 7: errors.OutOfMemoryError,
            8: errors.InputTooLongError, 9: errors.RecordChangedError, 0: errors.UnexpectedEndError,
            77: errors.UnexpectedEndError}


@pytest.mark.parametrize("status,kind", STATUSES.items())
def test_statuses_at_the_opening(fake: Fake, folder: Path, status: int,
                                 kind: type[errors.ProcessEndedError]) -> None:
    with pytest.raises(kind) as ended:
        Store(folder / "a", program=fake(f"echo why; exit {status}"))
    assert type(ended.value) is kind and ended.value.status == status and ended.value.text == "why"
    assert not ended.value.unknown and "why" in str(ended.value)


@pytest.mark.parametrize("status,kind", STATUSES.items())
def test_statuses_during_a_call(fake: Fake, folder: Path, status: int,
                                kind: type[errors.ProcessEndedError]) -> None:
    store = Store(folder / "a", program=fake(f"{READY}; read line; echo said >&2; exit {status}"))
    with pytest.raises(kind) as ended:
        store.append("a", 1, 1)
    assert list(ended.value.unknown) == ["append a 1 1"] and ended.value.text == "said"
    store.close()


def test_a_signal(fake: Fake, folder: Path) -> None:
    store = Store(folder / "a", program=fake(f"{READY}; read line; kill -TERM $$"))
    with pytest.raises(errors.KilledError) as ended:
        store.append("a", 1, 1)
    assert ended.value.status == -signal.SIGTERM
    store.close()


@pytest.mark.parametrize("reply", ["@1 ok 1 1", "ok 1 1", "@7 count 1 1", "@7 ok 1", "@7 ok 1 x", "hello"])
def test_what_is_no_reply(fake: Fake, folder: Path, reply: str) -> None:
    store = Store(folder / "a", program=fake(f"{READY}; read line; echo '{reply}'; read line; exit 0"))
    with pytest.raises(errors.ProtocolError):
        store.append("a", 1, 1)
    store.close()


def test_a_program_that_is_another(fake: Fake, folder: Path) -> None:
    with pytest.raises(errors.ProtocolError):
        Store(folder / "a", program=fake("read line; echo '@0 hello'; read line"))
    with pytest.raises(errors.ProgramMissingError):
        Store(folder / "a", program=folder / "nothing")


def test_files_that_are_refused(folder: Path, backend: str) -> None:
    (folder / "text").write_text("hello, this is no store\n" * 100)
    with pytest.raises(errors.DamagedStoreError, match="not a store"):
        summarystore.open(folder / "text")
    with pytest.raises(errors.DamagedStoreError):
        summarystore.check(folder / "text")
    with pytest.raises(errors.StoreFileError, match="no such folder"):
        summarystore.open(folder / "missing" / "a.store")
    with pytest.raises(errors.StoreFileError, match="is a folder"):
        summarystore.open(folder)


def test_a_lock_held_by_another(path: Path, backend: str) -> None:
    with Store(path):
        with pytest.raises(errors.LockedError):
            Store(path)
    Store(path).close()


def test_a_name_like_an_option(folder: Path, backend: str, monkeypatch: pytest.MonkeyPatch) -> None:
    monkeypatch.chdir(folder)
    with summarystore.open("-x") as store:
        store.create("a", "exp 2 1 1")
    assert summarystore.check("-x").streams == 1


def test_the_next_call_opens_again_once(path: Path) -> None:
    store = Store(path)
    store.create("a", "exp 2 1 1")
    store.append("a", 1, 1)
    assert store.pid is not None
    os.kill(store.pid, signal.SIGKILL)
    with pytest.raises(errors.KilledError) as ended:
        store.append("a", 2, 2)
    assert list(ended.value.unknown) + list(ended.value.not_stored) == ["append a 2 2"]
    with pytest.warns(errors.ReopenedWarning, match="opened again"):
        assert store.query("a", "count").lo in (1, 2)
    with warnings.catch_warnings():
        warnings.simplefilter("error")
        store.append("a", 3, 3)
    store.close()


def test_a_store_that_cannot_be_opened_again(path: Path) -> None:
    store = Store(path)
    assert store.pid is not None
    os.kill(store.pid, signal.SIGKILL)
    with pytest.raises(errors.KilledError):
        store.list()
    with Store(path):
        for _ in range(2):
            with pytest.raises(errors.LockedError):
                store.list()
    with pytest.warns(errors.ReopenedWarning):
        assert not store.list()
    store.close()


@pytest.mark.parametrize("at", [0, 1, 999, 1000, 2500, 4999, 5000, 20000])
def test_rows_are_told_apart(path: Path, at: int) -> None:
    """The process is killed while rows are sent: acknowledged, unknown and not stored are all."""
    store = Store(path)
    store.create("a", "exp 2 1 1")
    taken = 0

    def rows() -> Iterator[tuple[int, int]]:
        nonlocal taken
        for time in range(1, 30001):
            if time == at + 1:
                assert store.pid is not None
                os.kill(store.pid, signal.SIGKILL)
            taken = time
            yield time, 7

    with pytest.raises(errors.KilledError) as ended:
        store.append_many("a", rows())
    told = ended.value
    first = [(time, 7) for time in range(1, told.acknowledged + 1)]
    assert [*first, *told.unknown, *told.not_stored] == [(time, 7) for time in range(1, taken + 1)]
    with pytest.warns(errors.ReopenedWarning):
        count = store.query("a", "count").lo
    assert told.acknowledged <= count <= told.acknowledged + len(told.unknown)
    store.append_many("a", [(time, 7) for time in range(int(count) + 1, 30001)])
    assert store.query("a", "sum") == 7 * 30000
    store.close()


def test_a_cursor_ends_with_its_process(path: Path) -> None:
    store = Store(path)
    store.create("a", "exp 2 4096 1")
    store.append_many("a", [(time, 0) for time in range(1, 1501)])
    windows = store.windows("a")
    assert next(windows).first == 1 and store.pid is not None
    os.kill(store.pid, signal.SIGKILL)
    with pytest.raises(errors.ProcessEndedError):
        list(windows)
    with pytest.warns(errors.ReopenedWarning):
        assert len(list(store.windows("a"))) == 1500
    store.close()


@pytest.mark.filterwarnings("ignore::summarystore.errors.ReopenedWarning")
def test_something_else_changes_the_file(path: Path, backend: str) -> None:
    """Nothing is answered of it any more, and what became of rows is told."""
    store = Store(path)
    store.create("a", "exp 2 4096 1")
    store.append_many("a", [(moment, 1) for moment in range(1, 5001)])
    with open(path, "r+b") as file:
        file.seek(storefile.FIRST_SLOT)
        file.write(b"\7" * (path.stat().st_size - storefile.FIRST_SLOT))
    if backend == "library":
        # It has the whole file in memory, and answers from there.
        assert store.query("a", "count", 1, 5000) == 5000
        store.close()
        return
    with pytest.raises(errors.RecordChangedError) as changed:
        store.query("a", "sum", 1, 3000)
    assert changed.value.status == 9 and list(changed.value.unknown) == ["query a sum 1 3000"]
    for _ in range(2):
        with pytest.raises(errors.DamagedStoreError, match="damaged slot 0"):
            store.query("a", "sum")
    with pytest.raises(errors.DamagedStoreError) as ended:
        store.append_many("a", [(6000, 1), (6001, 1)])
    assert ended.value.acknowledged == 0 and list(ended.value.not_stored) == [(6000, 1), (6001, 1)]
    store.close()


def test_a_broken_pipe(fake: Fake, folder: Path) -> None:
    """The program closes its input while rows are written, and ends a little later."""
    store = Store(folder / "a", program=fake(f"{READY}; exec 0<&-; sleep 0.2; exit 5"))
    with pytest.raises(errors.InputFaultError) as ended:
        store.append_many("a", [(time, 0) for time in range(100000)])
    assert ended.value.acknowledged == 0
    store.close()


def test_a_fork_does_not_touch_it(path: Path, backend: str) -> None:
    store = Store(path)
    child = os.fork()
    if child == 0:
        try:
            store.close()
            store.list()
        except errors.StoreClosedError:
            os._exit(7)
        os._exit(1)
    assert os.waitstatus_to_exitcode(os.waitpid(child, 0)[1]) == 7
    assert not store.list()
    store.close()


SENDER = """
import sys
from summarystore.store import Store
store = Store(sys.argv[1])
store.create("a", "exp 2 4096 1")
print("ready", flush=True)
store.append_many("a", ((time, 1234567890123456789) for time in range(10**12, 10**13)))
"""


def test_a_killed_sender_leaves_no_half_line(path: Path) -> None:
    """A kill of Python while its pipe is full: what is stored are whole readings, the first ones."""
    child = subprocess.Popen([sys.executable, "-c", SENDER, str(path)], stdout=subprocess.PIPE,
                             env={**os.environ, "PYTHONPATH": str(Path(__file__).parents[1] / "src")})
    assert child.stdout is not None and child.stdout.readline() == b"ready\n"
    while path.stat().st_size < 100_000:    # until it is well under way
        assert child.poll() is None
        os.sched_yield()
    child.kill()
    child.wait()
    child.stdout.close()
    store = waited_for(path)
    count = store.query("a", "count").lo
    assert count > 100
    assert store.query("a", "sum") == 1234567890123456789 * count
    assert store.query("a", "max") == store.query("a", "min") == 1234567890123456789
    last = store.last("a")
    assert last is not None and last.time == 10**12 + count - 1
    store.close()


def waited_for(path: Path) -> Store:
    """A store whose last program is about to end, since its input has."""
    while True:
        try:
            return Store(path)
        except errors.LockedError:
            os.sched_yield()


@pytest.fixture
def small_disk(folder: Path) -> Iterator[Path]:
    """A file system of 200 KB."""
    disk = folder / "disk"
    disk.mkdir()
    made = subprocess.run(["mount", "-t", "tmpfs", "-o", "size=200k", "tmpfs", str(disk)],
                          capture_output=True, check=False)
    if made.returncode != 0:
        pytest.skip("no file system may be mounted here")
    yield disk
    subprocess.run(["umount", "-l", str(disk)], check=True)


def test_a_full_disk(small_disk: Path, backend: str) -> None:
    store = summarystore.open(small_disk / "a.store")
    store.create("a", "exp 2 65536 1", unit="W")
    first = 100     # what is taken at once after them may be more than there is room for
    assert store.append_many("a", ((time, 7) for time in range(1, first + 1))) == first
    with pytest.raises(errors.DiskFullError) as ended:
        store.append_many("a", ((time, 7) for time in range(first + 1, 100000)))
    told = ended.value
    store.close()
    subprocess.run(["mount", "-o", "remount,size=20m", str(small_disk)], check=True)
    with summarystore.open(small_disk / "a.store") as again:
        count = again.query("a", "count").lo
        assert first + told.acknowledged <= count <= first + told.acknowledged + len(told.unknown)
        assert again.query("a", "sum") == 7 * count
        description = again.description("a")
        assert description is not None and description.unit == "W"


def test_a_full_disk_keeps_the_names(small_disk: Path, backend: str) -> None:
    with summarystore.open(small_disk / "a.store") as store:
        store.create("one", "exp 2 1 1", unit="W")
        before = (small_disk / "a.store.names.json").read_text()
        filler = os.open(small_disk / "filler", os.O_WRONLY | os.O_CREAT)
        with pytest.raises(OSError):
            while True:
                os.write(filler, b"0" * 4096)
        os.close(filler)
        with pytest.raises(OSError):
            store.create("two", "exp 2 1 1", labels={"long": "x" * 10000})
        assert (small_disk / "a.store.names.json").read_text() == before
        assert [stream.name for stream in store.list()] == ["one"]


def test_another_folder_and_a_store_that_is_gone(folder: Path, program: str,
                                                 monkeypatch: pytest.MonkeyPatch) -> None:
    """A store is opened again where it was opened, and one that is gone isn't made anew."""
    monkeypatch.chdir(folder)
    (folder / "other").mkdir()
    store = summarystore.open("a.store")
    store.create("a", "exp 2 1 1", unit="W")
    monkeypatch.chdir(folder / "other")
    for _ in range(2):
        assert store.pid is not None
        os.kill(store.pid, signal.SIGKILL)
        with pytest.raises(errors.KilledError):
            store.list()
        with pytest.warns(errors.ReopenedWarning):
            assert len(store.list()) == 1
    store.create("b", "exp 2 1 1", unit="W")
    assert not list((folder / "other").iterdir())
    os.kill(store.pid or 0, signal.SIGKILL)
    with pytest.raises(errors.KilledError):
        store.list()
    (folder / "a.store").rename(folder / "b.store")
    with pytest.raises(errors.NoStoreError):
        store.list()
    assert not (folder / "a.store").exists()
    store.close()
