"""The program as a process: where it is, how it is started, and how it ended."""

from __future__ import annotations

import os
import shutil
import stat
import subprocess
import weakref
from pathlib import Path
from typing import Union

from .errors import ProgramMissingError, ProtocolError, ending_of
from .records import Soundness
from .wire import soundness_of

StorePath = Union[str, bytes, "os.PathLike[str]", "os.PathLike[bytes]"]
"""The path of a store."""
VARIABLE = "SUMMARYSTORE"
CHUNK = 1 << 16


def find_program(program: str | os.PathLike[str] | None = None) -> str:
    """The path of the program: the one given, that of the variable SUMMARYSTORE, the one that this
    checkout has built, or the one on PATH."""
    given = os.fspath(program) if program is not None else os.environ.get(VARIABLE)
    if given:
        found = shutil.which(given)
        if found is None:
            raise ProgramMissingError(f"no program at {given}")
        return found
    here = Path(__file__).resolve()
    for above in here.parents[2:4]:
        built = above / "crates/summarystore/out/summarystore"
        if os.access(built, os.X_OK):
            return str(built)
    found = shutil.which("summarystore")
    if found is None:
        raise ProgramMissingError(f"no program `summarystore` on PATH: set {VARIABLE} to its path")
    return found


def store_word(path: StorePath) -> str:
    """The path of a store as an argument: one that begins with `-` stands in this folder."""
    word = os.fsdecode(path)
    return f"./{word}" if word.startswith("-") else word


def is_unmade(path: str) -> bool:
    """Whether no store stands there yet: there is no file, or one that isn't formatted."""
    try:
        if not stat.S_ISREG(os.stat(path).st_mode):
            return False
        with open(path, "rb") as file:
            head = file.read(2)
    except FileNotFoundError:
        return True
    except OSError:
        return False    # the program says why
    return len(head) < 2 or head[0] == 0


def command(program: str, path: str, checked: bool | None, *options: str) -> list[str]:
    """The words of a run over a store, up to its path.

    A store that is made is a checked one, and with False for `checked` a plain one. One that stands stays
    what it is, and with True it has to be checked.
    """
    wanted = is_unmade(path) if checked is None else checked
    return [program, *options, *(["--checked"] if wanted else []), path]


class Process:
    """One run of the program in the mode `sessions`. Its pipes don't block.

    With `existing` the store has to be there. `checked` is that of `command`.
    """

    def __init__(self, program: str, path: str, existing: bool, checked: bool | None) -> None:
        words = command(program, path, checked, "--batch", *(["--existing"] if existing else []))
        # A process group of its own: Ctrl-C at a terminal is for Python, which then ends it in order.
        self._child = subprocess.Popen([*words, "sessions"], stdin=subprocess.PIPE, stdout=subprocess.PIPE,
                                       stderr=subprocess.PIPE, bufsize=0, start_new_session=True)
        assert self._child.stdin and self._child.stdout and self._child.stderr
        self._stdin, self._stdout, self._stderr = (self._child.stdin, self._child.stdout,
                                                   self._child.stderr)
        self.input, self.output = self._stdin.fileno(), self._stdout.fileno()
        os.set_blocking(self.input, False)
        os.set_blocking(self.output, False)
        _LIVE.add(self)

    def close_pipes(self) -> None:
        """Closes this side of the pipes. In a process that was forked, so that it holds none open."""
        for pipe in (self._stdin, self._stdout, self._stderr):
            pipe.close()

    @property
    def pid(self) -> int:
        """The number of the process."""
        return self._child.pid

    def write(self, data: bytes) -> bool:
        """Writes all of a piece, or nothing where the pipe has no room or no reader."""
        try:
            written = os.write(self.input, data)
        except (BlockingIOError, BrokenPipeError):
            return False
        if written != len(data):
            raise ProtocolError(f"a pipe took {written} of {len(data)} bytes")
        return True

    def read(self) -> bytes | None:
        """What has come, None where nothing has, and b"" at the end."""
        try:
            return os.read(self.output, CHUNK)
        except BlockingIOError:
            return None

    def end_input(self) -> None:
        """Lets the program end when it has done all lines."""
        self._stdin.close()

    def kill(self) -> None:
        """Ends the program at once."""
        self._child.kill()

    def ended(self, said: str) -> tuple[int, str]:
        """Waits for the end: the status, and what was said on standard error, or else before."""
        self._stdin.close()
        told = self._stderr.read().decode("utf-8", "replace").strip()
        status = self._child.wait()
        self._stdout.close()
        self._stderr.close()
        return status, told or said.strip()


_LIVE: weakref.WeakSet[Process] = weakref.WeakSet()


def _after_fork() -> None:
    """A copy of the pipes in a child would keep the program from seeing the end of its input."""
    for process in list(_LIVE):
        process.close_pipes()


os.register_at_fork(after_in_child=_after_fork)


def check(path: StorePath, program: str | os.PathLike[str] | None = None, *,
          existing: bool = False) -> Soundness:
    """Looks a store over, as `summarystore STORE check` does. It must not be open elsewhere.

    Raises DamagedStoreError where it isn't sound, and StoreFileError where it can't be read. Where there
    is no store an empty one is told of: with `existing` that raises NoStoreError.
    """
    options = ["--existing"] if existing else []
    done = subprocess.run([find_program(program), *options, store_word(path), "check"],
                          stdin=subprocess.DEVNULL, capture_output=True, text=True, check=False)
    if done.returncode != 0:
        raise ending_of(done.returncode, done.stderr.strip() or done.stdout.strip(), os.fsdecode(path))
    return soundness_of(done.stdout)
