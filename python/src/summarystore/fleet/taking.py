"""The program's `follow` as a process, and copies of its store."""

from __future__ import annotations

import asyncio
import fcntl
import os
import shutil
import subprocess
from collections.abc import Callable
from contextlib import suppress
from pathlib import Path
from typing import TypeVar

from ..errors import ProtocolError, SummaryStoreError, ending_of
from ..program import StorePath, command, find_program, store_word
from .frames import SIZE, probe

MOST = 1000
"""So many frames are given together: fewer bytes than a pipe takes at once, and so are their replies."""
T = TypeVar("T")
READ = 1 << 16
REFLINK = 0x40049409
"""FICLONE of Linux: the copy shares what the file has, where the file system can do that."""


class Follow:
    """One store that takes frames. It has the store alone while it is up."""

    def __init__(self, path: StorePath, program: str | None = None, checked: bool | None = None) -> None:
        self.program = find_program(program)
        self._checked = checked
        self.path = store_word(path)
        self._process: asyncio.subprocess.Process | None = None
        self._quiet = asyncio.Lock()
        self._rest = b""

    @property
    def pid(self) -> int | None:
        """The number of the process, if one is up."""
        return None if self._process is None else self._process.pid

    async def drop(self, names: list[str]) -> None:
        """Drops streams, before the process is up."""
        lines = "".join(f"drop {name}\n" for name in names)
        await asyncio.to_thread(self._plain, lines)

    async def names(self) -> list[str]:
        """The streams that stand, before the process is up."""
        rows = await asyncio.to_thread(self._plain, "list\n")
        return [row.split(" ")[0] for row in rows[1:]]

    def _plain(self, lines: str) -> list[str]:
        done = subprocess.run(command(self.program, self.path, self._checked), input=lines,
                              capture_output=True, text=True, check=False)
        if done.returncode != 0:
            raise ending_of(done.returncode, done.stderr.strip(), self.path)
        return done.stdout.splitlines()

    async def take(self, frames: bytes) -> list[str]:
        """Gives frames, at most `MOST`, and waits for the reply to each."""
        async with self._quiet:
            return await self._exchange(await self._up(), frames)

    async def _up(self) -> asyncio.subprocess.Process:
        if self._process is None:
            self._rest = b""
            self._process = await asyncio.create_subprocess_exec(
                *command(self.program, self.path, self._checked, "--batch"), "follow",
                stdin=asyncio.subprocess.PIPE, stdout=asyncio.subprocess.PIPE, stderr=asyncio.subprocess.PIPE,
                start_new_session=True)
            await self._exchange(self._process, probe("opened"))    # its reply says that the store is open
        return self._process

    async def _exchange(self, process: asyncio.subprocess.Process, frames: bytes) -> list[str]:
        """Gives frames, and waits for the reply to each. Where that is cut off the process is ended."""
        assert process.stdin is not None
        try:
            process.stdin.write(frames)
            return await self._replies(process, len(frames) // SIZE)
        except BaseException:
            await self._kill()      # it isn't known any more which replies are due
            raise

    async def _replies(self, process: asyncio.subprocess.Process, count: int) -> list[str]:
        assert process.stdout is not None and process.stderr is not None
        replies: list[bytes] = []
        while len(replies) < count:
            more = await process.stdout.read(READ)
            if not more:
                said = (await process.stderr.read()).decode("utf-8", "replace").strip()
                status = await process.wait()
                self._process = None
                raise ending_of(status, said, self.path)
            *whole, self._rest = (self._rest + more).split(b"\n")
            replies += whole
        if len(replies) > count or self._rest:
            raise ProtocolError(f"more replies came than frames were given: {replies[count:][:1]}")
        return [reply.decode("ascii") for reply in replies]

    async def _kill(self) -> None:
        process, self._process = self._process, None
        if process is not None:
            with suppress(ProcessLookupError):
                process.kill()
            await process.wait()

    async def copy(self, target: Path, told: Callable[[], T]) -> T:
        """Copies the file at a moment when each frame has its reply, so that the program opens the copy.
        Gives what is told at that moment."""
        async with self._quiet:
            found = told()
            await asyncio.to_thread(copy_store, Path(self.path), target)
            return found

    async def close(self) -> None:
        """Lets the process end in order."""
        async with self._quiet:
            process, self._process = self._process, None
            if process is not None:
                assert process.stdin is not None
                process.stdin.close()
                try:
                    await asyncio.wait_for(process.wait(), 10)
                except asyncio.TimeoutError:
                    process.kill()
                    await process.wait()


def copy_store(path: Path, target: Path) -> None:
    """Copies a store and the file of its names. Nothing may write to them meanwhile."""
    _copy_file(path, target)
    names = path.with_name(path.name + ".names.json")
    if names.exists():
        shutil.copyfile(names, target.with_name(target.name + ".names.json"))


def _copy_file(path: Path, target: Path) -> None:
    """By a shared copy where the file system can do that, else within the kernel."""
    with open(path, "rb") as source, open(target, "xb") as sink:
        with suppress(OSError):
            fcntl.ioctl(sink.fileno(), REFLINK, source.fileno())
            return
        left = os.fstat(source.fileno()).st_size
        while left > 0:
            moved = os.copy_file_range(source.fileno(), sink.fileno(), left)
            if moved == 0:
                raise SummaryStoreError(f"{path} became shorter while it was copied")
            left -= moved
