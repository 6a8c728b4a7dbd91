"""A small disk of its own: a file system in memory that can be full."""

from __future__ import annotations

import os
import subprocess
from collections.abc import Iterator
from contextlib import contextmanager
from pathlib import Path

import pytest


class Disk:
    """One that is mounted."""

    def __init__(self, folder: Path) -> None:
        self.folder = folder
        self._filling = folder / "filling"

    def fill(self) -> None:
        """Takes all the room that there is."""
        with open(self._filling, "ab", buffering=0) as out:
            for size in (1 << 16, 4096):
                try:
                    while True:
                        out.write(bytes(size))
                except OSError:
                    pass

    def make_room(self) -> None:
        """Gives it back."""
        self._filling.unlink()


@contextmanager
def small_disk(folder: Path, size: str = "400k") -> Iterator[Disk]:
    """A disk of so many bytes. Where none can be mounted the test is left out, and says so."""
    place = folder / "disk"
    place.mkdir()
    done = subprocess.run(["mount", "-t", "tmpfs", "-o", f"size={size},mode=700", "tmpfs", str(place)],
                          capture_output=True, text=True, check=False)
    if done.returncode != 0:
        pytest.skip(f"a small disk: {done.stderr.strip() or os.strerror(done.returncode)}")
    try:
        yield Disk(place)
    finally:
        subprocess.run(["umount", "-l", str(place)], check=True)
