"""A copy of a store in memory, for questions while its disk is full.

At its opening the program brings the file in order, and without room it can't. In a copy it can, so what
stands is answered from there. The copy has no name any more once the program has opened it.
"""

from __future__ import annotations

import fcntl
import os
import shutil
import tempfile
from collections.abc import Iterator
from contextlib import contextmanager, suppress
from pathlib import Path

from .errors import DiskFullError, LockedError
from .program import is_unmade

MEMORY = "/dev/shm"
SPARE = 1 << 20
"""So many bytes are left free at least where a copy lies."""


@contextmanager
def copied(path: str, full: DiskFullError) -> Iterator[str]:
    """The path of a copy, while the context lasts. Raises what is given where none can be made."""
    if is_unmade(path):
        raise full
    try:
        source = open(path, "rb")
    except OSError:
        raise full from None
    with source:
        try:
            fcntl.flock(source, fcntl.LOCK_SH | fcntl.LOCK_NB)
        except BlockingIOError:
            raise LockedError(full.status, f"{path}: another process uses it") from None
        place = _place_for(os.fstat(source.fileno()))
        if place is None:
            raise full
        with tempfile.TemporaryDirectory(prefix="summarystore-full-", dir=place) as folder:
            file = Path(folder, "copy.store")
            try:
                with open(file, "xb") as out:
                    shutil.copyfileobj(source, out, 1 << 20)
            except OSError:
                raise full from None
            yield str(file)


def _place_for(store: os.stat_result) -> str | None:
    """A folder in memory, or else one of another disk, with room for a copy."""
    for place in (MEMORY, tempfile.gettempdir()):
        with suppress(OSError):
            room = shutil.disk_usage(place).free > 2 * store.st_size + SPARE
            if room and os.stat(place).st_dev != store.st_dev and os.access(place, os.W_OK):
                return place
    return None
