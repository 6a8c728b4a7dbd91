"""The file STORE.position: from where a follower's log is to be read next, and when it was drained."""

from __future__ import annotations

import json
import os
from contextlib import suppress
from pathlib import Path


class Position:
    """That of one store in one log."""

    def __init__(self, store: str, log: str) -> None:
        self._store, self._log = store, log
        self._file = Path(f"{store}.position")
        self._kept: object = None

    def read(self) -> tuple[int | None, float]:
        """The place, None for the begin, and the moment at which the log was drained last, 0 where that isn't
        known. What was known of another file of the store isn't known of this one."""
        offset, drained = None, 0.0
        with suppress(OSError, ValueError, KeyError, TypeError):
            found = json.loads(self._file.read_text("utf-8"))
            if found["log"] == self._log:
                drained = float(found.get("drained", 0)) if found.get("store") == self._written() else 0.0
                offset = int(found["offset"])
        self._kept = self._told(offset, drained)
        return offset, drained

    def keep(self, offset: int | None, drained: float) -> None:
        """Keeps them. The place may be too early, and then what comes is `old`."""
        found = self._told(offset, drained)
        if found != self._kept and (offset is not None or drained):
            new = self._file.with_name(self._file.name + ".new")
            new.write_text(json.dumps(found) + "\n", "utf-8")
            os.replace(new, self._file)
            self._kept = found

    def _told(self, offset: int | None, drained: float) -> object:
        return {"log": self._log, "offset": offset, "drained": drained, "store": self._written()}

    def _written(self) -> int | None:
        """When the store was last written."""
        with suppress(OSError):
            return os.stat(self._store).st_mtime_ns
        return None
