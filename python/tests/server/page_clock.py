"""The clock of the page's tests: the true one, or one that is put to another time.

With SUMMARYSTORE_TEST_AT=2026-10-25T02:59:50+02:00 each test begins at that time, for the page and for the
service that stands in. How fast time goes is the same.
"""

from __future__ import annotations

import os
import time
from datetime import datetime

AT = os.environ.get("SUMMARYSTORE_TEST_AT", "")
SCRIPT = """
  const ahead = %f * 1000;
  const now = Date.now.bind(Date);
  Date.now = () => now() + ahead;
  Date = new Proxy(Date, {
    construct: (made, given, to) => Reflect.construct(made, given.length ? given : [made.now()], to),
  });"""


class Clock:
    """What the time is, in seconds."""

    def __init__(self) -> None:
        self._ahead = 0.0

    def put(self, at: str = "") -> None:
        """Puts it to a time, or to the true one."""
        self._ahead = datetime.fromisoformat(at).timestamp() - time.time() if at else 0.0

    def now(self) -> float:
        """The present."""
        return time.time() + self._ahead

    @property
    def script(self) -> str:
        """What a page has to do to have this clock."""
        return f"{{ {SCRIPT % self._ahead} }}" if self._ahead else ""


CLOCK = Clock()
now = CLOCK.now
