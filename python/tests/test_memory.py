"""Much goes through little memory."""

from __future__ import annotations

import os
import subprocess
import sys
from pathlib import Path

from .conftest import HOME, ROWS

SCRIPT = """
import resource, sys
from summarystore.store import Store

def peak():
    return resource.getrusage(resource.RUSAGE_SELF).ru_maxrss

with Store(sys.argv[1], backend=sys.argv[3]) as store:
    store.create("a", "exp 2 65536 1")
    store.append_many("a", [(time, time) for time in range(1, 10001)])
    assert sum(window.count for window in store.windows("a")) == 10000
    before = peak()
    more = int(sys.argv[2])
    assert store.append_many("a", ((time, time) for time in range(20001, 20001 + more))) == more
    sent = peak()
    count = 0
    for window in store.windows("a"):
        count += window.count
    assert count == 10000 + more
    print(sent - before, peak() - sent)
"""


def test_rows_and_windows(path: Path, backend: str) -> None:
    """What is sent and what is read takes no more memory where there is more of it: 3 MB are room. The
    program keeps what a cursor shows, and of the library this process does."""
    here = {**os.environ, "PYTHONPATH": str(HOME / "src")}
    done = subprocess.run([sys.executable, "-c", SCRIPT, str(path), str(ROWS), backend], capture_output=True,
                          text=True, env=here, check=False)
    assert done.returncode == 0, done.stderr
    sent, read = map(int, done.stdout.split())
    kept = ROWS * 128 // 1024 if backend == "library" else 0
    assert sent < 3000 and read < 3000 + kept, done.stdout
