"""Messages that say what was meant, and how it is written."""

from __future__ import annotations

import os
import subprocess
import sys
from collections.abc import Callable
from pathlib import Path

import pytest

import summarystore
from summarystore import errors
from summarystore.store import Store

from .conftest import HOME


def test_a_date_with_points(store: Store) -> None:
    store.create("a/b", "exp 2 1 1", scale="0.1")
    for text in ("29.03.2026", "29.3.2026 10:00"):
        with pytest.raises(errors.TimeError, match="written as 2026-03-29"):
            store.append("a/b", text, 1)
    with pytest.raises(errors.TimeError, match="written as 2026-03-29T10:00:00"):
        store.append("a/b", "10,5h", 1)


def test_a_stream_that_isnt_there(store: Store) -> None:
    for time, value in (("2026-12-01 12:00", 5), (5, "21.5")):
        with pytest.raises(errors.UnknownStreamError, match="meter"):
            store.append("meter", time, value)
    with pytest.raises(errors.UnknownStreamError, match="meter"):
        store.query("meter", "sum", "now")
    store.create("meter", "exp 2 1 1")
    with pytest.raises(errors.NumberError, match="a whole number is needed"):
        store.append("meter", "2026-12-01 12:00", 5)
    store.append("meter", 5, 5)


@pytest.mark.parametrize("target", ["power 1 1 4", "exp 2 60", "pow 1 1 4 1", ("exp", 2, 60), ""])
def test_a_target_that_is_none(store: Store, target: object) -> None:
    with pytest.raises(errors.CommandError, match="power P Q R S`, as `power 1 1 4 1`"):
        store.create("a", target)       # type: ignore[arg-type]


def test_a_zone_by_the_word_that_a_command_has(path: Path, folder: Path) -> None:
    with summarystore.open(path) as store:
        store.create("a/b", "exp 2 1 1", scale="0.1")
        with pytest.raises(errors.TimeError, match="open with zone="):
            store.append("a/b", "2026-12-01 12:00", 1)
        store.append("a/b", "2026-12-01T12:00Z", 1)
    words = (str(path), "a/b", "--series", "sum", "--from", "2026-12-01", "--step", "1h")
    done = subprocess.run([sys.executable, "-m", "summarystore.exporting", *words], capture_output=True,
                          text=True, check=False,
                          env={**os.environ, "PYTHONPATH": str(HOME / "src")})
    assert done.returncode != 0 and "--zone" in done.stderr and "zone=" not in done.stderr, done


def test_a_damaged_store_names_its_file_and_the_next_step(path: Path) -> None:
    with summarystore.open(path) as store:
        store.create("a", "exp 2 100 1")
        store.append_many("a", [(at, at) for at in range(300)])
    summarystore.open(path).close()     # all is in its place by then
    with open(path, "r+b") as file:
        file.seek(36864 + 128 * 5 + 20)
        file.write(b"\xff")
    looks: tuple[Callable[[Path], object], ...] = (summarystore.open, summarystore.check)
    for look in looks:
        with pytest.raises(errors.DamagedStoreError, match="damaged slot 5") as error:
            look(path)
        assert str(path) in str(error.value) and f"summarystore-scrub {path}" in str(error.value)
