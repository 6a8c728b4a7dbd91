"""The command that tells what is damaged in the file of a store, and what a copy repairs."""

from __future__ import annotations

import os
import shutil
from pathlib import Path

import pytest

import summarystore
from summarystore import errors, scrub
from summarystore.storefile import FIRST_SLOT, SLOT, is_checked, other_kind
from summarystore.storerecords import streams_of, survey


def some(path: Path, checked: bool) -> None:
    """A store of two streams, one of which has a landmark."""
    with summarystore.open(path, checked=checked) as store:
        store.create("hall", "exp 2 1 1")
        store.append_many("hall", [(time, time % 7) for time in range(1, 50)])
        store.create("attic", "power 1 1 4 1", within=100)
        with store.landmark("attic", 10, 40):
            store.append_many("attic", [(time, -time) for time in range(10, 40)])
        sound = store.check()
    image = path.read_bytes()
    told = survey(streams_of(image))
    assert told == (f"sound streams {sound.streams} windows {sound.windows} landmarks {sound.landmarks} "
                    f"values {sound.values}")
    assert is_checked(image) == checked and survey(streams_of(other_kind(image))) == told


@pytest.mark.parametrize("checked", [True, False])
def test_what_is_damaged_and_repaired(path: Path, checked: bool, capsys: pytest.CaptureFixture[str]) -> None:
    some(path, checked)
    copy, new = path.with_name("copy.store"), path.with_name("new.store")
    shutil.copy(path, copy)
    assert scrub.main([str(path)]) == 0 and capsys.readouterr().out.startswith("sound streams 2 ")
    image = bytearray(path.read_bytes())
    image[FIRST_SLOT + SLOT + 1] ^= 0x55
    path.write_bytes(image)
    with pytest.raises(errors.DamagedStoreError) as error:
        summarystore.open(path)
    assert "damaged slot 1" in str(error.value) and f"summarystore-scrub {path}" in str(error.value)
    assert scrub.main([str(path), str(copy), "--into", str(new)]) == 1
    lines = capsys.readouterr().out.splitlines()
    assert lines[0].startswith("damaged slot 1: ") and lines[-1].startswith("sound streams 2 ")
    assert any(line.startswith("the copy repairs slot 1: ") for line in lines) and f"written {new}" in lines
    with summarystore.open(new) as store:
        assert store.query("hall", "count") == 49
    assert scrub.main([str(path), str(copy), "--into", str(new)]) == 2      # what is there isn't written over


def test_what_is_no_store(folder: Path, capsys: pytest.CaptureFixture[str]) -> None:
    other = folder / "other"
    assert scrub.main([str(other)]) == 2
    other.write_text("hello")
    assert scrub.main([str(other)]) == 2
    assert capsys.readouterr().err.splitlines()[1] == f"summarystore-scrub: {other}: not a store"
    other.write_bytes(b"")
    assert scrub.main([os.fspath(other)]) == 0
    with pytest.raises(SystemExit):
        scrub.main([])
