"""The spool: what it has after a death, what goes, and what it says of that."""

from __future__ import annotations

from pathlib import Path

import pytest
from hypothesis import given
from hypothesis import strategies as st

from summarystore.fleet.errors import SpoolError
from summarystore.fleet.frames import Event
from summarystore.fleet.spool import RECORD, Spool


def frame(number: int, name: str = "a") -> bytes:
    """The frame of some event."""
    return Event(2, name, number, 0, bytes(16)).frame(number)


def written(folder: Path, *numbers: int) -> None:
    """A spool with these events of one stream."""
    spool = Spool(folder)
    list(spool.scan())
    spool.add(b"".join(map(frame, numbers)))
    spool.close()


def scanned(folder: Path) -> list[bytes]:
    """What a spool has."""
    spool = Spool(folder)
    found = list(spool.scan())
    spool.close()
    return found


def test_what_is_written_is_there(folder: Path) -> None:
    written(folder / "s", 1, 2)
    written(folder / "s", 3)
    assert scanned(folder / "s") == [frame(1), frame(2), frame(3)]


def test_one_sender_has_it(folder: Path) -> None:
    spool = Spool(folder / "s")
    with pytest.raises(SpoolError):
        Spool(folder / "s")
    spool.close()
    again = Spool(folder / "s")
    assert again.sender == spool.sender and len(again.sender) == 32
    again.close()


@given(cut=st.integers(0, 3 * RECORD), changed=st.none() | st.integers(0, 3 * RECORD - 1))
def test_what_a_death_leaves(tmp_path_factory: pytest.TempPathFactory, cut: int, changed: int | None) -> None:
    """Of the last write any part may be there. Whole records before the first that isn't are found."""
    folder = tmp_path_factory.mktemp("spool") / "s"
    written(folder, 1, 2, 3)
    file = next(folder.glob("*.frames"))
    data = bytearray(file.read_bytes()[:cut])
    if changed is not None and changed < len(data):
        data[changed] ^= 1
    file.write_bytes(data)
    whole = cut // RECORD if changed is None or changed >= len(data) else changed // RECORD
    assert scanned(folder) == [frame(number + 1) for number in range(whole)]
    written(folder, 9)
    assert scanned(folder) == [*(frame(number + 1) for number in range(whole)), frame(9)]


def test_segments_go_when_they_are_held(folder: Path) -> None:
    spool = Spool(folder / "s", segment=2 * RECORD)
    spool.add(frame(1) + frame(1, "b") + frame(2) + frame(3) + frame(4))
    assert len(list((folder / "s").glob("*.frames"))) == 3
    spool.trim(lambda name: 3 if name == "a" else 0)
    assert len(list((folder / "s").glob("*.frames"))) == 3     # b's event is in the first
    spool.trim(lambda name: 3)
    assert len(list((folder / "s").glob("*.frames"))) == 1
    spool.close()
    spool = Spool(folder / "s", segment=2 * RECORD)
    assert list(spool.scan()) == [frame(4)] and spool.counts == {"a": 3, "b": 1}
    spool.close()


def test_without_room_the_oldest_go(folder: Path) -> None:
    spool = Spool(folder / "s", limit=8 * RECORD)
    gone = [spool.add(frame(number)) for number in range(1, 12)]
    assert [each for each in gone if each] == [{"a": 2}, {"a": 4}]
    assert spool.size <= 8 * RECORD
    spool.close()
    assert scanned(folder / "s") == [frame(number) for number in range(5, 12)]


def test_damage_amid_is_told(folder: Path) -> None:
    spool = Spool(folder / "s", segment=2 * RECORD)
    spool.add(b"".join(map(frame, range(1, 6))))
    spool.close()
    file = sorted((folder / "s").glob("*.frames"))[1]
    data = bytearray(file.read_bytes())
    data[RECORD] ^= 1
    file.write_bytes(data)
    spool = Spool(folder / "s")
    assert list(spool.scan()) == [frame(1), frame(2), frame(3), frame(5)]
    assert spool.damaged == [f"{file.name} from byte {RECORD} on"]
    spool.close()
