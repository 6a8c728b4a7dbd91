"""Long names in a fleet: they go with frames, and a follower has them before it acknowledges those."""

from __future__ import annotations

import json
import os
from collections.abc import Mapping
from pathlib import Path
from types import SimpleNamespace

import pytest

from summarystore.description import Description, description_of
from summarystore.errors import NamesFileError
from summarystore.fleet.broker import properties
from summarystore.fleet.deliveries import delivery_of
from summarystore.fleet.frames import event_of, message
from summarystore.fleet.naming import LONGEST, SentNames, TakenNames
from summarystore.names import Names, short_name
from summarystore.namesfile import Described, read_names, write_names

ROOM, HALL = "home/living room/temperature", "home/hall/Feuchte in %"


def description(scale: str = "0.1", **more: object) -> Description:
    """A description of a stream."""
    found = description_of(scale=scale, unit=str(more.get("unit", "°C")), labels={"a": "b"})
    assert found is not None
    return found


def described(*names: str, scale: str = "0.1", unit: str = "°C") -> Described:
    """Descriptions of streams by their long names."""
    found = description(scale, unit=unit)
    return {name: (short_name(name, found), found) for name in names}


def written(store: Path, given: Described) -> Mapping[str, str]:
    """What goes with the frames of a store with these names."""
    store.touch()
    write_names(f"{store}.names.json", given, str(store))
    sent = SentNames(store)
    sent.look()
    return {short: sent.text(short) for short, _ in given.values()}


def short(name: str, scale: str = "0.1") -> str:
    """The short name of a stream."""
    return short_name(name, description(scale))


@pytest.fixture
def taken(folder: Path) -> TakenNames:
    """The names of a new follower."""
    (folder / "r.store").touch()
    return TakenNames(str(folder / "r.store"))


def kept(folder: Path) -> Described:
    """What stands in the follower's names file."""
    return read_names(str(folder / "r.store.names.json"))


# ---- what goes with frames ------------------------------------------------------------------


def test_a_sender_follows_its_names_file(folder: Path) -> None:
    store = folder / "edge.store"
    sent = SentNames(store)
    sent.look()
    assert sent.text(short(ROOM)) == "" and sent.text("room") == ""
    first = written(store, described(ROOM))[short(ROOM)]
    sent.look()
    assert json.loads(first) == {"name": ROOM, "unit": "°C", "labels": {"a": "b"}} and first.isascii()
    assert sent.text(short(ROOM)) == first
    written(store, described(ROOM, HALL, unit="K"))
    sent.look()
    assert json.loads(sent.text(short(ROOM)))["unit"] == "K" and HALL in sent.text(short(HALL))
    os.unlink(f"{store}.names.json")
    sent.look()
    assert sent.text(short(ROOM)) == ""


def test_what_says_nothing_of_a_name_does_not_go(folder: Path, caplog: pytest.LogCaptureFixture) -> None:
    """One whose long name was lost, and one that a broker couldn't carry: the second is told."""
    lost = {short(ROOM): (short(ROOM), description())}
    long = description(unit="x" * LONGEST)
    assert written(folder / "edge.store", {**lost, HALL: (short(HALL), long)}) == {
        short(ROOM): "", short(HALL): ""}
    assert HALL in caplog.text and ROOM not in caplog.text


def test_a_names_file_that_cannot_be_understood(folder: Path) -> None:
    Path(f"{folder}/edge.store.names.json").write_text("{")
    with pytest.raises(NamesFileError):
        SentNames(folder / "edge.store").look()
    Path(f"{folder}/r.store.names.json").write_text("{")
    with pytest.raises(NamesFileError):
        TakenNames(str(folder / "r.store"))


def test_a_name_goes_with_its_message(folder: Path) -> None:
    text = written(folder / "edge.store", described(HALL))[short(HALL)]
    event = event_of(f"append {short(HALL)} 1 1")
    assert event is not None
    for named in (text, ""):
        given = properties("s", 1, named)
        found = delivery_of(SimpleNamespace(delivery_tag=1), given, message(event.frame(2)))
        assert (found.name, found.named, found.sender) == (short(HALL), named, "s")
    wrong = SimpleNamespace(headers={"named": 7}, app_id="s")
    assert delivery_of(SimpleNamespace(delivery_tag=1), wrong, message(event.frame(2))).named == ""


# ---- what a follower keeps ------------------------------------------------------------------


def test_names_are_kept_once(folder: Path, taken: TakenNames) -> None:
    came = written(folder / "edge.store", described(ROOM, HALL)).items()
    news = taken.news([*came, ("plain", "")])
    assert set(news) == {short(ROOM), short(HALL)}
    taken.keep(news)
    assert kept(folder) == described(ROOM, HALL) and not taken.refused and not taken.news(came)
    before = os.stat(f"{folder}/r.store.names.json").st_ino
    again = TakenNames(str(folder / "r.store"))
    again.keep(again.news(came))        # after another start: they are there, so nothing is written
    assert os.stat(f"{folder}/r.store.names.json").st_ino == before
    names = Names(folder / "r.store")
    names.learn([f"{short(ROOM)} exp 2 60 1 1 1 1 1"])
    assert names.name_of(short(ROOM)) == ROOM and names.codec(HALL).short == short(HALL)


def test_what_came_last_counts(folder: Path, taken: TakenNames) -> None:
    for unit in ("°C", "K"):
        taken.keep(taken.news(written(folder / "edge.store", described(ROOM, unit=unit)).items()))
        assert kept(folder) == described(ROOM, unit=unit)


def test_a_long_name_that_was_lost_comes_back(folder: Path) -> None:
    (folder / "r.store").touch()
    write_names(f"{folder}/r.store.names.json", {short(ROOM): (short(ROOM), description())},
                str(folder / "r.store"))
    taken = TakenNames(str(folder / "r.store"))
    taken.keep(taken.news(written(folder / "edge.store", described(ROOM)).items()))
    assert kept(folder) == described(ROOM) and not taken.refused


def test_two_streams_of_one_name(folder: Path, taken: TakenNames, caplog: pytest.LogCaptureFixture) -> None:
    """The second goes on by its short name, and it is told, until it has another name."""
    taken.keep(taken.news(written(folder / "one.store", described(ROOM)).items()))
    other = written(folder / "two.store", described(ROOM, scale="0.5"))
    taken.keep(taken.news(other.items()))
    assert kept(folder) == described(ROOM)
    assert list(taken.refused) == [short(ROOM, "0.5")]
    assert "is another stream" in taken.refused[short(ROOM, "0.5")] and ROOM in caplog.text
    assert not taken.news(other.items())        # it is told once


@pytest.mark.parametrize("when", ["stands", "comes first", "comes later", "comes with it"])
def test_a_long_name_that_is_a_stream(folder: Path, taken: TakenNames, when: str) -> None:
    """Who asks by that name means the stream that has it alone."""
    came = [*written(folder / "edge.store", described("room", HALL)).items()]
    if when == "stands":
        taken.stand(["room"])
    elif when == "comes first":
        taken.keep(taken.news([("room", "")]))
    taken.keep(taken.news([*came, ("room", "")] if when == "comes with it" else came))
    if when == "comes later":
        assert kept(folder) == described("room", HALL)
        taken.keep(taken.news([("room", "")]))
    assert kept(folder) == described(HALL) and list(taken.refused) == [short("room")]
    assert not taken.news([*came, ("room", "")])
    again = TakenNames(str(folder / "r.store"))
    again.stand(["room", short("room"), short(HALL)])
    again.keep(again.news(came))
    assert kept(folder) == described(HALL) and list(again.refused) == [short("room")]


def test_a_stream_that_was_renamed(folder: Path, taken: TakenNames, caplog: pytest.LogCaptureFixture) -> None:
    """It has the name that came last, and its first name is free for another."""
    taken.keep(taken.news(written(folder / "edge.store", described(HALL)).items()))
    renamed: Described = {ROOM: (short(HALL), description())}
    taken.keep(taken.news(written(folder / "edge.store", renamed).items()))
    assert kept(folder) == renamed and not taken.refused
    second = short_name(HALL, description(), 2)
    both = {**renamed, HALL: (second, description())}
    taken.keep(taken.news(written(folder / "edge.store", both).items()))
    assert kept(folder) == both and not taken.refused
    taken.keep(taken.news([(second, "")]))
    back: Described = {HALL: (short(HALL), description())}
    (folder / "r.store.names.json").unlink()
    write_names(f"{folder}/r.store.names.json", renamed, str(folder / "r.store"))
    again = TakenNames(str(folder / "r.store"))
    again.keep(again.news(written(folder / "edge.store", back).items()))
    assert kept(folder) == back and not again.refused and "not taken" not in caplog.text


def test_a_name_of_another_stream(folder: Path, taken: TakenNames) -> None:
    """It isn't the long name of the short one, nor told to be renamed. What comes later may be, and what
    numbers mean stays."""
    taken.keep(taken.news([(short(HALL), json.dumps({"name": ROOM}))]))
    assert list(taken.refused) == [short(HALL)] and not kept(folder)
    came = written(folder / "edge.store", {HALL: (short(HALL), description("0.5"))})
    taken.keep(taken.news(came.items()))
    assert not taken.refused and kept(folder) == described(HALL)


@pytest.mark.parametrize("text", [
    "{", "7", "{}", "[]", '{"name": 7}', '{"name": "%s", "labels": 7}',
    '{"name": "%s", "labels": {"a": 7}}', '{"name": "%s", "rounding": []}',
    '{"name": "%s", "unit": "\\ud800"}', '{"name": "\\ud800"}', "[" * 100000])
def test_what_is_no_name(folder: Path, taken: TakenNames, text: str) -> None:
    for stream in (short(ROOM), "plain"):
        taken.keep(taken.news([(stream, text.replace("%s", ROOM))]))
    assert set(taken.refused) == {short(ROOM), "plain"} and not kept(folder)


def test_a_disk_that_refuses_the_names(folder: Path, taken: TakenNames) -> None:
    """They are no news any more only when they are on the disk."""
    came = written(folder / "edge.store", described(ROOM)).items()
    (folder / "r.store.names.json.new").mkdir()
    with pytest.raises(OSError):
        taken.keep(taken.news(came))
    (folder / "r.store.names.json.new").rmdir()
    news = taken.news(came)
    assert news
    taken.keep(news)
    assert kept(folder) == described(ROOM)
