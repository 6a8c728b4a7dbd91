"""Long names, descriptions, and what is left where their file is lost."""

from __future__ import annotations

import datetime
import json
import stat
from decimal import Decimal
from pathlib import Path

import pytest
from hypothesis import given
from hypothesis import strategies as st

import summarystore
from summarystore import Description, errors
from summarystore.description import NANOSECONDS, description_of
from summarystore.names import description_in, hash_of, short_name
from summarystore.store import Store
from summarystore.wire import NAME

ROOM = "home/living room/temperature"


def described(path: Path) -> None:
    """A store with three streams: described, long without a description, and plain."""
    with summarystore.open(path, zone="Europe/Berlin") as store:
        store.create(ROOM, "power 1 1 4 1", scale="0.1", unit="°C", labels={"floor": "1"})
        store.append(ROOM, "2026-11-29T10:00+01:00", "21.5")
        store.create("Straße/Zähler", "exp 2 1 1")
        store.append("Straße/Zähler", "2026-11-29 10:00", 7)
        store.create("plain", "exp 2 1 1")
        store.append("plain", 10, 5)


def test_a_stream_is_renamed(path: Path, backend: str) -> None:
    """It keeps what it holds, its old name can be another stream's, and a standing one keeps its own."""
    described(path)
    with summarystore.open(path) as store:
        store.rename(ROOM, "old")
        with pytest.raises(errors.UnknownStreamError):
            store.query(ROOM, "sum")
        store.create(ROOM, "power 1 1 4 1", scale="0.1")
        store.append(ROOM, 5, "1.5")
        for name, error in ((ROOM, errors.StreamExistsError), ("plain", errors.StreamExistsError)):
            with pytest.raises(error):
                store.rename("old", name)
        with pytest.raises(errors.DescriptionError):
            store.rename("plain", "other")
    with summarystore.open(path) as store:
        assert str(store.query(ROOM, "sum")) == "1.5" and str(store.query("old", "sum")) == "21.5"
    Path(f"{path}.names.json").unlink()
    with summarystore.open(path) as store:      # the name is that of the stream that had it last
        assert str(store.query(ROOM, "sum")) == "1.5"


def test_readings_as_people_have_them(path: Path, backend: str) -> None:
    described(path)
    with summarystore.open(path, zone="Europe/Berlin") as store:
        assert store.query(ROOM, "max", "2026-11-29", "2026-11-29") == summarystore.Interval("21.5")
        assert store.query(ROOM, "sum").lo == Decimal("21.5") and store.query(ROOM, "count") == 1
        last = store.last(ROOM)
        assert last is not None and str(last.time) == "2026-11-29 10:00:00+01:00"
        assert [stream.name for stream in store.list()] == [ROOM, "Straße/Zähler", "plain"]
        found = store.description(ROOM)
        assert found is not None and (found.unit, found.labels) == ("°C", {"floor": "1"})
        assert store.description("plain") is None and store.query("plain", "sum", 10, 10) == 5
        window = next(iter(store.windows(ROOM)))
        assert window.sum == Decimal("21.5") and isinstance(window.start, datetime.datetime)
        assert store.query("Straße/Zähler", "sum") == 7


def test_the_program_sees_whole_numbers(path: Path, backend: str) -> None:
    described(path)
    with Store(path) as plain:
        names = [stream.name for stream in plain.list()]
        assert all(NAME.fullmatch(name) for name in names) and names[2] == "plain"
        assert names[0].startswith("temperatu") and names[0].endswith(".1e-1s")
        assert plain.query(names[0], "sum") == 215


def test_what_is_refused(store: Store) -> None:
    store.create(ROOM, "exp 2 1 1", scale="0.1")
    for value, kind in (("21.55", errors.ScaleError), ("n/a", errors.NotANumberError),
                        (2**63, errors.NumberError), ("922337203685477580.8", errors.NumberError)):
        with pytest.raises(kind):
            store.append(ROOM, "2026-11-29T10:00Z", value)
    for time in ("2026-11-29 10:00", "2026-11-29T10:00:00.5Z", "then", "2026-11-29"):
        with pytest.raises(errors.TimeError):
            store.append(ROOM, time, 1)
    assert store.last(ROOM) is None
    store.append(ROOM, "2026-11-29T10:00Z", "922337203685477580.7")
    store.append(ROOM, "2026-11-29T10:01Z", "-922337203685477580.8")
    assert str(store.query(ROOM, "sum")) == "-0.1"
    assert str(store.query(ROOM, "max")) == "922337203685477580.7"
    with pytest.raises(errors.LateError) as late:
        store.append(ROOM, "2026-11-29T10:01Z", 1)
    assert str(late.value.newest) == "2026-11-29 10:01:00+00:00"
    with pytest.raises(errors.UnknownStreamError):
        store.query("home/cellar", "sum")
    with pytest.raises(errors.DescriptionError):
        store.now("plain")


def test_a_refused_row_is_told(store: Store) -> None:
    store.create(ROOM, "exp 2 1 1", scale="0.1")
    rows = [("2026-11-29T10:00Z", "1.5"), ("2026-11-29T10:01Z", "NaN"), ("2026-11-29T10:02Z", "2.5")]
    with pytest.raises(errors.RowsRefusedError) as many:
        store.append_many(ROOM, rows)
    assert many.value.stored == 1 and many.value.refused[0][0] == rows[1]
    met: list[object] = []
    assert store.append_many(ROOM, rows[1:], refused=lambda row, error: met.append(row)) == 1
    assert met == [rows[1]] and str(store.query(ROOM, "sum")) == "4.0"


def test_a_lost_file(path: Path, backend: str) -> None:
    described(path)
    Path(f"{path}.names.json").unlink()
    with summarystore.open(path, zone="Europe/Berlin") as store:
        assert ROOM not in [stream.name for stream in store.list()]
        store.append(ROOM, "2026-11-29T10:05+01:00", "21.7")
        assert str(store.query(ROOM, "sum")) == "43.2"
        assert ROOM in [stream.name for stream in store.list()]
        found = store.description(ROOM)
        assert found is not None and found.unit is None
        store.describe(ROOM, unit="°C")
        with pytest.raises(errors.StreamExistsError):
            store.create(ROOM, "exp 2 1 1", scale="0.01")
        assert str(store.query(ROOM, "max")) == "21.7"
    with summarystore.open(path) as store:
        assert store.query("Straße/Zähler", "sum") == 7
        found = store.description(ROOM)
        assert found is not None and found.unit == "°C"
        short = store.codec("Straße/Zähler").short
    Path(f"{path}.names.json").unlink()
    with summarystore.open(path) as store:
        assert store.query(short, "count") == 1     # by its short name, too


@pytest.mark.parametrize("text", [
    "", "{", "[]", '{"summarystore": 2, "streams": {}}', '{"summarystore": 1}',
    '{"summarystore": 1, "streams": {"a": {}}}', '{"summarystore": 1, "streams": []}',
    '{"summarystore": 1, "streams": {"a": {"name": "a", "scale": 0.1, "time": "s"}}}'])
def test_a_damaged_file_is_left(path: Path, backend: str, text: str) -> None:
    described(path)
    names = Path(f"{path}.names.json")
    names.write_text(text)
    with pytest.raises(errors.NamesFileError):
        summarystore.open(path)
    assert names.read_text() == text
    summarystore.check(path)


@pytest.mark.parametrize("mode", [0o600, 0o640, 0o664])
def test_whoever_may_read_the_store_may_read_its_names(path: Path, backend: str, mode: int) -> None:
    with summarystore.open(path) as store:
        path.chmod(mode)
        for name in ("a/b", "a/c"):     # made, and replaced
            store.create(name, "exp 2 1 1", unit="W")
            assert stat.S_IMODE(Path(f"{path}.names.json").stat().st_mode) == mode


def test_what_cannot_be_written_is_refused_before(store: Store, path: Path) -> None:
    """A file of names that can't be read again would shut its store."""
    for words in ({"unit": 5}, {"unit": "a\ud800"}, {"labels": {"a": 5}}, {"labels": {5: "a"}}):
        with pytest.raises(errors.DescriptionError):
            store.create("a/b", "exp 2 1 1", **words)      # type: ignore[arg-type]
    for name in (5, "a\ud800", None):
        with pytest.raises(errors.StreamNameError):
            store.create(name, "exp 2 1 1", unit="W")       # type: ignore[arg-type]
    with pytest.raises(TypeError):
        store.create("a/c", None, unit="W")                 # type: ignore[arg-type]
    store.create("a/d", "exp 2 1 1", since="0001-01-01")
    assert list(json.loads(Path(f"{path}.names.json").read_text())["streams"]) == ["a/d"]
    store.append("a/d", "0001-01-02T00:00Z", 5)
    store.close()
    with summarystore.open(path, existing=True) as again:
        last = again.last("a/d")
        assert last is not None and last.time == datetime.datetime(1, 1, 2, tzinfo=datetime.timezone.utc)


def test_a_description_without_its_stream(path: Path, backend: str) -> None:
    """As a crash leaves it between the two: the stream can be made, also otherwise."""
    described(path)
    names = Path(f"{path}.names.json")
    found = json.loads(names.read_text())
    found["streams"]["new"] = dict(found["streams"][ROOM], name="new.aaaaaaaa.1e-1s")
    names.write_text(json.dumps(found))
    with summarystore.open(path) as store:
        with pytest.raises(errors.UnknownStreamError):
            store.append("new", 1, 1)
        store.create("new", "exp 2 1 1", scale="0.01")
        store.append("new", 1, "0.01")
        assert str(store.query("new", "sum")) == "0.01"


def test_a_file_that_is_older_than_its_store(path: Path, backend: str) -> None:
    described(path)
    names = Path(f"{path}.names.json")
    before = names.read_text()
    with summarystore.open(path) as store:
        store.drop(ROOM)
        store.create(ROOM, "exp 2 1 1", scale="0.01")
        store.append(ROOM, 10, "0.25")
    names.write_text(before)
    with summarystore.open(path) as store:
        assert str(store.query(ROOM, "sum")) == "0.25"
        store.append(ROOM, 11, "0.01")
        assert str(store.query(ROOM, "sum")) == "0.26"


def test_drop_and_create_otherwise(store: Store) -> None:
    store.create(ROOM, "exp 2 1 1", scale="0.1")
    store.append(ROOM, 10, "1.5")
    store.drop(ROOM)
    with pytest.raises(errors.UnknownStreamError):
        store.query(ROOM, "sum")
    store.create(ROOM, "exp 2 1 1", scale="0.01", time="ms")
    store.append(ROOM, 10, "0.05")
    assert str(store.query(ROOM, "sum")) == "0.05"
    with pytest.raises(errors.TargetError):
        store.create("bad/one", "exp 1 1 1", unit="x")
    with pytest.raises(errors.UnknownStreamError):
        store.query("bad/one", "sum")


def test_changes_of_a_description(store: Store) -> None:
    store.create(ROOM, "exp 2 1 1", scale="0.1")
    store.describe(ROOM, unit="°C", labels={"a": "b"}, rounding="half-even")
    store.append(ROOM, 10, "1.25")
    assert str(store.query(ROOM, "sum")) == "1.2"
    store.create("plain", "exp 2 1 1")
    with pytest.raises(errors.DescriptionError):
        store.describe("plain", unit="W")
    for scale in ("0", "-1", "x"):
        with pytest.raises(ValueError):
            store.create("other", "exp 2 1 1", scale=scale)
    with pytest.raises(errors.DescriptionError):
        store.create("other", "exp 2 1 1", time="week")
    with pytest.raises(errors.DescriptionError):
        store.create("other", "exp 2 1 1", rounding="up")
    with pytest.raises(errors.DescriptionError):
        store.create("other", "exp 2 1 1", since="1958")


def test_now_is_now(store: Store) -> None:
    store.create(ROOM, "exp 2 1 1", time="ms")
    before = datetime.datetime.now(datetime.timezone.utc)
    with store.landmark(ROOM):
        pass
    now = store.now(ROOM)
    assert isinstance(now, datetime.datetime)
    assert before - datetime.timedelta(milliseconds=1) <= now
    last = store.last(ROOM)
    assert last is not None and isinstance(last.time, datetime.datetime)
    assert before - datetime.timedelta(milliseconds=1) <= last.time <= now


@given(st.text(min_size=1, max_size=80).filter(lambda text: text.isprintable()),
       st.integers(1, 999), st.integers(-18, 9), st.sampled_from(sorted(NANOSECONDS)),
       st.one_of(st.none(), st.dates()))
def test_short_names_say_what_numbers_mean(name: str, digits: int, exponent: int, time: str,
                                           since: datetime.date | None) -> None:
    scale = Decimal(digits).scaleb(exponent)
    description = description_of(scale=scale, time=time, since=since)
    assert description is not None
    short = short_name(name, description)
    assert NAME.fullmatch(short)
    found = description_in(short)
    assert found is not None
    assert found[0] == hash_of(name) and found[1][:3] == (description.scale, time, description.since)


def test_what_is_no_short_name() -> None:
    for name in ("temperature", "a.b.c", "x.abcdefgh.1e-1q", "x.abcdefgh.0e1s", "x.abcdefgh.1e0s20261399"):
        assert description_in(name) is None
    assert description_in("x.abcdefgh.1e0s") == ("abcdefgh", Description())
