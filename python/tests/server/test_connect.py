"""The calls of a store over a service: the same answers as those of the store."""

from __future__ import annotations

import signal
from collections.abc import Iterator
from decimal import Decimal
from pathlib import Path
from typing import cast

import pytest

import summarystore
from summarystore import Interval, Presence, RemoteStore, aio, errors
from summarystore.kinds import ENDS, ESTIMATED, KINDS, Kind

from ..ports import free_port
from ..waiting import run
from .running import Running

HALL = "home/hall/Temperatur °C"
METER = "home/meter"
TOKENS = "read aaaaaaaaaaaaaaaa\nwrite bbbbbbbbbbbbbbbb\nadmin cccccccccccccccc\n"
DAY = "2025-11-29T{:02}:00Z"


@pytest.fixture
def service(folder: Path, program: str) -> Iterator[Running]:
    """A service with tokens, over a store of its own."""
    (folder / "tokens").write_text(TOKENS)
    (folder / "tokens").chmod(0o600)
    config = (f'[http]\nlisten = "127.0.0.1:{free_port()}"\n[store]\npath = "{folder}/a.store"\n'
              f'[tokens]\nfile = "{folder}/tokens"\n[limits]\nlines = 20000\n')
    running = Running(folder, config=config)
    running.until("ready: address=")
    yield running
    if running.process.poll() is None:
        running.end()


def connected(service: Running, token: str | None = "c" * 16) -> RemoteStore:
    return summarystore.connect(service.base, token=token)


def test_the_same_answers(service: Running, folder: Path) -> None:
    with connected(service) as store:
        assert store.create(HALL, "exp 2 1 1", scale="0.1", unit="°C", since="1958-01-01") == (0, 0)
        assert store.create(HALL, "exp 2 1 1", scale="0.1", since="1958-01-01", exist_ok=True) == (0, 0)
        rows = [(DAY.format(hour), f"{20 + hour % 7 / 10}") for hour in range(20)]
        store.append(HALL, *rows[0])
        assert store.append_many(HALL, rows) == 20 and store.append_many(HALL, rows[5:9]) == 4
        with store.landmark(HALL, DAY.format(20), DAY.format(21)):
            store.append(HALL, DAY.format(20), "35")
        store.create(METER, "exp 2 60 1", kind="counter")
        store.append_many(METER, [(DAY.format(1), 5), (DAY.format(2), 2), (DAY.format(3), 7)])
        store.create("plain", "exp 2 60 1")
        store.append("plain", 1, 5)
        answers = _answers(store)
        rose = store.series(METER, "increase", DAY.format(0), DAY.format(4), "2h")
        assert store.increase(METER) == 7 and [row.interval for row in rose] == [Interval(2), Interval(5)]
        assert list(store) == [HALL, METER, "plain"] and HALL in store and "other" not in store
    service.end()
    with summarystore.open(folder / "a.store") as local:
        assert _answers(local) == answers


def _answers(store: summarystore.Store | RemoteStore) -> object:
    hall = store[HALL]
    cut = DAY.format(3), DAY.format(11)
    asked = [hall.query(kind, *cut) for kind in KINDS[:5]]
    rows = [list(hall.series(kind, DAY.format(0), DAY.format(19), "5h")) for kind in KINDS[:5]]
    checked = [store.certify(HALL, kind, end, *cut, landmarks=[(DAY.format(20), DAY.format(21))]).check()
               for kind in ESTIMATED[:2] for end in ENDS]
    return (asked, rows, checked, hall.last(), list(hall.windows()), hall.values(), hall.description,
            hall.estimate("sum", *cut), store.estimates(HALL, "count", *cut, "2h"), hall.has("20.5", *cut),
            store.list(),
            store.figures(HALL, ("count", "sum"), *cut), store.span(HALL), store.query("plain", "sum"),
            list(store.windows("plain")), store.value_at(METER, DAY.format(2)))


def test_what_is_refused_is_raised(service: Running) -> None:
    with connected(service) as store:
        store.create(HALL, "exp 2 1 1", scale="0.1")
        store.append(HALL, 20)
        newest = store.last(HALL)
        assert newest is not None
        with pytest.raises(errors.LateError) as late:
            store.append(HALL, "2020-01-01T00:00Z", 1)
        assert late.value.newest == newest.time
        for value, kind in (("21.55", errors.ScaleError), ("x", errors.NotANumberError)):
            with pytest.raises(kind):
                store.append(HALL, value)
        with pytest.raises(errors.UnknownStreamError):
            store.append("other", 5)
        with pytest.raises(errors.UnknownStreamError):
            store.query("the other", "sum")
        with pytest.raises(errors.StreamExistsError):
            store.create(HALL, "exp 2 1 1", scale="0.1")
        with pytest.raises(errors.DescriptionError):
            store.create(HALL, "exp 2 1 1", scale="0.2", exist_ok=True)
        with pytest.raises(errors.KindError):
            store.query(HALL, cast(Kind, "median"))
        with pytest.raises(errors.RangeError):
            store.query(HALL, "sum", "now", "now-1h")
        refused: list[object] = []
        rows: list[tuple[object, object]] = [("now-1h", 1), ("now+1s", "x"), ("now+10s", 1)]
        assert store.append_many(HALL, rows, refused=lambda row, error: refused.append(row)) == 1
        assert refused == [rows[1], rows[0]]
        with pytest.raises(errors.RowsRefusedError) as some:
            store.append_many(HALL, [("now-1h", 5), ("now+20s", 6)])
        assert some.value.stored == 1 and isinstance(some.value.refused[0][1], errors.LateError)
        store.describe(HALL, unit="°C")
        store.rename(HALL, "home/hall")
        description = store.description("home/hall")
        assert description is not None and description.unit == "°C"
        store.drop("home/hall")
        assert list(store) == []


def test_who_may_what_and_who_is_there(service: Running, folder: Path) -> None:
    with connected(service) as admin:
        admin.create("a", "exp 2 60 1", time="s")
    with connected(service, "a" * 16) as reader:
        assert reader.query("a", "count") == 0
        with pytest.raises(errors.ServiceError, match="token") as wrong:
            reader.append("a", 5)
        assert wrong.value.status == 401
    with pytest.raises(errors.ServiceError, match="token"):
        connected(service, None)
    with pytest.raises(errors.LockedError, match=f"summarystore.connect.*{service.base}"):
        summarystore.open(folder / "a.store")
    writer = connected(service, "b" * 16)
    service.end(signal.SIGKILL)
    with pytest.raises(errors.ServiceError, match="unreachable") as gone:
        writer.append_many("a", [("now", 5)])
    found = summarystore.outcome_of(gone.value)
    assert found is not None and (found.acknowledged, len(found.unknown)) == (0, 1)
    writer.close()
    with pytest.raises(errors.StoreClosedError):
        writer.list()
    for address in ("ftp://a", "127.0.0.1:8087", "http://a?b"):
        with pytest.raises(ValueError):
            summarystore.connect(address)


def test_with_asyncio(service: Running) -> None:
    async def work() -> None:
        async with await aio.connect(service.base, token="c" * 16) as store:
            await store.create(HALL, "exp 2 60 1", scale="0.1", time="ms")
            hall = store[HALL]
            await hall.append(20)
            assert await store.append_many(HALL, [("now+5s", "20.5"), ("now+6s", 21)]) == 2
            assert await hall.query("count") == 3 and await hall.mean() == Decimal("20.5")
            assert await hall.has("20.5") is Presence.PRESENT and [name async for name in store] == [HALL]
            assert [window.count async for window in hall.windows()] == [1, 1, 1]
            await hall.describe(unit="°C")
            async with store.landmark(HALL, "now+10s", "now+20s"):
                await hall.append("now+15s", 30)
            assert [each.value for each in await hall.values()] == [30]
            with pytest.raises(errors.LateError):
                await hall.append("now-1h", 5)
            await hall.drop()
            with pytest.raises(errors.ServiceError):
                await aio.connect("http://127.0.0.1:1", seconds=5)
    run(work())


def test_days_of_a_zone(service: Running) -> None:
    """Also where they are more questions than a service takes at once, and what doesn't fit is told once."""
    with connected(service) as store:
        store.create("days", "exp 2 1 1", 86400, scale=1)
        store.append_many("days", [(f"2026-03-{day}T12:00+01:00", day) for day in range(27, 32)])
        with pytest.warns(errors.StepWarning, match="`within 3600` would") as told:
            rows = store.series("days", "sum", "2026-03-27", "2026-03-31", "1d", "Europe/Berlin")
            store.series("days", "sum", "2026-03-27", "2026-03-31", "1d", "Europe/Berlin")
        assert len(told) == 1 and [row.interval.mid for row in rows] == [27, 28, 29, 30, 31]
        assert [str(row.start)[11:] for row in rows] == ["00:00:00+01:00"] * 3 + ["00:00:00+02:00"] * 2
        assert len(store.series("days", "mean", "2022-01-01", "2026-12-31", "1d", "Europe/Berlin")) == 1826
        weeks = store["days"].series("sum", "2026-03-27", "2026-03-31", "1w", "Europe/Berlin")
        assert [str(row.start)[:10] for row in weeks] == ["2026-03-23", "2026-03-30"]
