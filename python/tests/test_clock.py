"""Times: zones, daylight saving, resolutions, and what doesn't say one time."""

from __future__ import annotations

import datetime
import warnings
import zoneinfo

import numpy
import pandas
import pytest
from hypothesis import example, given
from hypothesis import strategies as st

import summarystore
from summarystore import RoundedTimeWarning, TimeError
from summarystore.clock import Clock, span_of, zone_of
from summarystore.description import EPOCH, NANOSECONDS

BERLIN = zoneinfo.ZoneInfo("Europe/Berlin")
HAVANA = zoneinfo.ZoneInfo("America/Havana")
UTC = datetime.timezone.utc
TEN = 1764406800    # 2026-11-29 is not it: 2025-11-29 09:00 UTC
SECONDS = Clock("s", EPOCH, None)
LOCAL = Clock("s", EPOCH, BERLIN)


@pytest.mark.parametrize("given_time", [
    "2025-11-29T10:00+01:00", "2025-11-29 09:00Z", "20251129T090000Z", "2025-11-29T09:00:00.000000+00:00",
    datetime.datetime(2025, 11, 29, 9, tzinfo=UTC), datetime.datetime(2025, 11, 29, 10, tzinfo=BERLIN),
    numpy.datetime64("2025-11-29T09:00"), pandas.Timestamp("2025-11-29T10:00", tz="Europe/Berlin"),
    TEN, str(TEN), numpy.int64(TEN), "2025-11-29T09:00:00.000000000Z",
])
def test_one_time_in_many_forms(given_time: object) -> None:
    assert SECONDS.time(given_time) == TEN
    assert LOCAL.time(given_time) == TEN


@pytest.mark.parametrize("given_time", [
    "2025-11-29 10:00", "2025-11-29", datetime.datetime(2025, 11, 29, 9), datetime.date(2025, 11, 29),
    pandas.Timestamp("2025-11-29 10:00"), pandas.NaT, numpy.datetime64("NaT"), "now-", "", "yesterday",
    "2025-13-01T00:00Z",
    "now-1x", "nowadays 12:00", float("nan"), 1e300, True, None,
    "2025-11-29T09:00:00.5Z", "1969-12-31T23:59:59Z", b"5", "-5",
    "٣", numpy.float64("inf"), "2025-11-29T09:00:00.000000001Z",
    "20251129T090000.0000001Z", "2025-11-29T09:00:00,0000001Z", "2025-11-29T09:00:00.0000000001Z",
])
def test_what_does_not_say_one_time(given_time: object) -> None:
    with pytest.raises(TimeError):
        SECONDS.time(given_time)


@pytest.mark.parametrize("zone,moment,shown", [
    (BERLIN, "2026-03-29 02:30", None), (BERLIN, "2026-10-25 02:30", None),
    (BERLIN, "2026-03-29 01:59:59", "2026-03-29T00:59:59Z"),
    (BERLIN, "2026-03-29 03:00", "2026-03-29T01:00Z"),
    (BERLIN, "2026-10-25 01:59:59", "2026-10-24T23:59:59Z"),
    (BERLIN, "2026-10-25 03:00", "2026-10-25T02:00Z"),
    (BERLIN, "2026-10-25 02:30+02:00", "2026-10-25T00:30Z"),
    (BERLIN, "2026-10-25 02:30+01:00", "2026-10-25T01:30Z"),
    (HAVANA, "2026-03-08 00:30", None), (HAVANA, "2026-11-01 00:30", None),
])
def test_daylight_saving(zone: zoneinfo.ZoneInfo, moment: str, shown: str | None) -> None:
    clock = Clock("s", EPOCH, zone)
    if shown is None:
        with pytest.raises(TimeError, match="twice|never"):
            clock.time(moment)
        with pytest.raises(TimeError, match="twice|never"):
            clock.time(pandas.Timestamp(moment))
    else:
        assert clock.time(moment) == SECONDS.time(shown)
        assert clock.time(pandas.Timestamp(moment)) == SECONDS.time(shown)


@pytest.mark.parametrize("zone,day,hours", [
    (BERLIN, "2026-03-29", 23), (BERLIN, "2026-10-25", 25), (BERLIN, "2026-07-01", 24),
    (HAVANA, "2026-03-08", 23), (HAVANA, "2026-11-01", 25), (UTC, "2026-03-29", 24),
])
def test_a_day_is_all_of_it(zone: datetime.tzinfo, day: str, hours: int) -> None:
    for resolution in ("ms", "s", "minute"):
        clock = Clock(resolution, EPOCH, zone)
        steps = hours * 3600 * 10**9 // NANOSECONDS[resolution]
        assert clock.end(day) - clock.begin(day) + 1 == steps
        assert clock.begin(datetime.date.fromisoformat(day)) == clock.begin(day)


def test_ranges_of_times_between_two_counts() -> None:
    clock = Clock("minute", EPOCH, UTC)
    assert clock.begin("1970-01-01T00:00:30Z") == 1 and clock.end("1970-01-01T00:01:59Z") == 1
    assert clock.begin("1960-01-01T00:00Z") == 0
    assert (clock.begin(None), clock.end(None)) == (0, 2**62)
    with pytest.raises(TimeError):
        clock.end("1960-01-01T00:00Z")
    with pytest.raises(TimeError):
        Clock("ns", EPOCH, UTC).begin("2200-01-01T00:00Z")


def test_days_before_1970() -> None:
    clock = Clock("day", datetime.date(1958, 1, 1), BERLIN)
    assert clock.time("1958-03-29") == 87
    assert clock.back(87) == datetime.datetime(1958, 3, 29, 1, tzinfo=BERLIN)
    assert (clock.begin("1958-03-29"), clock.end("1958-03-29")) == (87, 87)
    with pytest.raises(TimeError):
        clock.time("1957-12-31")


@given(st.datetimes(datetime.datetime(1970, 1, 1), datetime.datetime(9999, 12, 31),
                    timezones=st.just(UTC)))
@example(datetime.datetime(1983, 9, 25, tzinfo=UTC))    # Berlin shows it twice: so `==` of two zones is False
@example(datetime.datetime(1983, 9, 25, 1, 59, 59, 999999, tzinfo=UTC))
def test_there_and_back(moment: datetime.datetime) -> None:
    clock = Clock("us", EPOCH, BERLIN)
    back = clock.back(clock.time(moment))
    assert isinstance(back, datetime.datetime) and back.tzinfo is BERLIN
    assert back.astimezone(UTC) == moment and clock.time(back) == clock.time(moment)
    assert Clock("ns", EPOCH, None).back(5) == 5


@pytest.mark.parametrize("moment,shown,fold", [
    ("2026-10-25T00:30Z", "2026-10-25T02:30:00+02:00", 0),
    ("2026-10-25T01:30Z", "2026-10-25T02:30:00+01:00", 1),
    ("2026-10-25T02:00Z", "2026-10-25T03:00:00+01:00", 0),
    ("1983-09-25T00:00Z", "1983-09-25T02:00:00+02:00", 0),
    ("1983-09-25T01:00Z", "1983-09-25T02:00:00+01:00", 1),
    ("2026-03-29T00:59:59Z", "2026-03-29T01:59:59+01:00", 0),
    ("2026-03-29T01:00Z", "2026-03-29T03:00:00+02:00", 0),
])
def test_a_zone_goes_back_and_forward(moment: str, shown: str, fold: int) -> None:
    """Of an hour that the clock shows twice each has its own form, and no time is shown within the gap."""
    count = LOCAL.time(moment)
    back = LOCAL.back(count)
    assert isinstance(back, datetime.datetime) and (back.isoformat(), back.fold) == (shown, fold)
    assert back.astimezone(UTC) == datetime.datetime.fromisoformat(moment) and LOCAL.time(back) == count
    assert LOCAL.time(shown) == SECONDS.time(back) == count


@pytest.mark.parametrize("zone", [BERLIN, "Europe/Berlin", "dateutil/Europe/Berlin"])
def test_pandas_has_each_of_two_hours(zone: object) -> None:
    """Also where its own zones lose which of them it is when a timestamp becomes a datetime."""
    counts = [SECONDS.time("2026-10-25T00:00Z") + 1800 * at for at in range(6)]
    moments = pandas.to_datetime(counts, unit="s", utc=True).tz_convert(zone)
    assert [SECONDS.time(moment) for moment in moments] == counts
    assert [LOCAL.time(moment) for moment in moments] == counts


@given(st.integers(0, 2**62))
def test_each_count_has_a_form(count: int) -> None:
    for resolution in NANOSECONDS:
        clock = Clock(resolution, EPOCH, None)
        shown = clock.back(count)
        assert clock.time(shown) == count


def test_nanoseconds_are_kept() -> None:
    clock = Clock("ns", EPOCH, None)
    for text in ("2026-11-29T10:00:00.123456789Z", "2026-11-29T10:00:00.123456789+00:00"):
        assert clock.time(text) % 10**9 == 123456789
    assert clock.time(pandas.Timestamp("2026-11-29T10:00:00.123456789Z")) % 10**9 == 123456789
    assert clock.time(numpy.datetime64("2026-11-29T10:00:00.123456789")) % 10**9 == 123456789
    with pytest.raises(TimeError):
        clock.time(numpy.datetime64("9999-01-01"))


def test_digits_as_text_count_seconds() -> None:
    """As a table of text has them. A whole number counts the steps of the stream."""
    ms, minutes, days = (Clock(unit, EPOCH, BERLIN) for unit in ("ms", "minute", "day"))
    assert ms.time("1700000000") == ms.time("2023-11-14T22:13:20Z") == 1700000000000
    assert ms.begin("1700000000") == ms.end("1700000000") == 1700000000000
    assert ms.time(1700000000) == 1700000000 and SECONDS.time("1700000000") == 1700000000
    assert minutes.time("1700000040") == 28333334 and minutes.end("1700000059") == 28333334
    assert days.time("86400") == 1 and Clock("s", datetime.date(1958, 1, 1), None).time("0") == 378691200
    for odd in ("20261129", "202611291000", "20261129100000", "1700000000000", "1700000000000000000"):
        for clock in (SECONDS, ms, Clock("ns", EPOCH, None)):
            with pytest.raises(TimeError, match="digits"):
                clock.time(odd)
            with pytest.raises(TimeError, match="digits"):
                clock.begin(odd)
    with pytest.raises(TimeError):
        minutes.time("1700000001")


def test_spans() -> None:
    assert SECONDS.step("15 min") == 900 and SECONDS.step("1h") == 3600 and SECONDS.step("365d") == 31536000
    assert SECONDS.step(datetime.timedelta(hours=1)) == SECONDS.step(pandas.Timedelta("1h")) == 3600
    assert SECONDS.step(numpy.timedelta64(1, "h")) == 3600 and SECONDS.step(7) == 7
    assert span_of("2w") == 14 * 86400 * 10**9
    for wrong in ("1.5h", "hour", "500ms", 1.5, None, "-1h"):
        with pytest.raises(TimeError):
            SECONDS.step(wrong)


def test_zones() -> None:
    assert zone_of("Europe/Berlin") is not None and zone_of(None) is None
    with pytest.raises(TimeError):
        zone_of("Europe/Nowhere")


@pytest.mark.parametrize("given_time", [
    TEN + 0.75, numpy.float64(TEN + 0.25), datetime.datetime.fromtimestamp(TEN + 0.5, UTC),
    pandas.Timestamp("2025-11-29T10:00:00.25", tz="Europe/Berlin"),
])
def test_what_a_clock_says_is_rounded_down_and_told_once(given_time: object) -> None:
    clock = Clock("s", EPOCH, None)
    with pytest.warns(RoundedTimeWarning, match="counts in s"):
        assert clock.time(given_time) == TEN
    with warnings.catch_warnings():
        warnings.simplefilter("error")
        assert clock.time(given_time) == TEN and clock.time(float(TEN)) == TEN
        assert (clock.begin(given_time), clock.end(given_time)) == (TEN + 1, TEN)
        assert Clock("us", EPOCH, None).time(given_time) > TEN * 10**6


def test_times_told_from_now() -> None:
    clock = Clock("s", EPOCH, None)
    for ago, span in (("now-1h", 3600), ("now - 5 min", 300), ("now-5m", 300), ("now", 0), ("now+1d", -86400),
                      (datetime.timedelta(hours=-1), 3600), (pandas.Timedelta("1h"), -3600)):
        for found in (clock.time(ago), clock.begin(ago) - 1, clock.end(ago)):
            assert abs(clock.now() - span - found) <= 2


def test_now() -> None:
    for resolution in ("us", "ms", "s", "minute", "day"):
        before = datetime.datetime.now(UTC)
        now = summarystore.now(resolution)
        assert before - datetime.timedelta(microseconds=NANOSECONDS[resolution] // 1000) < now
        assert Clock(resolution, EPOCH, None).time(now) >= 0
    with pytest.raises(TimeError):
        summarystore.now("ns")
