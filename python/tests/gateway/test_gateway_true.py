"""Answers over four shards hold the truth, by brute force."""

from __future__ import annotations

import os
import shutil
import tempfile
from collections.abc import Mapping, Sequence
from decimal import Decimal
from pathlib import Path

import pytest
from hypothesis import HealthCheck, given, settings
from hypothesis import strategies as st

from ..waiting import run
from .shards import SHARDS, STEPS, T, Readings, fleet, holds, of_range, shard_of

KINDS = ("count", "sum", "min", "max", "mean")
SPAN = 1200
NAMES = tuple(f"{room}/{letter}" for room in STEPS for letter in "abcdef")
PATTERNS = ("*", "kitchen/*", "cellar/*", "attic/*", "*/a", "kitchen/b", "?it*/[a", "*c")
EXAMPLES = int(os.environ.get("SUMMARYSTORE_TEST_RUNS", "20")) // 2


def readings_of(drawn: Mapping[str, Mapping[int, int]]) -> Readings:
    """Readings in the resolution of their streams, in order."""
    found = {}
    for name, values in drawn.items():
        step = STEPS[name.partition("/")[0]]
        half = name.startswith("attic")
        rows = {(T + at) // step * step: Decimal(value) / (2 if half else 10)
                for at, value in values.items()}
        if rows:
            found[name] = sorted(rows.items())
    return found


READINGS = st.dictionaries(st.sampled_from(NAMES), st.dictionaries(
    st.integers(0, SPAN), st.integers(-500, 500), max_size=25), min_size=1, max_size=10).map(readings_of)
RANGES = st.tuples(st.integers(-100, SPAN), st.integers(0, SPAN)).map(
    lambda ends: (T + ends[0], T + ends[0] + ends[1]))
QUESTIONS = st.lists(st.tuples(st.sampled_from(PATTERNS), RANGES, st.integers(7, 400)),
                     min_size=1, max_size=4)
ONE: Sequence[tuple[str, Mapping[str, str]]] = (
    ("/api/query", {"kind": "sum", "from": str(T + 5)}), ("/api/query", {"kind": "has", "value": "1.5"}),
    ("/api/series", {"kind": "mean", "rows": "9"}), ("/api/windows", {}), ("/api/landmarks", {}))


@pytest.mark.usefixtures("program")
@settings(max_examples=EXAMPLES, suppress_health_check=[HealthCheck.too_slow])
@given(READINGS, QUESTIONS)
def test_against_brute_force(readings: Readings, questions: Sequence[tuple[str, tuple[int, int], int]]
                             ) -> None:
    folder = tempfile.mkdtemp(dir="/dev/shm" if os.access("/dev/shm", os.W_OK) else None)

    async def work() -> None:
        async with fleet(Path(folder), readings) as (client, _):
            for pattern, (first, last), step in questions:
                matched = {name for name in readings if of_range({name: [(0, Decimal(0))]}, pattern, 0, 0)}
                status = 200 if matched else 404
                for kind in KINDS:
                    told = await client.get("/api/query", status, streams=pattern, kind=kind, to=str(last),
                                            **{"from": str(first)})
                    if not matched:
                        continue
                    values = of_range(readings, pattern, first, last)
                    assert told["matched"] == len(matched) and told["partial"] is False
                    assert holds(kind, told, values), (kind, told, values)
                    whole = await client.get("/api/series", streams=pattern, kind=kind, to=str(last),
                                             step=str(step), **{"from": str(first)})
                    for row in whole["rows"]:
                        end = min(last, row["time"] + step - 1)
                        assert holds(kind, row, of_range(readings, pattern, row["time"], end)), (kind, row)
                    assert whole["rows"][0]["time"] == first and whole["rows"][-1]["time"] > last - step
    try:
        run(work())
    finally:
        shutil.rmtree(folder)


def test_one_shard_says_what_its_service_says(folder: Path, program: str) -> None:
    readings = readings_of({name: {at * 7: at for at in range(60)} for name in NAMES})

    async def work() -> None:
        async with fleet(folder, readings) as (client, shards):
            for name in NAMES:
                service = shards[shard_of(name)]
                for path, words in ONE:
                    assert await client.get(path, stream=name, **words) == \
                        await service.get(path, stream=name, **words)
                assert client.headers["Summarystore-Shard"] == shard_of(name)
                table = await client.text("GET", "/api/windows", params={"stream": name},
                                          headers={"Accept": "text/csv"})
                assert table.startswith("first,last,count,sum,min,max,from,to\n")
            streams = (await client.get("/api/streams", match="*/a"))["streams"]
            assert {(each["name"], each["shard"]) for each in streams} == {
                (name, shard_of(name)) for name in NAMES if name.endswith("/a")}
            names = await client.get("/api/names")
            assert sorted(names["names"]) == sorted(NAMES) and set(names["shards"]) == set(SHARDS)
    run(work())
