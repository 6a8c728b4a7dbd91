"""The arithmetic of a fleet, and the simulation of its questions."""

from __future__ import annotations

import random

import pytest

from summarystore.fleet import planning
from summarystore.fleet.planning import ENDED, HANGING, UP, Costs, Layout

COSTS = Costs(shard=0.001, ask=0.01, gateway=0.002, refused=0.003, hangs=5)


@pytest.mark.parametrize("target, values, count", [
    (("exp", 2, 1, 1), 0, 0), (("exp", 2, 1, 1), 1, 1), (("exp", 2, 1, 1), 3, 2), (("exp", 2, 1, 1), 4, 3),
    (("exp", 2, 60, 1), 60, 60), (("exp", 2, 60, 1), 61, 61), (("exp", 2, 60, 1), 180, 120),
    (("power", 1, 1, 4, 1), 4, 4), (("power", 1, 1, 4, 1), 12, 8), (("power", 2, 0, 1, 1), 6, 6),
    (("power", 1, 0, 1, 65536), 65537, 2)])
def test_target_windows(target: tuple[int | str, ...], values: int, count: int) -> None:
    assert planning.target_windows(target, values) == count
    assert planning.most_windows(target, values) == max(0, 2 * count - 1)


def test_a_store() -> None:
    assert [planning.streams_of_a_store(windows) for windows in (30, 990, 5412, 9209, 35603)] == \
        [4096, 1058, 193, 113, 29]
    assert planning.bytes_of_a_store(1, 9209) == 1_215_744
    assert planning.bytes_of_a_store(113, 9209) < planning.HEAD + planning.RECORD * planning.SLOTS


def test_a_question() -> None:
    layout = Layout(shards=4, streams=10, replicas=2, together=2)
    seconds, missing = planning.question(layout, COSTS, [[UP, UP]] * 4)
    assert missing == 0 and seconds == pytest.approx(0.044)
    states = [[UP, UP], [ENDED, UP], [ENDED, ENDED], [HANGING, UP]]
    seconds, missing = planning.question(layout, COSTS, states)
    assert missing == 1 and 5 < seconds < 5.1
    assert planning.question(layout, COSTS, [[HANGING, HANGING]] * 4)[1] == 4


def test_states() -> None:
    layout = Layout(shards=1000, streams=1, replicas=2, together=1)
    found = planning.states_of(layout, 0.1, 0.5, random.Random(1))
    down = sum(state != UP for replicas in found for state in replicas)
    assert 150 < down < 250 and all(not (each[0] != UP and each[1] == UP) for each in found)


def test_an_outage() -> None:
    assert planning.catch_up(86400, 17, 45000) == pytest.approx(32.65, abs=0.01)
    assert planning.catch_up(1, 5, 5) == float("inf")
