"""What is done about a gap, and when."""

from __future__ import annotations

from summarystore.fleet.gaps import LATER, Gaps, Step


def steps(gaps: Gaps, seconds: float) -> list[tuple[float, Step]]:
    """What is done in so many seconds, with when."""
    return [(tick / 10, step) for tick in range(int(seconds * 10)) for _, _, step in gaps.due(tick / 10)]


def test_a_log_is_read_again_before_the_sender_is_asked() -> None:
    gaps = Gaps(stays=True)
    gaps.missing("a", 3, 5, 100, 0.0)
    assert steps(gaps, 24) == [(0.5, Step.AGAIN), (1.5, Step.ASK), (11.5, Step.BEGIN), (12.5, Step.ASK),
                               (22.5, Step.LOST)]
    assert gaps.lost == {"a": 3} and gaps.offset is None
    assert [step for _, step in steps(gaps, 22.6 + LATER)] == [Step.ASK]
    gaps.came("a", 4, 0.0)
    assert gaps.lost == {} and len(gaps) == 1
    gaps.came("a", 5, 0.0)
    assert len(gaps) == 0


def test_the_sender_of_a_queue_is_asked_at_once() -> None:
    gaps = Gaps(stays=False)
    gaps.missing("a", 3, 5, None, 0.0)
    assert [step for _, step in steps(gaps, 20)] == [Step.ASK, Step.ASK, Step.LOST]


def test_each_progress_begins_anew() -> None:
    gaps = Gaps(stays=True)
    gaps.missing("a", 3, 9, 100, 0.0)
    gaps.missing("a", 3, 9, 90, 0.0)
    gaps.missing("b", 0, 2, 95, 0.0)
    assert gaps.offset == 90
    assert [step for _, step in steps(gaps, 1)] == [Step.AGAIN, Step.AGAIN]
    gaps.came("a", 4, 1.0)
    gaps.came("b", 2, 1.0)
    assert steps(gaps, 1.7) == [(1.5, Step.AGAIN)]
