"""What is sent, and sent again: a follower that takes it by the rule of the numbers has all in the end."""

from __future__ import annotations

from hypothesis import given
from hypothesis import strategies as st

from summarystore.fleet.frames import SIZE, Event, number_of
from summarystore.fleet.outgoing import AGAIN, TOGETHER, Need, Outgoing, Piece

from .test_spool import frame


def filled(count: int, copies: int = 1, name: str = "a") -> Outgoing:
    """So many events of a stream."""
    outgoing = Outgoing(copies)
    for number in range(1, count + 1):
        outgoing.add(frame(number, name))
    return outgoing


def taken(outgoing: Outgoing, tag: int) -> Piece:
    """The next message."""
    piece = outgoing.take(tag)
    assert piece is not None
    return piece


def test_a_message_has_many_frames_of_one_stream() -> None:
    outgoing = filled(TOGETHER + 1)
    outgoing.add(frame(1, "b"))
    pieces = [taken(outgoing, tag) for tag in range(3)]
    assert [(piece.name, piece.first, piece.last) for piece in pieces] == [
        ("a", 1, TOGETHER), ("b", 1, 1), ("a", TOGETHER + 1, TOGETHER + 1)]
    assert outgoing.take(3) is None


def test_what_fails_goes_again_with_all_after_it() -> None:
    outgoing = filled(1)
    taken(outgoing, 1)
    outgoing.add(frame(2))
    taken(outgoing, 2)
    outgoing.confirmed(2)
    outgoing.failed(1)
    again = taken(outgoing, 3)
    assert (again.first, again.last) == (1, 2)


def test_a_frame_goes_when_enough_followers_have_it() -> None:
    outgoing = filled(3, copies=2)
    taken(outgoing, 1)
    outgoing.confirmed(1)
    outgoing.told("one", {"a": 3})
    assert outgoing.left == 3 and outgoing.held("a") == 0
    outgoing.told("two", {"a": 2})
    assert outgoing.left == 1 and outgoing.held("a") == 2
    outgoing = filled(3, copies=0)
    taken(outgoing, 1)
    outgoing.confirmed(1)
    assert outgoing.left == 0


def test_what_a_follower_misses_goes_again_but_not_at_once() -> None:
    outgoing = filled(3)
    taken(outgoing, 1)
    assert outgoing.wanted("a", 1, 100.0) and outgoing.take(2) is None      # it is under way
    outgoing.confirmed(1)
    assert outgoing.wanted("a", 1, 100.0)
    assert (taken(outgoing, 2).first, outgoing.wanted("a", 1, 101.0)) == (2, True)
    outgoing.confirmed(2)
    assert outgoing.take(3) is None
    assert outgoing.wanted("a", 1, 100.0 + AGAIN) and taken(outgoing, 3).first == 2
    outgoing.told("one", {"a": 2})
    assert not outgoing.wanted("a", 1, 200.0)
    assert not outgoing.wanted("b", 0, 200.0)


def test_the_last_frame_goes_again_of_what_stands_still() -> None:
    """Of each stream by itself: others may go on."""
    outgoing = filled(3)
    outgoing.add(frame(1, "b"))
    for tag in (1, 2):
        taken(outgoing, tag)
        outgoing.confirmed(tag)
    outgoing.nudge()
    assert outgoing.take(3) is None     # it was sent just now
    outgoing.told("one", {"a": 2})
    outgoing.nudge()
    assert (taken(outgoing, 3).name, outgoing.take(4)) == ("b", None)
    outgoing.nudge()
    assert (taken(outgoing, 4).first, outgoing.take(5)) == (3, None)    # b is under way
    outgoing.confirmed(3)
    outgoing.told("one", {"a": 3, "b": 1})
    outgoing.nudge()
    outgoing.nudge()
    assert outgoing.take(5) is None


def test_without_room_a_copy_is_needed() -> None:
    outgoing = filled(6)
    outgoing.told("one", {"a": 1})
    outgoing.gone({"a": 4})
    assert outgoing.needs == {"a": Need(2, 4)} and outgoing.left == 2
    outgoing.gone({"a": 5})
    assert outgoing.needs == {"a": Need(2, 5)}
    outgoing.told("one", {"a": 4})
    assert outgoing.needs == {"a": Need(2, 5)}
    outgoing.told("one", {"a": 5})
    assert outgoing.needs == {} and taken(outgoing, 1).first == 6


def test_a_later_frame_of_one_number_counts() -> None:
    outgoing = filled(2)
    other = Event(2, "a", 77, 0, bytes(16)).frame(2)
    outgoing.add(other)
    assert taken(outgoing, 1).frames == frame(1) + other


@given(st.data())
def test_a_log_has_all_in_order_in_the_end(data: st.DataObject) -> None:
    """Messages fail or not in any order. Who reads the log by the numbers has each event once."""
    outgoing, log, added = Outgoing(1), [], {"a": 0, "b": 0}
    under_way: dict[int, Piece] = {}
    for tag in range(60):
        draw = data.draw(st.sampled_from("abtttfcl"))
        if draw in "ab":
            added[draw] += 1
            outgoing.add(frame(added[draw], draw))
        elif draw == "t" and (piece := outgoing.take(tag)) is not None:
            under_way[tag] = piece
        elif draw in "fc" and under_way:
            some = data.draw(st.sampled_from(sorted(under_way)))
            piece = under_way.pop(some)
            if draw == "c":
                log.append(piece)
                outgoing.confirmed(some)
            else:       # it may have come for all that
                log += [piece] * data.draw(st.booleans())
                outgoing.failed(some)
        elif draw == "l":
            under_way.clear()
            outgoing.lost()
    outgoing.lost()
    tag = 1000
    while (piece := outgoing.take(tag)) is not None:
        log.append(piece)
        outgoing.confirmed(tag)
        tag += 1
    have = {"a": 0, "b": 0}
    for piece in log + log:     # a message that came late comes again from the log
        for at in range(0, len(piece.frames), SIZE):
            have[piece.name] += number_of(piece.frames[at:at + SIZE]) == have[piece.name] + 1
    assert have == added
