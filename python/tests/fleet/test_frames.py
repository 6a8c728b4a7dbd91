"""Frames that are made here are those of the program, and messages are whole."""

from __future__ import annotations

import subprocess
from pathlib import Path

from hypothesis import given
from hypothesis import strategies as st

from summarystore.fleet.frames import (CREATE, Event, event_of, frames_in, message, name_of, number_of,
                                       probe, time_of, words_of)

LINES = ["create a exp 2 60 1", "append a 10 5", " append\ta  011 -9223372036854775808 ",
         "landmark a open 12", "append a 13 9223372036854775807",
         "landmark a close 4611686018427387903\r",
         f"create {'b' * 32} power 1 1 4 1", f"append {'b' * 32} 0 0",
         "create c exp 2 1 1 within 00060", "create d power 1 1 4 1\twithin 4294967295"]
NONE = ["", "# append a 1 1", "list", "append a 1", "append a 1 1 1", "append a -1 1", "append a 1 +1",
        "append a 4611686018427387905 1", "append a 1 9223372036854775808", "append a\x0c1 1 1",
        "append ä 1 1", f"append {'a' * 33} 1 1", "create a exp 2 1", "create a exp 2 1 1 1",
        "create a tree 1 1 1", "create a exp 2 1 4294967296", "landmark a shut 1", "drop a", "append a １ 1",
        "create a exp 2 1 1 within", "create a exp 2 1 1 withing 5", "create a exp 2 1 1 within 5 6",
        "create a exp 2 1 1 within 0", "create a exp 2 1 1 within 4294967296", "create a exp 2 1 1 within x",
        "create a exp 2 1 within 5", "create a power 1 1 4 within 5", "create a within 5 exp 2 1 1"]


def test_the_program_makes_the_same(program: str, path: Path) -> None:
    done = subprocess.run([program, str(path), "frames"], input="\n".join(LINES).encode(),
                          capture_output=True, check=True)
    events = [event for event in map(event_of, LINES) if event is not None]
    numbers = [1, 2, 3, 4, 5, 6, 1, 2, 1, 1]
    assert len(events) == len(LINES)
    frames = [event.frame(number) for event, number in zip(events, numbers)]
    assert b"".join(frames) == done.stdout
    assert [number_of(frame) for frame in frames] == numbers
    assert [name_of(frame) for frame in frames] == [event.name for event in events]
    assert [time_of(frame) for frame in frames] == [event.time for event in events]


def test_lines_without_an_event() -> None:
    assert [line for line in NONE if event_of(line) is not None] == []


def test_words_are_parted_as_the_program_does() -> None:
    assert words_of("a\tb  c\r") == ["a", "b", "c"]
    assert words_of("\r") == words_of("#a") == words_of(" \t") == []
    assert words_of("\r\r") == ["\r"] and words_of(" #") == ["#"]


def test_a_probe_is_told_the_number_of_events(program: str, path: Path) -> None:
    subprocess.run([program, str(path)], input=b"create a exp 2 1 1\nappend a 1 1\n",
                   stdout=subprocess.DEVNULL, check=True)
    done = subprocess.run([program, str(path), "follow"], input=probe("a") + probe("b"), capture_output=True,
                          check=True)
    assert done.stdout == b"gap 2\ngap 0\n"


@given(st.binary(max_size=200), st.integers(0, 200), st.integers(0, 7))
def test_a_message_that_is_changed_is_none(body: bytes, at: int, bit: int) -> None:
    frames = Event(CREATE, "a", None, 1, bytes(16)).frame(1) + Event(2, "a", 1, 0, bytes(16)).frame(2)
    sent = message(frames)
    assert frames_in(sent) == frames
    assert frames_in(body) is None
    changed = bytearray(sent)
    changed[at % len(sent)] ^= 1 << bit
    assert frames_in(bytes(changed)) is None
    assert frames_in(sent[:at % len(sent)]) is None


def test_a_message_has_one_stream_and_no_gap() -> None:
    first, second, third = (Event(2, "a", 1, 0, bytes(16)).frame(number) for number in (1, 2, 3))
    other = Event(2, "b", 1, 0, bytes(16)).frame(2)
    assert frames_in(message(first + second + third)) is not None
    assert frames_in(message(first + third)) is None
    assert frames_in(message(first + other)) is None
    assert frames_in(message(b"")) is None
