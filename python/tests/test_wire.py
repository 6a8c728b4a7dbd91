"""Lines and replies, without a process."""

from __future__ import annotations

from typing import cast

import pytest

from summarystore import wire
from summarystore.errors import (NumberError, ProcessEndedError, ProtocolError, RefusedError,
                                 StreamNameError, UnexpectedEndError)
from summarystore.interval import Interval
from summarystore.pipeline import ATOMIC, Appends, Commands, Pipeline
from summarystore.wire import Reply


def test_commands() -> None:
    assert wire.create("a", "exp 2 1 1") == "create a exp 2 1 1"
    assert wire.create("a", ("power", 1, 1, 4, 1), 60) == "create a power 1 1 4 1 within 60"
    assert wire.tagged(3, [wire.append("a", 10, -5), wire.LIST]) == b"@3 append a 10 -5\n@3 list\n"
    assert wire.readings("a", [(1, 2), (3, -4)]).lines(7) == b"@7 append a 1 2\n@7 append a 3 -4\n"


@pytest.mark.parametrize("name", ["", "a b", "a\n@0 drop b", "a\tb", "a\r", "é", "a\0b"])
def test_a_name_is_one_word(name: str) -> None:
    with pytest.raises(StreamNameError):
        wire.append(name, 1, 1)


@pytest.mark.parametrize("value", ["5", 5.0, True, None, "5\n@0 drop a", b"5", [5]])
def test_a_number_is_whole(value: object) -> None:
    with pytest.raises(NumberError):
        wire.whole(value)
    with pytest.raises(NumberError):
        wire.readings("a", cast("list[tuple[int, int]]", [(1, value)]))


@pytest.mark.parametrize("text,interval", [
    ("1 2", Interval(1, 2)), ("-5 16", Interval(-5, 16)), ("none", Interval.nothing()),
    ("1 1 maybe-none", Interval(1, maybe_none=True)),
])
def test_intervals(text: str, interval: Interval) -> None:
    assert wire.interval_of(text) == interval


@pytest.mark.parametrize("text", ["", "1", "1 2 3", "1 x", "1 2 maybe", "none 1", "1.5 2", "٣ 4", "+1 2"])
def test_what_is_no_interval(text: str) -> None:
    with pytest.raises(ProtocolError):
        wire.interval_of(text)


def test_rows() -> None:
    heads = {"ok 1 1": 0, "series 3": 3, "windows 2": 2, "list 0": 0, "values 9": 9, "rows 5": 5,
             "cursor 5": 0, "certify -5 0 2": 4, "refused TIME": 0, "last 5 5 1 1": 0, "closed": 0}
    assert {head: wire.rows_after(head) for head in heads} == heads
    row = wire.stream_of("a exp 2 1 1 within 60 7 4 0 0")
    assert (row.name, row.target, row.within, row.values) == ("a", "exp 2 1 1", 60, 7)
    assert wire.stream_of("p power 1 0 1 4 7 3 1 1").within is None


def fed(pipeline: Pipeline, text: bytes, size: int) -> None:
    for at in range(0, len(text), size):
        pipeline.received(text[at:at + size])


@pytest.mark.parametrize("size", [1, 2, 3, 7, 64, 10000])
def test_replies_in_pieces_of_any_size(size: int) -> None:
    pipeline = Pipeline()
    first = Commands(1, ["append a 1 1", "series a sum 0 9 5", "list"])
    many = Appends(0, wire.readings("a", [(t, t) for t in range(20)]), list(range(20)))
    last = Commands(2, ["drop a"])
    for request in (first, many, last):
        pipeline.add(request)
    oks = b"".join(b"@0 ok %d 1\n" % t if t != 7 else b"@0 refused TIME\n" for t in range(20))
    fed(pipeline, b"@1 ok 1 1\n@1 series 2\n@1 0 1 1\n@1 5 0 0\n@1 list 0\n" + oks + b"@2 ok 0 0\n", size)
    assert first.replies == [Reply("ok 1 1", []), Reply("series 2", ["0 1 1", "5 0 0"]), Reply("list 0", [])]
    assert (many.stored, many.last, [row for row, _ in many.refused]) == (19, "ok 19 1", [7])
    assert isinstance(many.refused[0][1], RefusedError) and many.refused[0][1].line == "append a 7 7"
    assert last.done and pipeline.idle


@pytest.mark.parametrize("text", [
    b"@1 ok 1 1\n@0 ok 2 1\n", b"@0 ok 1 1\nok 2 1\n", b"@0 ok 1 1\n@0 count 1 1\n", b"@0 none\n",
    b"@0 ok 1 1\n@0 ok 2 1\n@0 ok 3 1\n", b"@0 ok 1 1\n@0 okay\n",
])
def test_what_is_no_reply(text: bytes) -> None:
    pipeline = Pipeline()
    pipeline.add(Appends(0, wire.readings("a", [(1, 1), (2, 2)]), [1, 2]))
    with pytest.raises(ProtocolError):
        pipeline.received(text)


def test_pieces_are_whole_lines_that_a_pipe_takes_at_once() -> None:
    pipeline = Pipeline()
    rows = [(t, -t) for t in range(10**18, 10**18 + 1000)]
    request = Appends(0, wire.readings("a" * 32, rows), rows)
    pipeline.add(request)
    pipeline.add(Commands(1, ["list"]))
    written = []
    while pipeline.unwritten:
        written.append(pipeline.next_write())
        pipeline.wrote()
    assert all(0 < len(piece) <= ATOMIC and piece.endswith(b"\n") for piece in written)
    assert b"".join(written) == request.data + b"@1 list\n" and request.written == 1000
    assert pipeline.sent == len(request.data) + 8


@pytest.mark.parametrize("line", ["", "  ", "# a", "\t# a", "list\n", "list\n@1 list", "list\r"])
def test_each_command_has_one_reply(line: str) -> None:
    with pytest.raises(RefusedError):
        Commands(0, [line])


def test_a_line_that_is_too_long_has_no_session() -> None:
    pipeline = Pipeline()
    request = Commands(3, ["list", "x" * 300, "list"])
    pipeline.add(request)
    pipeline.received(b"@3 list 0\nrefused LINE\n@3 list 0\n")
    assert [reply.head for reply in request.replies] == ["list 0", "refused LINE", "list 0"]


def test_what_was_in_flight() -> None:
    pipeline = Pipeline()
    rows = list(range(400))
    many = Appends(0, wire.readings("a", [(t, t) for t in rows]), rows)
    pipeline.add(many)
    pipeline.add(Commands(1, ["drop a"]))
    piece = pipeline.next_write()
    pipeline.wrote()
    sent = piece.count(b"\n")
    pipeline.received(b"@0 ok 1 1\n" * 5 + b"@0 refused TIME\n" + b"@0 ok 6 1\n" + b"@0 ok 7")
    pipeline.ended(lambda: UnexpectedEndError(0, ""))
    error = many.error
    assert isinstance(error, ProcessEndedError) and many.done
    assert error.acknowledged == 6 and error.unknown == rows[7:sent] and error.not_stored == rows[sent:]
    assert 7 < sent < 400 and pipeline.idle
