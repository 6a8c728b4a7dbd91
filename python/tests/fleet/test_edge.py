"""A sender's store and spool: what has an `ok` has its frame, whatever dies when."""

from __future__ import annotations

import os
import random
import signal
import subprocess
import sys
import time
from collections.abc import Iterator, Sequence
from pathlib import Path

import pytest

from summarystore.errors import KilledError
from summarystore.fleet.edge import Edge, Reply
from summarystore.fleet.frames import event_of, number_of
from summarystore.fleet.spool import Spool

from ..conftest import HOME
from ..waiting import until
from .chaos import programs_of

NOWHERE = "amqp://127.0.0.1:1"
AGAIN = {"refused TIME", "refused EXISTS"}
"""What is said to an event that was done before."""
LINES = ["create a exp 2 60 1", "create b power 1 1 4 1",
         *(f"append {'ab'[at % 2]} {at} {at}" for at in range(40)),
         "append a 3 3", "landmark a open 50", "append a 51 7", "create a exp 2 1 1", "landmark a close 52",
         *(f"append a {at} {at}" for at in range(53, 60)),
         "append c 1 1", "append a 59 1", "nonsense", "# nothing", "query a count 0 100", "append a 60 1",
         "windows b", "landmark b close 70", "append b 80 1"]


def opened(folder: Path, program: str) -> tuple[Edge, list[bytes], list[tuple[str, int, int]]]:
    """A store with its spool, the frames that count, and what has none."""
    edge = Edge(folder / "edge.store", Spool(folder / "spool"), program)
    found = list(edge.open())
    return (edge, [each for each in found if isinstance(each, bytes)],
            [each for each in found if not isinstance(each, bytes)])


def plain(program: str, store: Path, lines: Sequence[str], *mode: str) -> list[str]:
    """The output of a run."""
    done = subprocess.run([program, str(store), *mode], input="\n".join(lines), capture_output=True,
                          text=True, check=True)
    return done.stdout.splitlines()


def followed(program: str, folder: Path, frames: Sequence[bytes]) -> list[str]:
    """What a new store shows that follows these frames."""
    store = folder / "followed.store"
    subprocess.run([program, str(store), "follow"], input=b"".join(frames), stdout=subprocess.DEVNULL,
                   check=True)
    shown = plain(program, store, ["list", "windows a", "windows b", "values a 0 100"])
    store.unlink()
    return shown


def flat(replies: Sequence[Reply]) -> Iterator[str]:
    """Replies as the program writes them."""
    for reply in replies:
        yield reply.head
        yield from reply.rows


def test_replies_are_those_of_the_program(program: str, folder: Path) -> None:
    edge, frames, missing = opened(folder, program)
    assert (frames, missing) == ([], [])
    taken = edge.take(LINES)
    assert list(flat(taken.replies)) == plain(program, folder / "plain.store", LINES)
    edge.close()
    made = subprocess.run([program, str(folder / "framed.store"), "frames"], input="\n".join(LINES).encode(),
                          capture_output=True, check=True)
    assert b"".join(taken.frames) == made.stdout
    edge, frames, missing = opened(folder, program)
    assert missing == [] and sorted(frames) == sorted(taken.frames)
    assert list(flat(edge.take(["append a 60 1", "append a 61 1"]).replies)) == ["refused TIME", "ok 29 29"]
    edge.close()


def test_a_drop_is_not_taken(program: str, folder: Path) -> None:
    edge, _, _ = opened(folder, program)
    replies = edge.take(["create a exp 2 60 1", "append a 1 1", "drop a", "append a 2 2"]).replies
    assert [reply.head for reply in replies] == ["ok 0 0", "ok 1 1", "refused DROP", "ok 2 2"]
    edge.close()


def test_events_of_a_plain_run_have_no_frame(program: str, folder: Path) -> None:
    plain(program, folder / "edge.store", ["create a exp 2 60 1", "append a 1 1"])
    edge, frames, missing = opened(folder, program)
    assert (frames, missing) == ([], [("a", 1, 2)])
    edge.take(["append a 2 2"])
    edge.close()
    plain(program, folder / "edge.store", ["append a 3 3"])
    edge, frames, missing = opened(folder, program)
    assert ([number_of(frame) for frame in frames], missing) == ([3], [("a", 4, 4)])
    edge.close()


def test_a_frame_of_another_event_does_not_count(program: str, folder: Path) -> None:
    """A death left the frame of an event that never came, and a plain run did another of that number."""
    edge, _, _ = opened(folder, program)
    edge.take(["create a exp 2 60 1", "append a 1 1"])
    event = event_of("append a 2 2")
    assert event is not None
    edge.spool.add(event.frame(3))
    edge.close()
    edge, frames, missing = opened(folder, program)
    assert [number_of(frame) for frame in frames] == [1, 2] and missing == []
    edge.close()
    plain(program, folder / "edge.store", ["append a 5 5"])
    edge, frames, missing = opened(folder, program)
    assert (frames, missing) == ([], [("a", 1, 3)])
    edge.close()


def test_the_program_ends_under_a_call(program: str, folder: Path) -> None:
    edge, _, _ = opened(folder, program)
    edge.take(LINES[:10])
    assert edge.pid is not None
    os.kill(edge.pid, signal.SIGKILL)
    with pytest.raises(KilledError):
        edge.take(LINES[10:])
    edge.close()
    edge, frames, missing = opened(folder, program)
    assert missing == []
    edge.take(LINES[10:])
    edge.close()


def killed_run(folder: Path, program: str, lines: Sequence[str], seconds: float | None) -> list[str]:
    """Replies of a sender that is killed after a time, with its program."""
    words = [sys.executable, "-m", "summarystore.fleet.send", str(folder / "edge.store"), "--broker", NOWHERE,
             "--spool", str(folder / "spool"), "--linger", "0", "--program", program]
    with subprocess.Popen(words, env={**os.environ, "PYTHONPATH": str(HOME / "src")}, stdin=subprocess.PIPE,
                          stdout=subprocess.PIPE, stderr=subprocess.DEVNULL, text=True) as child:
        assert child.stdin and child.stdout
        replies = []
        try:
            for at in range(0, len(lines), 3):
                child.stdin.write("".join(f"{line}\n" for line in lines[at:at + 3]))
                child.stdin.flush()
                if seconds is not None and at == 3:
                    time.sleep(random.random() * seconds)
                    child.kill()
                for _ in lines[at:at + 3]:
                    reply = child.stdout.readline()
                    if not reply.endswith("\n"):
                        raise BrokenPipeError
                    replies.append(reply.rstrip("\n"))
        except BrokenPipeError:
            child.kill()
        child.stdin = None
    return replies


def test_what_has_an_ok_has_its_frame_after_each_death(program: str, folder: Path) -> None:
    """The sender is killed again and again. What had no reply is sent again."""
    lines = ["create a exp 2 60 1", "create b exp 2 1 1",
             *(f"append {'ab'[at % 2]} {at} {at}" for at in range(60))]
    random.seed(7)
    acknowledged, kills = 0, 0
    while acknowledged < len(lines):
        replies = killed_run(folder, program, lines[acknowledged:], 0.05 if kills < 8 else None)
        assert {reply for reply in replies if not reply.startswith("ok ")} <= AGAIN
        acknowledged += len(replies)
        kills += 1
        until(lambda: not programs_of(folder / "edge.store"))     # it sees the end of its input
        edge, frames, missing = opened(folder, program)
        edge.close()
        assert missing == []
        shown = plain(program, folder / "edge.store", ["list", "windows a", "windows b", "values a 0 100"])
        assert followed(program, folder, frames) == shown
    assert plain(program, folder / "edge.store", ["list"])[1].split()[-4] == "30"
