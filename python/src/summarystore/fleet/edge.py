"""The store of a sender: lines go in, and replies come out when the frames of their events are safe.

The frame of an event is made from its line and written to the spool before the store gets the line.
So after a death the store says, by its number of events, which frames of the spool count. That
needs a surely known number for each line that is under way. So several lines of a stream go together
only where all of them are surely accepted: appends with growing times. Any other goes alone.
"""

from __future__ import annotations

import subprocess
from collections import deque
from collections.abc import Iterable, Iterator, Sequence
from dataclasses import dataclass, field
from typing import NamedTuple

from ..errors import ProtocolError, StoreClosedError, ending_of
from ..program import StorePath, command, find_program, store_word
from ..wire import LONGEST_SENT, WORD, rows_after
from .frames import CREATE, SIZE, VALUE, Event, event_of, name_of, number_of, probe, time_of, words_of
from .spool import Spool

TOGETHER = 60_000
"""So many bytes of lines, fewer than a pipe takes at once."""
DROP = "refused DROP"
READ = 1 << 16


@dataclass
class Standing:
    """What is known of a stream."""

    events: int
    time: int | None = None
    """The time of its last event, where that was an append."""


class Planned(NamedTuple):
    """A line to send, its event, and the frame that was written for it."""

    line: str
    event: Event | None
    frame: bytes | None


class Reply(NamedTuple):
    """The reply to a line: its head and its rows."""

    head: str
    rows: Sequence[str] = ()


@dataclass
class Taken:
    """What came of lines: a reply to each, the frames of those that were accepted, and what the spool
    had no room for."""

    replies: list[Reply] = field(default_factory=list)
    frames: list[bytes] = field(default_factory=list)
    gone: dict[str, int] = field(default_factory=dict)


class Batch:
    """Lines that go together."""

    def __init__(self, streams: dict[str, Standing]) -> None:
        self._streams = streams
        self._ahead: dict[str, Standing | None] = {}
        """How the streams of its lines stand after them. None where that isn't sure."""
        self.planned: list[Planned] = []
        self._size = 0

    def takes(self, line: str) -> bool:
        """Adds a line. False where it has to wait for the replies to those before it."""
        event = event_of(line)
        name = event.name if event is not None else _named(line)
        if self._size + len(line) >= TOGETHER and self.planned or name in self._ahead \
                and self._ahead[name] is None:
            return False
        known = self._ahead.get(name) or self._streams.get(name)
        sure = known is not None and known.time is not None
        frame = None
        if event is not None and self._may_be(event, known):
            sure = sure and event.kind == VALUE
            if not sure and name in self._ahead:
                return False
            number = 1 + (known.events if known is not None else 0)
            frame = event.frame(number)
            self._ahead[name] = Standing(number, event.time) if sure else None
        elif event is not None and not sure:
            if name in self._ahead:
                return False
            self._ahead[name] = None
        self._size += len(line) + 1
        self.planned.append(Planned(line, event, frame))
        return True

    @staticmethod
    def _may_be(event: Event, known: Standing | None) -> bool:
        """Whether an event may be accepted. Else its line is surely refused."""
        if event.kind == CREATE or known is None:
            return event.kind == CREATE and known is None
        return event.kind != VALUE or known.time is None or event.time is None or event.time > known.time

    def frames(self) -> bytes:
        """The frames that are to be safe before the lines go."""
        return b"".join(planned.frame for planned in self.planned if planned.frame is not None)


def _named(line: str) -> str:
    words = words_of(line)
    return words[1] if len(words) > 1 else ""


class Edge:
    """The store and the spool of one sender. Its calls wait for the disk."""

    def __init__(self, path: StorePath, spool: Spool, program: str | None = None,
                 checked: bool | None = None) -> None:
        self._program = find_program(program)
        self._checked = checked
        self._path = store_word(path)
        self.spool = spool
        self.streams: dict[str, Standing] = {}
        self._process: subprocess.Popen[bytes] | None = None
        self._said: deque[bytes] = deque()
        self._rest = b""

    @property
    def pid(self) -> int | None:
        """The number of the program's process, if one is up."""
        return None if self._process is None else self._process.pid

    # ---- the beginning ------------------------------------------------------------------

    def open(self) -> Iterator[bytes | tuple[str, int, int]]:
        """Looks what stands, and gives the frames of the spool that count. A stream of which events have
        no frame is given as its name, the number of the first of them and that of the last."""
        names = [row.split(" ")[0] for row in self._run([], b"list\n")[1:]]
        gaps = self._run(["follow"], b"".join(probe(name) for name in names))
        self.streams = {name: Standing(_events(reply)) for name, reply in zip(names, gaps)}
        frames = self._of_the_spool()
        asked = self._run([], "".join(f"last {name}\n" for name in names).encode())
        for name, reply in zip(names, asked):
            yield from self._counted(name, frames.get(name, []), reply)
        self._process = subprocess.Popen(
            command(self._program, self._path, self._checked, "--batch", "--framed"), stdin=subprocess.PIPE,
            stdout=subprocess.PIPE, stderr=subprocess.PIPE, bufsize=0, start_new_session=True)

    def _run(self, mode: Sequence[str], given: bytes) -> list[str]:
        words = command(self._program, self._path, self._checked)
        done = subprocess.run([*words, *mode], input=given, capture_output=True, check=False)
        if done.returncode != 0:
            raise ending_of(done.returncode, done.stderr.decode("utf-8", "replace").strip())
        return done.stdout.decode("ascii").splitlines()

    def _of_the_spool(self) -> dict[str, list[bytes]]:
        """The frames of each stream that the store has an event of, the later of two of one number."""
        found: dict[str, dict[int, bytes]] = {}
        for frame in self.spool.scan():
            found.setdefault(name_of(frame), {})[number_of(frame)] = frame
        return {name: [frames[number] for number in sorted(frames) if number <= self.streams[name].events]
                for name, frames in found.items() if name in self.streams}

    def _counted(self, name: str, frames: Sequence[bytes], said: str
                 ) -> Iterator[bytes | tuple[str, int, int]]:
        """Those of one stream, and what is missing behind them."""
        standing = self.streams[name]
        last_time = int(said.split(" ")[1]) if said.startswith("last ") and said != "last none" else None
        known = min(self.spool.counts.get(name, 0), standing.events)
        if frames:
            known = number_of(frames[-1])
            time = time_of(frames[-1])
            if known == standing.events and frames[-1][0] == VALUE and time != last_time:
                known, frames = number_of(frames[0]) - 1, []    # these were never done: others were
            elif known == standing.events and frames[-1][0] == VALUE:
                standing.time = time
        yield from frames
        if known < standing.events:
            yield name, known + 1, standing.events

    # ---- lines --------------------------------------------------------------------------

    def take(self, lines: Iterable[str]) -> Taken:
        """Gives lines to the store. Each has a reply, but for comments and lines without words."""
        taken = Taken()
        batch = Batch(self.streams)
        for line in lines:
            words = words_of(line[:LONGEST_SENT])
            if not words:
                continue
            line = line[:LONGEST_SENT]
            if "\n" in line:
                raise ValueError(f"several lines: {line[:100]!r}")
            if words[0] == "drop":
                self._do(batch, taken)
                batch = Batch(self.streams)
                taken.replies.append(Reply(DROP))
            elif not batch.takes(line):
                self._do(batch, taken)
                batch = Batch(self.streams)
                batch.takes(line)
        self._do(batch, taken)
        return taken

    def _do(self, batch: Batch, taken: Taken) -> None:
        if not batch.planned:
            return
        if self._process is None or self._process.stdin is None:
            raise StoreClosedError(f"{self._path}: the program has ended: open the store again")
        frames = batch.frames()
        if frames:
            _raise(taken.gone, self.spool.add(frames))
        data = "".join(f"{planned.line}\n" for planned in batch.planned).encode("latin-1", "replace")
        try:
            self._process.stdin.write(data)
        except BrokenPipeError:
            raise self._ended() from None
        others = b"".join(self._answer(planned, taken) for planned in batch.planned)
        if others:
            _raise(taken.gone, self.spool.add(others))

    def _answer(self, planned: Planned, taken: Taken) -> bytes:
        """Takes the reply to a line. Gives its frame where that isn't the one that was written."""
        head = self._line()
        if planned.event is None or not head.startswith("ok "):
            taken.replies.append(Reply(head, [self._line() for _ in range(rows_after(head))]))
            return b""
        word, _, digits = self._line().partition(" ")
        frame = bytes.fromhex(digits)
        if word != "frame" or len(frame) != SIZE:
            raise ProtocolError(f"a frame was to come: {word[:100]}")
        taken.replies.append(Reply(head))
        taken.frames.append(frame)
        event = planned.event
        self.streams[event.name] = Standing(number_of(frame), event.time if event.kind == VALUE else None)
        return b"" if frame == planned.frame else frame

    def _line(self) -> str:
        """The next line of the program's output."""
        while not self._said:
            assert self._process is not None and self._process.stdout is not None
            more = self._process.stdout.read(READ)
            if not more:
                raise self._ended()
            *whole, self._rest = (self._rest + more).split(b"\n")
            self._said.extend(whole)
        return self._said.popleft().decode("ascii")

    def _ended(self) -> Exception:
        process, self._process = self._process, None
        assert process is not None and process.stderr is not None
        said = process.stderr.read().decode("utf-8", "replace").strip()
        return ending_of(process.wait(), said)

    def close(self) -> None:
        """Lets the program end in order, and the spool go."""
        process, self._process = self._process, None
        if process is not None:
            assert process.stdin and process.stdout and process.stderr
            process.stdin.close()
            process.stdout.close()
            process.wait()
            process.stderr.close()
        self.spool.close()


def _events(reply: str) -> int:
    """The number of events that a probe has been told."""
    word, _, number = reply.partition(" ")
    if word != "gap" or not WORD.fullmatch(number):
        raise ProtocolError(f"a gap was to come: {reply[:100]}")
    return int(number)


def _raise(numbers: dict[str, int], others: dict[str, int]) -> None:
    for name, number in others.items():
        numbers[name] = max(number, numbers.get(name, 0))
