"""A fleet of real processes over a real broker, in which anything is killed at random.

Edges send readings, each through a `summarystore-send` of its own. Followers take them, so many to a
shard. Messages are repeated, some of them late. Whatever is killed is started again.
"""

from __future__ import annotations

import asyncio
import os
import random
import signal
import shutil
import subprocess
import sys
import threading
import time
from collections.abc import Sequence
from contextlib import suppress
from dataclasses import dataclass
from pathlib import Path

from summarystore.description import Description
from summarystore.fleet.broker import Link, keep_linked, properties
from summarystore.fleet.logs import Log
from summarystore.names import short_name
from summarystore.namesfile import Described, read_names, write_names

from ..conftest import HOME
from ..waiting import TooLate, ended, joined, until
from .rabbit import Cluster, Node

ENVIRONMENT = {**os.environ, "PYTHONPATH": str(HOME / "src")}
TOGETHER = 5
"""An edge waits for its replies after so many lines."""
END = 240.0
"""All is where it belongs so many seconds after the last kill."""
TARGETS = ("exp 2 4 1", "power 1 1 4 1", "exp 2 1 1")


@dataclass(frozen=True)
class Size:
    """How large a fleet is, and how long things are killed in it."""

    edges: int
    streams: int
    appends: int
    shards: int
    replicas: int
    seconds: float
    between: float


def children(pid: int) -> list[int]:
    """The processes that a process has started."""
    with suppress(OSError):
        return [int(word) for word in Path(f"/proc/{pid}/task/{pid}/children").read_text().split()]
    return []


def asked(program: str, store: Path, lines: Sequence[str]) -> list[str]:
    """What a store says in a plain run."""
    done = subprocess.run([program, str(store)], input="\n".join(lines), capture_output=True, text=True,
                          check=False)
    assert done.returncode == 0, (store, done.stderr)
    return done.stdout.splitlines()


class Run:
    """A process that is started again whenever it is killed."""

    def __init__(self, words: Sequence[str], log: Path) -> None:
        self.words, self.log = words, log
        self.process: subprocess.Popen[bytes] | None = None

    def start(self) -> subprocess.Popen[bytes]:
        """Starts it."""
        with open(self.log, "ab") as out:
            self.process = subprocess.Popen([sys.executable, "-m", *self.words], env=ENVIRONMENT, stderr=out,
                                            stdin=subprocess.PIPE, stdout=subprocess.PIPE)
        return self.process

    def kill(self, whole: bool) -> None:
        """Kills it, or the program that it runs."""
        process = self.process
        if process is None or process.poll() is not None:
            return
        for pid in [process.pid] if whole else children(process.pid):
            with suppress(ProcessLookupError):
                os.kill(pid, signal.SIGKILL)

    def end(self) -> int:
        """Ends it in order."""
        process = self.process
        assert process is not None and process.stdin and process.stdout
        with suppress(ProcessLookupError):
            process.send_signal(signal.SIGTERM)
        status = ended(process)
        process.stdin.close()
        process.stdout.close()
        return status


def named(store: Path) -> Described:
    """What the names file of a store says."""
    return read_names(f"{store}.names.json")


class Edge:
    """A store with streams of its own, half of them with long names. It sends each line until it has a reply
    to it."""

    def __init__(self, number: int, size: Size, folder: Path, broker: Sequence[str]) -> None:
        self.store = folder / f"edge{number}.store"
        self.names = [f"e{number}.s{at}" for at in range(size.streams)]
        self._name(number)
        self.lines = [f"create {name} {TARGETS[at % len(TARGETS)]}" for at, name in enumerate(self.names)]
        drawn = random.Random(number)
        self.lines += [f"append {name} {time} {drawn.randrange(-1000, 1000)}"
                       for time in range(1, size.appends + 1) for name in self.names]
        self.run = Run(["summarystore.fleet.send", str(self.store), *broker, "--shards", str(size.shards),
                        "--copies", str(size.replicas), "--linger", str(END)], folder / f"edge{number}.log")
        self.pause = size.seconds / max(1, len(self.lines) / TOGETHER)
        self.wrong: list[str] = []
        self.status: int | None = None
        self._over = False
        self._thread = threading.Thread(target=self._live, daemon=True)

    def _name(self, number: int) -> None:
        """Gives every other stream a long name."""
        described = {}
        for at in range(0, len(self.names), 2):
            name, description = f"edge {number}/stream {at}", Description(unit=f"{number}")
            self.names[at] = short_name(name, description)
            described[name] = self.names[at], description
        self.store.touch()
        write_names(f"{self.store}.names.json", described, str(self.store))

    def start(self) -> None:
        """Begins to send."""
        self._thread.start()

    def _live(self) -> None:
        """Sends all, through as many senders as that takes."""
        at = 0
        while self.status != 0 and not self._over:
            process = self.run.start()
            assert process.stdin and process.stdout
            with suppress(BrokenPipeError):
                at = self._send(process, at)
                process.stdin.close()
            if at == len(self.lines):
                self.status = process.wait()
            else:
                process.kill()
                process.wait()
            process.stdout.close()

    def _send(self, process: subprocess.Popen[bytes], at: int) -> int:
        """Sends from a line on. Gives up to which there are replies."""
        assert process.stdin and process.stdout
        while at < len(self.lines):
            some = self.lines[at:at + TOGETHER]
            process.stdin.write("".join(f"{line}\n" for line in some).encode())
            process.stdin.flush()
            for line in some:
                reply = process.stdout.readline().decode()
                if not reply.endswith("\n"):
                    return at
                if not reply.startswith("ok ") and reply not in ("refused TIME\n", "refused EXISTS\n"):
                    self.wrong.append(f"{line}: {reply}")
                at += 1
            time.sleep(self.pause)
        return at

    def join(self) -> None:
        """Waits until it is through."""
        self._thread.join(END + 60)
        if self.status != 0:
            raise TooLate(f"an edge isn't through: {self.run.log.read_text()[-2000:]}")

    def end(self) -> None:
        """Ends it where it isn't through."""
        self._over = True
        until(self._is_killed)

    def _is_killed(self) -> bool:
        self.run.kill(True)     # it may have been started just now
        return not self._thread.is_alive()


class Replica:
    """A store that follows a shard."""

    def __init__(self, shard: int, number: int, size: Size, folder: Path, broker: Sequence[str], kind: str
                 ) -> None:
        self.shard = shard
        self.store = folder / f"shard{shard}-{number}.store"
        self.run = Run(["summarystore.fleet.follow", str(self.store), *broker, "--shards", str(size.shards),
                        "--shard", str(shard), "--queue", kind, "--name", f"r{shard}.{number}"],
                       folder / f"shard{shard}-{number}.log")


class Chaos:
    """One fleet."""

    def __init__(self, cluster: Cluster, folder: Path, program: str, kind: str, size: Size, seed: int,
                 log: str) -> None:
        self.program, self.folder, self.size, self.log = program, folder, size, Log(log, size.shards)
        self._cluster, self._random = cluster, random.Random(seed)
        broker = ["--log", log, "--program", program]
        file = folder / "broker"
        file.touch(0o600)
        file.write_text("# its nodes\n" + "".join(f"{url}\n" for url in cluster.urls))
        self.edges = [Edge(at, size, folder, [*broker, "--broker-file", str(file)])
                      for at in range(size.edges)]
        for url in cluster.urls:
            broker += ["--broker", url]
        self.replicas = [Replica(shard, at, size, folder, broker, kind)
                         for shard in range(size.shards) for at in range(size.replicas)]
        self.kills = {"edge": 0, "edge's program": 0, "follower": 0, "follower's program": 0, "node": 0}
        self.repeated = 0
        self.prefixes = 0
        self._over = False

    # ---- the run ------------------------------------------------------------------------

    def live(self) -> None:
        """Lets it live, and kills in it; at the end all is where it belongs."""
        for replica in self.replicas:
            replica.run.start()
        repeater = threading.Thread(target=lambda: asyncio.run(self._repeat()), daemon=True)
        repeater.start()
        for edge in self.edges:
            edge.start()
        try:
            self._wait_for_followers()
            end = time.monotonic() + self.size.seconds
            deck: list[str] = []
            while time.monotonic() < end:
                time.sleep(self._random.random() * 2 * self.size.between)
                deck = deck or self._random.sample([*self.kills] * 2, 2 * len(self.kills))
                self._kill(deck.pop())
            for edge in self.edges:
                edge.join()
        finally:
            self._over = True
            for edge in self.edges:
                edge.end()
            joined(repeater)
            for replica in self.replicas:
                if replica.run.process is not None:
                    replica.run.end()

    def _wait_for_followers(self) -> None:
        """Waits until each follower had a connection."""
        until(lambda: all("connected to" in replica.run.log.read_text() for replica in self.replicas), END)

    def _kill(self, what: str) -> None:
        """Kills something, and starts it again."""
        if what == "node" and not self._kill_node():
            return
        if what.startswith("edge"):
            self._random.choice(self.edges).run.kill(what == "edge")
        elif what.startswith("follower"):
            replica = self._random.choice(self.replicas)
            replica.run.kill(what == "follower")
            if what == "follower":
                self._look(replica)
                replica.run.start()
        self.kills[what] += 1

    def _kill_node(self) -> bool:
        """Kills a node where all listen. It is started again, without a wait."""
        if not all(map(Node.is_well, self._cluster.nodes)):
            return False
        node = self._random.choice(self._cluster.nodes)
        node.kill()
        node.start()
        return True

    def _look(self, replica: Replica) -> None:
        """A follower was killed: what it has of each stream is what its edge has of the first events."""
        process = replica.run.process
        assert process is not None and process.stdin and process.stdout
        process.stdin.close()
        process.wait()
        process.stdout.close()
        copy = self.folder / "looked.store"
        until(lambda: not programs_of(replica.store))     # its program sees the end of its input
        if replica.store.exists():
            shutil.copyfile(replica.store, copy)
            self.prefixes += self._are_prefixes(replica, copy)
            copy.unlink()

    # ---- what has to be -----------------------------------------------------------------

    def _are_named(self, replica: Replica, names: Sequence[str]) -> None:
        """Each stream has the long name that it has at its edge."""
        known = {name: entry for edge in self.edges for name, entry in named(edge.store).items()
                 if entry[0] in names}
        assert known.items() <= named(replica.store).items(), replica.store

    def _are_prefixes(self, replica: Replica, store: Path) -> int:
        """Compares each stream of a store with that of a new one that was given the first events."""
        rows = asked(self.program, store, ["list"])[1:]
        self._are_named(replica, [row.split(" ")[0] for row in rows])
        for row in rows:
            name, *_, values, _windows, _landmarks, _marked = row.split(" ")
            edge = next(edge for edge in self.edges if name in edge.names)
            lines = [line for line in edge.lines if line.split()[1] == name][:int(values) + 1]
            new = self.folder / "new.store"
            asked(self.program, new, lines)
            here, there = (asked(self.program, each, [f"windows {name}"]) for each in (store, new))
            assert here == there, name
            new.unlink()
        return len(rows)

    def judge(self) -> None:
        """Each replica has what its edges have, each stream is in one shard, and nothing is missing."""
        assert [edge.wrong for edge in self.edges if edge.wrong] == []
        shards: dict[str, set[int]] = {}
        for replica in self.replicas:
            names = [row.split(" ")[0] for row in asked(self.program, replica.store, ["list"])[1:]]
            for name in names:
                shards.setdefault(name, set()).add(replica.shard)
            self._are_named(replica, names)
            self._same(replica, names)
        every = {name for edge in self.edges for name in edge.names}
        assert set(shards) == every and all(len(found) == 1 for found in shards.values())
        per = [sum(name in asked_names(self.program, replica) for replica in self.replicas) for name in every]
        assert set(per) == {self.size.replicas}

    def _same(self, replica: Replica, names: Sequence[str]) -> None:
        for name in names:
            edge = next(edge for edge in self.edges if name in edge.names)
            questions = [f"windows {name}", f"last {name}", f"query {name} sum 0 999999"]
            there, here = (asked(self.program, store, [*questions, "list"])
                           for store in (edge.store, replica.store))
            row = next(row for row in here if row.startswith(f"{name} "))
            assert row in there and row.split(" ")[-4] == str(self.size.appends), row
            assert here[:here.index(f"list {len(names)}")] == there[:there.index(
                f"list {self.size.streams}")], name

    # ---- messages that come again -------------------------------------------------------

    async def _repeat(self) -> None:
        working = asyncio.ensure_future(keep_linked(self._cluster.urls, self._repeat_over, lambda _: None))
        while not self._over:
            await asyncio.sleep(0.1)
        working.cancel()
        with suppress(asyncio.CancelledError):
            await working

    async def _repeat_over(self, link: Link) -> None:
        """Gets a copy of each message, and sends some of them once more after a while."""
        await link.declare(self.log)
        queue = (await link.ask("queue_declare", "", exclusive=True)).method.queue
        for shard in range(self.log.shards):
            await link.ask("queue_bind", queue, self.log.shard(shard))
        loop = asyncio.get_running_loop()

        def again(exchange: str, key: str, given: object, body: bytes) -> None:
            if not link.ended.is_set():
                self.repeated += 1
                link.channel.basic_publish(exchange, key, body, given)

        def came(_channel: object, method: object, given: object, body: bytes) -> None:
            if getattr(given, "message_id") != "0" and self._random.random() < 0.3:
                loop.call_later(self._random.random() * 3, again, getattr(method, "exchange"),
                                getattr(method, "routing_key"), properties(getattr(given, "app_id"), 0), body)

        await link.ask("basic_consume", queue, came, auto_ack=True)
        await link.ended.wait()


def asked_names(program: str, replica: Replica) -> list[str]:
    """The streams of a replica."""
    return [row.split(" ")[0] for row in asked(program, replica.store, ["list"])[1:]]


def programs_of(store: Path) -> list[int]:
    """The processes of the program that a sender or a follower runs over a store."""
    found = []
    for folder in Path("/proc").glob("[0-9]*"):
        with suppress(OSError):
            words = (folder / "cmdline").read_bytes().split(b"\0")
            if os.fsencode(store) in words and b"--batch" in words:
                found.append(int(folder.name))
    return found
