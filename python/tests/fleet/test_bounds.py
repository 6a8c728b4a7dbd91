"""Queues at the broker that don't grow for ever: bounds, dead letters, and queues that stood before."""

from __future__ import annotations

import logging
from pathlib import Path

import pytest

from summarystore.fleet.broker import Link
from summarystore.fleet.following import Follower
from summarystore.fleet.frames import message
from summarystore.fleet.logs import DEAD_KEPT, DELIVERIES, KEPT, QUORUM, STREAM, Log

from ..waiting import run, soon
from .rabbit import Cluster
from .test_following import FRAMES, Hand, following


def arguments(cluster: Cluster, queue: str) -> str:
    """With what a queue was declared."""
    done = cluster.nodes[0].asked("list_queues", "name", "arguments", "--quiet", "--no-table-headers")
    assert done.returncode == 0, done.stderr
    return next(line for line in done.stdout.splitlines() if line.split("\t")[0] == queue)


def test_a_queue_has_dead_letters_and_a_limit(cluster: Cluster, folder: Path, program: str) -> None:
    async def tried() -> None:
        log = Log(cluster.new_name("dead"), 1)
        follower = Follower(folder / "r.store", cluster.urls, name=log.name, kind=QUORUM, follower="r",
                            program=program)
        async with following(follower):
            await soon(lambda: follower.following)
            async with Hand.at(cluster, log, f"{log.name}.any", QUORUM) as hand:
                hand.send(b"none", message(FRAMES[0]))
                await soon(lambda: follower.have == {"a": 1} and follower.put_aside == 1)
            link = await Link.to(cluster.urls[0])

            async def dead() -> int:
                found = await link.ask("queue_declare", log.dead, passive=True)
                return int(found.method.message_count)
            while await dead() != 1:
                pass
            link.close()
        told = arguments(cluster, f"{log.shard(0)}.r")
        assert "x-dead-letter-exchange" in told and log.dead in told
        assert "x-delivery-limit" in told and str(DELIVERIES) in told
        assert str(DEAD_KEPT) in arguments(cluster, log.dead)
    run(tried())


def test_a_log_has_a_retention(cluster: Cluster, folder: Path, program: str,
                               caplog: pytest.LogCaptureFixture) -> None:
    """One that stands already, with another one or with none, is taken as it is."""
    async def tried() -> None:
        log, old = Log(cluster.new_name("kept"), 1), Log(cluster.new_name("older"), 1)
        first = Follower(folder / "a.store", cluster.urls, name=log.name, program=program)
        other = Follower(folder / "b.store", cluster.urls, name=log.name, program=program, kept=1 << 30)
        async with following(first):
            await soon(lambda: first.following)
            async with following(other):
                await soon(lambda: other.following)
        assert f"{KEPT}" in arguments(cluster, log.shard(0))
        async with Hand.at(cluster, old, old.shard(0), STREAM) as hand:
            hand.send(message(FRAMES[0]))
            late = Follower(folder / "c.store", cluster.urls, name=old.name, program=program)
            async with following(late):
                await soon(lambda: late.have == {"a": 1})
        assert "x-max-length-bytes" not in arguments(cluster, old.shard(0))
    logging.getLogger("summarystore.fleet").propagate = True
    with caplog.at_level("WARNING", "summarystore.fleet"):
        run(tried())
    assert sum("has other bounds" in record.getMessage() for record in caplog.records) == 2
