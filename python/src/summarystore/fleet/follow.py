"""The command `summarystore-follow`: a store that takes the events of others.

SIGTERM and SIGINT end it in order: what is under way is done, and the place in the log is kept.
"""

from __future__ import annotations

import argparse
import asyncio
import signal
import sys
from collections.abc import Sequence
from contextlib import nullcontext, suppress
from typing import TYPE_CHECKING

from .deliveries import Part
from .logs import KEPT, QUORUM, STREAM
from .options import add_broker, brokers_of, log_to_stderr, missing, part_of, size_of, status_of

if TYPE_CHECKING:
    from .following import Follower
    from .serving import Serving


def parser() -> argparse.ArgumentParser:
    """The words of the command line."""
    made = argparse.ArgumentParser(prog="summarystore-follow", description=__doc__,
                                   formatter_class=argparse.RawDescriptionHelpFormatter)
    add_broker(made)
    made.add_argument("--shard", metavar="K", type=int, default=0,
                      help="which shard it follows, from 0 on (0)")
    made.add_argument("--part", metavar="I/N", type=part_of, default=Part(),
                      help="only the streams of one part of N; others are dropped from the store")
    made.add_argument("--queue", choices=(STREAM, QUORUM), default=STREAM,
                      help="a log that stays, which many read, or a queue of its own (stream)")
    made.add_argument("--keep", metavar="SIZE", type=size_of, default=KEPT,
                      help="so many bytes of its newest messages a new log keeps (16G)")
    made.add_argument("--name", metavar="NAME", help="what it is called; else by its machine and store")
    made.add_argument("--serve", metavar="HOST:PORT", help="where questions are answered by HTTP")
    made.add_argument("--fresh", metavar="SECONDS", type=float, default=1.0,
                      help="how old the copy may be that answers (1)")
    made.add_argument("--tokens", metavar="FILE", help="who may ask, as of summarystored")
    return made


async def follow(follower: Follower, serving: Serving) -> None:
    """Follows, and serves, until a signal comes."""
    end = asyncio.Event()
    for number in (signal.SIGTERM, signal.SIGINT):
        asyncio.get_running_loop().add_signal_handler(number, end.set)
    async with serving(follower):
        working = asyncio.ensure_future(follower.run())
        ending = asyncio.ensure_future(end.wait())
        await asyncio.wait([working, ending], return_when=asyncio.FIRST_COMPLETED)
        working.cancel()
        ending.cancel()
        with suppress(asyncio.CancelledError):
            await working


def main(arguments: Sequence[str] | None = None) -> int:
    """Runs the follower. The status is 0 after a signal, 1 where it can't go on, 2 for a wrong use."""
    words = parser().parse_args(arguments)
    log_to_stderr()
    try:
        from .following import Follower     # it stands on pika, and the next on aiohttp
        if words.serve is not None:
            from .serving import serving
    except ModuleNotFoundError as error:
        return missing(error)

    def command() -> int:
        follower = Follower(words.store, brokers_of(words), name=words.log, shards=words.shards,
                            shard=words.shard, part=words.part, kind=words.queue, follower=words.name,
                            program=words.program, checked=words.checked, kept=words.keep)
        served: Serving = nullcontext if words.serve is None else serving(words.serve, words.fresh,
                                                                          words.tokens)
        asyncio.run(follow(follower, served))
        return 0
    return status_of(command)


if __name__ == "__main__":
    sys.exit(main())
