"""The command `summarystore-send`: a store whose events followers get.

Lines of the program come from standard input, and their replies go to standard output. An `ok` says
that the event is in the store and that its frame is safe in the spool.
"""

from __future__ import annotations

import argparse
import asyncio
import os
import sys
from collections.abc import Callable, Sequence
from typing import TYPE_CHECKING

from .options import FAILED, add_broker, brokers_of, log, log_to_stderr, missing, size_of, status_of
from .spool import LIMIT

if TYPE_CHECKING:
    from .sending import Sender

READ = 1 << 16
INTERRUPTED = 130


def parser() -> argparse.ArgumentParser:
    """The words of the command line."""
    made = argparse.ArgumentParser(prog="summarystore-send", description=__doc__,
                                   formatter_class=argparse.RawDescriptionHelpFormatter)
    add_broker(made)
    made.add_argument("--spool", metavar="FOLDER", help="where frames wait for followers (STORE.spool)")
    made.add_argument("--spool-bytes", metavar="SIZE", type=size_of, default=LIMIT,
                      help="how large the spool gets, such as 64M, which it is unless told")
    made.add_argument("--copies", metavar="N", type=int, default=1,
                      help="so many followers have to have an event before its frame goes (1)")
    made.add_argument("--linger", metavar="SECONDS", type=float, default=10.0,
                      help="how long to wait at the end until they have all (10)")
    return made


async def send(sender: Sender, read: Callable[[], bytes], write: Callable[[str], object], linger: float
               ) -> int:
    """Takes lines until the input ends. The status is 1 where followers don't have all by then."""
    async with sender:
        rest = b""
        while data := await asyncio.to_thread(read):
            *whole, rest = (rest + data).split(b"\n")
            await _answer(sender, whole, write)
        await _answer(sender, [rest] if rest else [], write)
        if await sender.drained(linger):
            return 0
        log.warning("not all is carried: frames=%d", sender.outgoing.left)
        return FAILED


async def _answer(sender: Sender, lines: Sequence[bytes], write: Callable[[str], object]) -> None:
    if lines:
        replies = await sender.take([line.decode("latin-1") for line in lines])
        write("".join(f"{row}\n" for reply in replies for row in (reply.head, *reply.rows)))


def _write(text: str) -> None:
    sys.stdout.write(text)
    sys.stdout.flush()


def main(arguments: Sequence[str] | None = None) -> int:
    """Runs the sender. The status is 0 where followers have all, 1 where they don't, 2 for a wrong use."""
    words = parser().parse_args(arguments)
    log_to_stderr()
    try:
        from .sending import Sender     # it stands on pika
    except ModuleNotFoundError as error:
        return missing(error)

    def command() -> int:
        sender = Sender(words.store, brokers_of(words), name=words.log, shards=words.shards,
                        spool=words.spool, spool_bytes=words.spool_bytes, copies=words.copies,
                        program=words.program, checked=words.checked)
        return asyncio.run(send(sender, lambda: os.read(0, READ), _write, words.linger))
    try:
        return status_of(command)
    except KeyboardInterrupt:
        return INTERRUPTED


if __name__ == "__main__":
    sys.exit(main())
