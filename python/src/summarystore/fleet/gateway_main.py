"""The command `summarystore-gateway`: answers over many services as one of them does.

SIGTERM and SIGINT end it in order.
"""

from __future__ import annotations

import argparse
import asyncio
import os
import signal
import sys
from collections.abc import Sequence

from ..server.commands import FAILED, WRONG_USE, listening, log, log_to_stderr, refuse_strangers
from ..server.errors import ConfigurationError
from ..server.http import shown
from ..server.notify import Notifier
from ..server.tokens import read_tokens
from .gateway import Gateway
from .layout import Layout, read


def parser() -> argparse.ArgumentParser:
    """The words of the command line."""
    made = argparse.ArgumentParser(prog="summarystore-gateway", description=__doc__,
                                   formatter_class=argparse.RawDescriptionHelpFormatter)
    made.add_argument("config", metavar="CONFIG.toml", help="the shards, and how they are asked")
    made.add_argument("--listen", metavar="HOST:PORT", help="where HTTP is served (127.0.0.1:8088)")
    made.add_argument("--check", action="store_true", help="reads the configuration, and ends")
    return made


def layout_of(words: argparse.Namespace) -> Layout:
    """The configuration of the file, with what the command line says instead."""
    found = listening(read(words.config), words.listen)
    refuse_strangers(found, words.config)
    return found


def main(arguments: Sequence[str] | None = None) -> int:
    """Runs the gateway. The status is 0 after a signal, 2 for a mistake of the configuration."""
    words = parser().parse_args(arguments)
    log_to_stderr()
    try:
        layout = layout_of(words)
        read_tokens(layout.tokens.file)
    except ConfigurationError as error:
        log.error("not started: reason=%s", error)
        return WRONG_USE
    if words.check:
        log.info("configuration read: shards=%d", len(layout.shards))
        return 0
    return asyncio.run(_run(layout))


async def _run(layout: Layout) -> int:
    loop, end, notifier = asyncio.get_running_loop(), asyncio.Event(), Notifier()
    for number in (signal.SIGTERM, signal.SIGINT):
        loop.add_signal_handler(number, end.set)
    gateway = Gateway(layout)
    try:
        await gateway.start()
    except OSError as error:
        log.error("not started: reason=%s", error)
        return FAILED
    place = "" if gateway.http.address is None else f"http://{shown(gateway.http.address)}/"
    log.info("ready: address=%s pid=%d shards=%d", place, os.getpid(), len(layout.shards))
    notifier.ready(f"serving {place}")
    alive = loop.create_task(notifier.keep_alive())
    await end.wait()
    notifier.stopping()
    alive.cancel()
    await gateway.stop()
    notifier.close()
    log.info("stopped")
    return 0


if __name__ == "__main__":
    sys.exit(main())
