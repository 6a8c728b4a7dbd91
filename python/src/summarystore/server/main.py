"""The command `summarystored`: takes readings from networks into one store, and answers questions.

SIGHUP reads the mapping anew. SIGTERM and SIGINT end the service in order, within five seconds.
"""

from __future__ import annotations

import argparse
import asyncio
import os
import signal
import sys
import tempfile
import threading
import warnings
from collections.abc import Sequence
from contextlib import suppress
from dataclasses import replace
from pathlib import Path

from .. import held
from ..errors import ProgramMissingError, ReopenedWarning
from ..program import find_program
from .app import Service
from .assembly import assemble
from .commands import FAILED, WRONG_USE, listening, log, log_to_stderr, refuse_strangers
from .configuration import Configuration, read
from .errors import ConfigurationError
from .http import Http, is_loopback, shown
from .notify import Notifier
from .private import password_in

LATEST = 4.7
"""After so many seconds the service ends, whatever it waits for."""


def parser() -> argparse.ArgumentParser:
    """The words of the command line."""
    made = argparse.ArgumentParser(prog="summarystored", description=__doc__,
                                   formatter_class=argparse.RawDescriptionHelpFormatter)
    made.add_argument("--config", metavar="FILE", help="the configuration, a file of TOML")
    made.add_argument("--store", metavar="PATH", help="the file of the store; made where there is none")
    made.add_argument("--listen", metavar="HOST:PORT", help="where HTTP is served (127.0.0.1:8087)")
    made.add_argument("--program", metavar="PATH", help="the program summarystore")
    made.add_argument("--demo", action="store_true",
                      help="readings that are made up, in a store of their own unless one is named")
    made.add_argument("--check", action="store_true", help="reads the configuration, and ends")
    return made


def configuration_of(words: argparse.Namespace) -> Configuration:
    """The configuration of a file, with what the command line says instead."""
    found = listening(read(words.config) if words.config else Configuration(), words.listen)
    if words.store is not None:
        found = replace(found, store=replace(found.store, path=words.store))
    if words.program is not None:
        found = replace(found, store=replace(found.store, program=words.program))
    refuse_strangers(found, found.file or "--listen")
    lines = found.graphite
    if lines.listen is not None and not is_loopback(lines.listen[0]) and not lines.anyone:
        raise ConfigurationError(found.file or "", "[graphite]", f"{shown(lines.listen)} can be reached from "
                                 "elsewhere, and its lines have no tokens: say `anyone = true` here, or take "
                                 "127.0.0.1")
    return found


def main(arguments: Sequence[str] | None = None) -> int:
    """Runs the service. The status is 0 after a signal, 2 for a mistake of the configuration."""
    words = parser().parse_args(arguments)
    log_to_stderr()
    warnings.simplefilter("ignore", ReopenedWarning)    # the supervisor says so
    try:
        configuration = configuration_of(words)
        find_program(configuration.store.program)
        if configuration.store.path is None and not words.demo and not words.check:
            raise ConfigurationError(words.config or "summarystored", "[store] path",
                                     "where the store is has to be said, here or by --store")
        if words.check:
            return _check(configuration)
    except (ConfigurationError, ProgramMissingError) as error:
        log.error("not started: reason=%s", error)
        return WRONG_USE
    if configuration.store.path is not None:
        return asyncio.run(_Running(configuration, configuration.store.path, words.demo).run())
    with tempfile.TemporaryDirectory(prefix="summarystored-demo-") as folder:
        return asyncio.run(_Running(configuration, str(Path(folder) / "demo.store"), True).run())


def _check(configuration: Configuration) -> int:
    from .tokens import read_tokens
    read_tokens(configuration.tokens.file)
    password_in(configuration.mqtt.password_file)
    log.info("configuration read: mappings=%d", len(configuration.mappings))
    return 0


def _give_up(pid: int | None) -> None:
    """Ends at once. What was acknowledged is on the disk."""
    log.error("not ended in order: seconds=%s", LATEST)
    if pid is not None:
        with suppress(ProcessLookupError):
            os.kill(pid, signal.SIGKILL)
    os._exit(FAILED)


class _Running:
    """One run of the service."""

    def __init__(self, configuration: Configuration, path: str, demo: bool) -> None:
        self._configuration = configuration
        self._path = path
        self._demo = demo
        self._end = asyncio.Event()
        self._notifier = Notifier()

    async def run(self) -> int:
        """Runs until a signal ends it."""
        loop = asyncio.get_running_loop()
        for number in (signal.SIGTERM, signal.SIGINT):
            loop.add_signal_handler(number, self._end.set)
        try:
            service = self._made()
            http = assemble(service)
            loop.add_signal_handler(signal.SIGHUP, self._reload, service)
            await service.start()
        except (OSError, ConfigurationError) as error:
            log.error("not started: reason=%s", error)
            return WRONG_USE if isinstance(error, ConfigurationError) else FAILED
        await self._until_the_end(service, http)
        return 0

    def _made(self) -> Service:
        if not self._demo:
            return Service(self._configuration, self._path)
        from . import demo
        return demo.service(self._configuration, self._path)

    async def _until_the_end(self, service: Service, http: Http) -> None:
        place = "" if http.address is None else f"http://{shown(http.address)}/"
        log.info("ready: address=%s pid=%d", place, os.getpid())
        self._notifier.ready(f"serving {place}")
        with suppress(OSError):     # a help for others, and nothing that it needs itself
            held.tell(self._path, place)
        alive = asyncio.get_running_loop().create_task(self._notifier.keep_alive())
        await self._end.wait()
        log.info("stopping")
        self._notifier.stopping()
        last = threading.Timer(LATEST, _give_up, (service.supervisor.pid,))
        last.daemon = True
        last.start()
        await service.stop()
        held.let_go(self._path)
        last.cancel()
        alive.cancel()
        with suppress(asyncio.CancelledError):
            await alive
        self._notifier.close()
        log.info("stopped")

    def _reload(self, service: Service) -> None:
        self._notifier.reloading()
        service.reload()
        self._notifier.ready("serving")


if __name__ == "__main__":
    sys.exit(main())
