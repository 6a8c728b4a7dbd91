"""What the commands that serve HTTP have in common: how they log, and where they listen."""

from __future__ import annotations

import logging
import os
import sys
from dataclasses import replace
from typing import Protocol, TypeVar

from .errors import ConfigurationError
from .http import is_loopback, shown
from .configuration import HttpSettings, TokenSettings
from .tables import address_of

log = logging.getLogger("summarystored")
WRONG_USE = 2
FAILED = 1
PRIORITIES = {logging.DEBUG: 7, logging.INFO: 6, logging.WARNING: 4, logging.ERROR: 3, logging.CRITICAL: 2}


class Serves(Protocol):
    """A configuration of what serves HTTP."""

    @property
    def http(self) -> HttpSettings:
        """Where it does."""

    @property
    def tokens(self) -> TokenSettings:
        """Who may ask."""


T = TypeVar("T", bound=Serves)


class Lines(logging.Formatter):
    """One line for each record; under systemd with its priority, which the journal takes off."""

    def __init__(self) -> None:
        self._journal = "JOURNAL_STREAM" in os.environ
        super().__init__("%(message)s" if self._journal else "%(asctime)s %(levelname)s %(message)s")

    def format(self, record: logging.LogRecord) -> str:
        """The line. What would be several is written as one."""
        text = super().format(record).replace("\r", "\\r").replace("\n", "\\n")
        return f"<{PRIORITIES.get(record.levelno, 6)}>{text}" if self._journal else text


def log_to_stderr() -> None:
    """What is told goes to standard error."""
    handler = logging.StreamHandler(sys.stderr)
    handler.setFormatter(Lines())
    log.handlers[:] = [handler]
    log.setLevel(logging.INFO)
    log.propagate = False
    # Of requests that are misspelt aiohttp would write a traceback each.
    logging.getLogger("aiohttp").setLevel(logging.CRITICAL)


def listening(found: T, listen: str | None) -> T:
    """A configuration, with the address that the command line says instead of its own."""
    if listen is None:
        return found
    address = address_of(listen)
    if address is None:
        raise ConfigurationError("--listen", "", f"HOST:PORT is to stand here, and not {listen!r}")
    return replace(found, http=replace(found.http, listen=address))


def refuse_strangers(found: Serves, file: str) -> None:
    """Whoever can be reached from elsewhere knows who may ask, or says that anyone may."""
    if not is_loopback(found.http.listen[0]) and found.tokens.file is None and not found.tokens.anyone:
        raise ConfigurationError(file, "[tokens]", f"{shown(found.http.listen)} can be reached from "
                                                   "elsewhere: name a file of tokens, or say `anyone = true`")
