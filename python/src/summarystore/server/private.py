"""Files of secrets: a line each, and nobody else may read them."""

from __future__ import annotations

import os
import stat
from collections.abc import Sequence

from .errors import ConfigurationError

LARGEST = 1 << 20
"""Bytes that are read."""


def private_text(file: str) -> str:
    """What stands in a file that nobody else can read. Raises ConfigurationError where it can't be used."""
    try:
        # What isn't a file, such as a pipe, is to be refused, and not waited for.
        with open(os.open(file, os.O_RDONLY | os.O_NONBLOCK), "rb") as stream:
            mode = os.fstat(stream.fileno()).st_mode
            data = stream.read(LARGEST)
    except (OSError, ValueError) as error:
        raise ConfigurationError(file, "", str(getattr(error, "strerror", None) or error)) from None
    if not stat.S_ISREG(mode) or mode & 0o007 or mode & 0o020:
        raise ConfigurationError(file, "", f"its mode is {stat.S_IMODE(mode):04o}: others can read it, or a "
                                           "group can write it; `chmod 600` (or 640) makes it private")
    try:
        return data.decode("utf-8")
    except UnicodeDecodeError as error:
        raise ConfigurationError(file, "", f"byte {error.start} isn't UTF-8") from None


def password_in(file: str | None) -> str | None:
    """The password in the first line of a file, where one is named."""
    return None if file is None else private_text(file).split("\n", 1)[0].rstrip("\r")


def private_lines(file: str, what: str) -> Sequence[tuple[int, str]]:
    """The lines of a file with their numbers, without blank ones and those that begin with `#`. Raises
    ConfigurationError where it can't be used, also where there are none: then no `what` stands in it."""
    lines = [(number, line.strip()) for number, line in enumerate(private_text(file).splitlines(), 1)]
    found = [(number, line) for number, line in lines if line and not line.startswith("#")]
    if not found:
        raise ConfigurationError(file, "", f"no {what} stands in it")
    return found
