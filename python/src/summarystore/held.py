"""The address of the service that holds a store, beside it: so that who finds it locked can connect."""

from __future__ import annotations

import json
import os
from contextlib import suppress


def _file(path: str) -> str:
    return f"{os.path.abspath(path)}.service.json"


def tell(path: str, address: str) -> None:
    """A service holds the store, and serves it at this address."""
    made = f"{_file(path)}.new"
    with open(made, "w", encoding="utf-8") as out:
        json.dump({"address": address, "pid": os.getpid()}, out)
    os.replace(made, _file(path))


def let_go(path: str) -> None:
    """The service ends."""
    with suppress(FileNotFoundError):
        os.unlink(_file(path))


def how_to_connect(path: str) -> str:
    """What to do about a store that is locked."""
    with suppress(OSError, ValueError, TypeError, KeyError):
        with open(_file(path), encoding="utf-8") as text:
            found = json.load(text)
        os.kill(int(found["pid"]), 0)
        return f"; a service has it: summarystore.connect({str(found['address'])!r})"
    return "; where a service has it, summarystore.connect(ADDRESS) asks that"
