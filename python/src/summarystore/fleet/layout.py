"""The configuration of the gateway: a TOML file as typed records.

    [http]
    listen = "127.0.0.1:8088"
    hosts = ["readings.example"]

    [tokens]
    file = "/etc/summarystore/gateway-tokens"

    [asking]
    seconds = 5                                 # how long one replica may take
    together = 64                               # so many questions go to shards at once
    rest_seconds = 10                           # one that didn't answer is asked last for so long
    look_seconds = 10                           # how often the names of the shards are asked for
    behind_seconds = 60                         # one whose answer is older is asked last, and it is told
    token_file = "/etc/summarystore/shard-token"

    [[shard]]
    name = "north"
    replicas = ["http://10.0.0.1:8087", "http://10.0.0.2:8087"]
    without = ["kitchen/*"]                     # names that aren't its own any more

`[http]`, `[tokens]` and `[limits]` are those of the service.
"""

from __future__ import annotations

import re
from collections.abc import Sequence
from dataclasses import dataclass

from ..server import configuration
from ..server.configuration import HttpSettings, Limits, TokenSettings
from ..server.errors import ConfigurationError
from ..server.globs import LONGEST
from ..server.many import MOST_WITHOUT
from ..server.private import private_text
from ..server.tables import Table, rows_of, shown

PORT = 8088
BASE = re.compile(r"https?://[^\s/?#]+(?:/[^\s?#]*)?")
NAME = re.compile(r"[A-Za-z0-9_.-]{1,64}")
TOKEN = re.compile(r"[!-~]{1,1024}")


@dataclass(frozen=True)
class Shard:
    """One part of the streams: its name, and the addresses of services that have it."""

    name: str
    replicas: tuple[str, ...]
    without: tuple[str, ...] = ()


@dataclass(frozen=True)
class Asking:
    """How shards are asked."""

    seconds: float = 5
    together: int = 64
    rest_seconds: float = 10
    look_seconds: float = 10
    behind_seconds: float = 60
    token: str | None = None


@dataclass(frozen=True)
class Layout:
    """All of it."""

    shards: Sequence[Shard]
    http: HttpSettings = HttpSettings((configuration.LOOPBACK, PORT))
    tokens: TokenSettings = TokenSettings()
    limits: Limits = Limits()
    asking: Asking = Asking()
    file: str | None = None


def read(file: str) -> Layout:
    """The configuration that stands in a file."""
    return parse(configuration.text_of(file), file)


def parse(text: str, file: str) -> Layout:
    """The configuration that a text says."""
    top = configuration.top_of(text, file)
    http = configuration.section(file, top, "http")
    listen = http.address("listen") or (configuration.LOOPBACK, PORT)
    found = Layout(_shards(file, top), HttpSettings(listen, http.texts("hosts")),
                   configuration.tokens_of(configuration.section(file, top, "tokens")),
                   configuration.limits_of(configuration.section(file, top, "limits")),
                   _asking(configuration.section(file, top, "asking")), file)
    http.end()
    top.end()
    return found


def _shards(file: str, top: Table) -> Sequence[Shard]:
    found = [_shard(table) for table in rows_of(file, "shard", top.take("shard"))]
    if not found:
        raise ConfigurationError(file, "[[shard]]", "one shard at least is to stand here")
    names = [shard.name for shard in found]
    twice = next((name for name in names if names.count(name) > 1), None)
    if twice is not None:
        raise ConfigurationError(file, "[[shard]] name", f"two shards are called {twice!r}")
    places = [place for shard in found for place in shard.replicas]
    again = next((place for place in places if places.count(place) > 1), None)
    if again is not None:
        raise ConfigurationError(file, "[[shard]] replicas", f"{again} stands twice")
    return found


def _shard(table: Table) -> Shard:
    name = table.text("name")
    if name is None or not NAME.fullmatch(name):
        raise table.wrong("name", "1 to 64 letters, digits, `_`, `-` and `.` are to stand here")
    replicas = tuple(each.rstrip("/") for each in table.texts("replicas"))
    wrong = next((each for each in replicas if not BASE.fullmatch(each)), None)
    if not replicas or wrong is not None:
        raise table.wrong("replicas", "addresses such as \"http://127.0.0.1:8087\" are to stand here"
                                      + ("" if wrong is None else f", and not {shown(wrong)}"))
    without = table.texts("without")
    if len(without) > MOST_WITHOUT or any(len(each) > LONGEST for each in without):
        raise table.wrong("without", f"at most {MOST_WITHOUT} patterns of {LONGEST} characters stand here")
    table.end()
    return Shard(name, replicas, without)


def _asking(table: Table) -> Asking:
    known = Asking()
    file = table.text("token_file")
    found = Asking(table.seconds("seconds", 0, 3600) or known.seconds,
                   table.whole("together", 1, 10_000) or known.together,
                   table.seconds("rest_seconds", 0, 86400) or known.rest_seconds,
                   table.seconds("look_seconds", 1, 86400) or known.look_seconds,
                   table.seconds("behind_seconds", 1, 86400) or known.behind_seconds,
                   None if file is None else _token(table, file))
    table.end()
    return found


def _token(table: Table, file: str) -> str:
    """The token in a file that others can't read."""
    token = private_text(file).strip()
    if not TOKEN.fullmatch(token):
        raise table.wrong("token_file", "one token is to stand in it")
    return token
