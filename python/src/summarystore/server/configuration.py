"""The configuration of the service: a TOML file as typed records.

A file may be `/etc/summarystore/summarystored.toml`, and each of its tables may be left out:

    [store]
    path = "/var/lib/summarystore/readings.store"
    program = "/usr/bin/summarystore"           # else the variable SUMMARYSTORE, or the one on PATH
    checked = true                              # a plain store is refused; with false a new one is plain

    [http]
    listen = "127.0.0.1:8087"
    hosts = ["readings.example"]                # the names under which a proxy serves it
    strict = false                              # with true fields that are no numbers are an error

    [graphite]
    listen = "127.0.0.1:2003"                   # without it nothing listens for Graphite's lines
    anyone = false                              # true: others may reach it, who need no token there

    [mqtt]
    broker = "127.0.0.1:1883"                   # without it no broker is called
    topics = ["home/#"]
    client = "summarystored"
    user = "readings"
    password_file = "/etc/summarystore/mqtt"
    certificates = "/etc/ssl/certs/ca.pem"      # with it the broker is called by TLS
    receive_maximum = 65535                     # so many messages come without an acknowledgement

    [tokens]
    file = "/etc/summarystore/tokens"

    [limits]
    queue = 100000
    future = "1h"                               # so far a time may lie ahead of the clock

    [[threshold]]                               # see threshold.py
    stream = "home/cellar/temperature"
    kind = "max"
    over = "10min"
    above = 25
    webhook = "http://127.0.0.1:9000/alarm"

    [[mapping]]                                 # see mapping.py
    match = "home/*/temperature"
    stream = "home/{1}/temperature"
    scale = 0.1
    unit = "°C"
    target = "power 1 1 4 1"
"""

from __future__ import annotations

import tomllib
from collections.abc import Sequence
from dataclasses import dataclass, field, replace
from decimal import Decimal, InvalidOperation

from .errors import ConfigurationError
from .mapping_table import HOUR, mapping_of
from .settings import Mapping
from .tables import Address, Table, rows_of
from .threshold import Threshold, threshold_of

LOOPBACK = "127.0.0.1"
PORT = 8087


@dataclass(frozen=True)
class StoreSettings:
    """The store: the path of its file, the program, where it isn't the one that is found, and its kind,
    where a new one isn't to be checked, or one that stands has to be."""

    path: str | None = None
    program: str | None = None
    checked: bool | None = None


@dataclass(frozen=True)
class HttpSettings:
    """Where HTTP is served, and by which names besides that address. `strict` refuses a body of line
    protocol that has texts or truth values, which else are counted."""

    listen: Address = (LOOPBACK, PORT)
    hosts: tuple[str, ...] = ()
    strict: bool = False


@dataclass(frozen=True)
class GraphiteSettings:
    """Where Graphite's lines are taken. None: nowhere. They have no tokens, so where others reach it has to
    be said: `anyone`."""

    listen: Address | None = None
    anyone: bool = False


@dataclass(frozen=True)
class MqttSettings:
    """The broker, where one is to be called, and what of it is taken."""

    broker: Address | None = None
    topics: tuple[str, ...] = ()
    client: str = "summarystored"
    user: str | None = None
    password_file: str | None = None
    certificates: str | None = None
    receive_maximum: int = 65535


@dataclass(frozen=True)
class TokenSettings:
    """The file of the tokens. None: everybody who reaches the service may read and write.

    Where the service listens beyond this machine that has to be said: `anyone`.
    """

    file: str | None = None
    anyone: bool = False


@dataclass(frozen=True)
class Limits:
    """What the service takes at most. Each of them bounds memory or time."""

    body: int = 4 << 20
    """Bytes of a body, also of one that was packed."""
    bodies: int = 64 << 20
    """Bytes of all bodies that are under way."""
    lines: int = 20_000
    """Readings of one body."""
    line: int = 65_536
    """Bytes of one line of a protocol of lines."""
    name: int = 512
    """Characters of a name with its tags."""
    queue: int = 100_000
    """Readings that are under way."""
    connections: int = 500
    """Connections by HTTP, and as many by Graphite."""
    subscribers: int = 100
    """Connections that listen to events."""
    rows: int = 2_000
    """Rows of a series."""
    unmatched: int = 1_000
    """Names that match nothing and are listed. More of them are only counted."""
    header_seconds: float = 10
    """The time for a request to come, without its body."""
    body_seconds: float = 30
    """The time for a body to come."""
    idle_seconds: float = 75
    """How long a connection may say nothing: between two requests, or within a line of Graphite's."""
    silent_seconds: float = 3600
    """How long a connection may say nothing between two lines of Graphite's."""
    write_seconds: float = 30
    """How long a client may take nothing of its answer."""
    answer_seconds: float = 30
    """How long an answer waits for the store."""
    future: int = HOUR
    """How far a time may lie ahead of the clock, in nanoseconds."""


@dataclass(frozen=True)
class Configuration:
    """All of it. `file` is where it was read from."""

    file: str | None = None
    store: StoreSettings = StoreSettings()
    http: HttpSettings = HttpSettings()
    graphite: GraphiteSettings = GraphiteSettings()
    mqtt: MqttSettings = MqttSettings()
    tokens: TokenSettings = TokenSettings()
    limits: Limits = Limits()
    mappings: Sequence[Mapping] = field(default=())
    thresholds: Sequence[Threshold] = field(default=())


def read(file: str) -> Configuration:
    """The configuration that stands in a file."""
    return parse(text_of(file), file)


def text_of(file: str) -> str:
    """What stands in a file."""
    try:
        with open(file, "rb") as stream:
            data = stream.read()
    except (OSError, ValueError) as error:
        raise ConfigurationError(file, "", str(getattr(error, "strerror", None) or error)) from None
    try:
        return data.decode("utf-8")
    except UnicodeDecodeError as error:
        raise ConfigurationError(file, "", f"byte {error.start} isn't UTF-8") from None


def top_of(text: str, file: str) -> Table:
    """The tables of a text of TOML."""
    try:
        given = tomllib.loads(text, parse_float=Decimal)
    except (tomllib.TOMLDecodeError, InvalidOperation, RecursionError) as error:
        raise ConfigurationError(file, "", f"not TOML: {error}") from None
    except ValueError as error:     # a whole number of thousands of digits
        raise ConfigurationError(file, "", f"not TOML: {error}") from None
    return Table(file, "", given)


def parse(text: str, file: str) -> Configuration:
    """The configuration that a text says."""
    top = top_of(text, file)
    found = Configuration(file, _store(section(file, top, "store")), _http(section(file, top, "http")),
                          _graphite(section(file, top, "graphite")), _mqtt(section(file, top, "mqtt")),
                          tokens_of(section(file, top, "tokens")), limits_of(section(file, top, "limits")),
                          [mapping_of(table) for table in rows_of(file, "mapping", top.take("mapping"))],
                          tuple(map(threshold_of, rows_of(file, "threshold", top.take("threshold")))))
    top.end()
    for each in found.thresholds:
        if each.topic is not None and found.mqtt.broker is None:
            raise ConfigurationError(file, "[[threshold]] topic", "[mqtt] names no broker")
    return found


def section(file: str, top: Table, name: str) -> Table:
    """A table of a file. One that isn't there is empty."""
    given = top.take(name)
    return Table(file, f"[{name}]", {} if given is None else given)


def _store(table: Table) -> StoreSettings:
    found = StoreSettings(table.text("path"), table.text("program"), table.truth_told("checked"))
    table.end()
    return found


def _http(table: Table) -> HttpSettings:
    found = HttpSettings(table.address("listen") or HttpSettings.listen, table.texts("hosts"),
                         table.truth("strict"))
    table.end()
    return found


def _graphite(table: Table) -> GraphiteSettings:
    found = GraphiteSettings(table.address("listen"), table.truth("anyone"))
    table.end()
    return found


def _mqtt(table: Table) -> MqttSettings:
    found = MqttSettings(table.address("broker"), table.texts("topics"),
                         table.text("client") or MqttSettings.client, table.text("user"),
                         table.text("password_file"), table.text("certificates"),
                         table.whole("receive_maximum", 1, 65535) or MqttSettings.receive_maximum)
    table.end()
    if found.broker and not found.topics:
        raise table.wrong("topics", "which topics are taken is to be said, such as [\"home/#\"]")
    return found


def tokens_of(table: Table) -> TokenSettings:
    """The table `[tokens]`."""
    found = TokenSettings(table.text("file"), table.truth("anyone"))
    table.end()
    return found


_COUNTS = {"body": 1 << 30, "bodies": 1 << 40, "lines": 1_000_000, "line": 1 << 20, "name": 4096,
           "queue": 10_000_000, "connections": 60_000, "subscribers": 60_000, "rows": 100_000,
           "unmatched": 100_000}
_SECONDS = ("header_seconds", "body_seconds", "idle_seconds", "silent_seconds", "write_seconds",
            "answer_seconds")


def limits_of(table: Table) -> Limits:
    """The table `[limits]`."""
    found = Limits()
    for key, most in _COUNTS.items():
        count = table.whole(key, 1, most)
        if count is not None:
            found = replace(found, **{key: count})
    for key in _SECONDS:
        seconds = table.seconds(key, 1, 86400)
        if seconds is not None:
            found = replace(found, **{key: seconds})
    found = replace(found, future=table.span("future", found.future))
    table.end()
    if found.body > found.bodies:
        raise table.wrong("body", f"{found.body} bytes are more than the {found.bodies} of all bodies")
    if found.lines > found.queue:
        raise table.wrong("lines", f"{found.lines} lines are more than the queue of {found.queue} takes")
    return found
