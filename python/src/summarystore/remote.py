"""What the calls of a store ask of a service, and what its answers mean. Without any I/O.

A question goes as the lines that it would be for the program, and so it has the same answer. A reading goes
to the intake of the service, which joins counters and knows what came twice.
"""

from __future__ import annotations

import datetime
from collections.abc import Callable, Iterator, Mapping, Sequence
from dataclasses import dataclass
from typing import Generic, TypeVar
from urllib.parse import quote, urlsplit

from . import errors
from .clock import zone_of
from .codec import Change, Codec, PlainCodec
from .description import Description
from .errors import DescriptionError, LateError, ServiceError, StreamNameError, UnknownStreamError
from .frames import rows_of
from .names import DescribedCodec
from .namesfile import Described as Descriptions, entry_of
from .pipeline import Appends
from .present import UNSAID
from .records import Stored, Time, Window
from .sending import OnRefused, Row, Sending
from .server import exactjson
from .server.meaning import Meaning
from .wire import NAME, SESSIONS, Reply

T = TypeVar("T")
Body = Mapping[str, object]
SECONDS = 30.0
MOST_LINES = 5_000
"""So many lines a service takes in one request."""
LISTING = frozenset(("series", "estimates", "values", "windows", "list"))
"""What has rows: of such lines a service takes as many in one request as there are sessions."""


@dataclass(frozen=True)
class Ask(Generic[T]):
    """A request, and what the object in its answer means."""

    method: str
    path: str
    body: bytes | None
    result: Callable[[Body], T]


def address_of(address: str) -> str:
    """The address of a service, without a slash at its end."""
    parts = urlsplit(address)
    if parts.scheme not in ("http", "https") or not parts.hostname or parts.query or parts.fragment:
        raise ValueError(f"the address of a service is as http://127.0.0.1:8087, and not {address!r}")
    return address.rstrip("/")


def headers_of(token: str | None) -> Mapping[str, str]:
    """The headers of each request."""
    told = {"Content-Type": "application/json", "Accept": "application/json"}
    return told if token is None else {**told, "Authorization": f"Bearer {token}"}


def object_of(said: bytes) -> Body:
    """The object that an answer says, with exact numbers."""
    try:
        found = exactjson.loads(said)
    except ValueError as error:
        raise ServiceError(None, "no_service", f"what answers is no service: {error}") from None
    if not isinstance(found, dict):
        raise ServiceError(None, "no_service", "what answers is no service: an object was to come")
    return found


def error_of(status: int, told: Body) -> Exception:
    """What an answer that is none raises."""
    code, reason = str(told.get("error", "failed")), str(told.get("reason", ""))
    kind = KINDS.get(code)
    return ServiceError(status, code, reason) if kind is None else _made(kind, code, reason)


def _made(kind: type[Exception], code: str, reason: str) -> Exception:
    if issubclass(kind, errors.RefusedError):
        return kind(code.upper(), code, reason)
    return kind(reason)


KINDS: Mapping[str, type[Exception]] = {
    "unknown_stream": UnknownStreamError, "unmatched": UnknownStreamError, "late": LateError,
    "stream_exists": errors.StreamExistsError, "landmark_open": errors.LandmarkOpenError,
    "landmark_not_open": errors.LandmarkNotOpenError, "full": errors.StoreFullError,
    "not_a_number": errors.NotANumberError, "scale": errors.ScaleError, "counter": errors.MeterError,
    "time": errors.TimeError, "future": errors.TimeError, "bad_time": errors.TimeError,
    "bad_range": errors.RangeError, "bad_number": errors.NumberError, "range": errors.NumberError,
    "bad_name": StreamNameError, "name": StreamNameError, "bad_description": DescriptionError}
"""What the words of the service raise. Others are a ServiceError."""


# ---- requests ---------------------------------------------------------------------------


def _json(value: object) -> bytes:
    return exactjson.dumps(value).encode("utf-8")


def _nothing(told: Body) -> None:
    pass


def questions(lines: Sequence[str]) -> Sequence[Ask[Sequence[Reply]]]:
    """Questions as the lines of the program: in several requests where they are too many for one."""
    def result(told: Body) -> Sequence[Reply]:
        replies = told["replies"]
        assert isinstance(replies, list)
        return [Reply(reply["head"], reply["rows"]) for reply in replies]
    return [Ask("POST", "/api/lines", _json({"lines": part}), result) for part in _parts(lines)]


def _parts(lines: Sequence[str]) -> Iterator[Sequence[str]]:
    """Lines in as many as a service takes at once."""
    part: list[str] = []
    listing = 0
    for line in lines:
        lists = line.partition(" ")[0] in LISTING
        if len(part) == MOST_LINES or lists and listing == SESSIONS:
            yield part
            part, listing = [], 0
        part.append(line)
        listing += lists
    if part:
        yield part


def descriptions(names: RemoteNames) -> Ask[None]:
    """How the streams are read."""
    return Ask("GET", "/api/descriptions", None, names.take)


def create(name: str, target: str | Sequence[object], **words: object) -> Ask[Stored]:
    """Makes a stream."""
    def result(told: Body) -> Stored:
        return Stored(int(str(told["values"])), int(str(told["windows"])))
    given: dict[str, object] = {
        "name": name, "target": target if isinstance(target, str) else " ".join(map(str, target)),
        **{key: str(word) if isinstance(word, datetime.date) else word for key, word in words.items()}}
    return Ask("POST", "/api/streams", _json(given), result)


def describe(words: Mapping[str, object]) -> Ask[None]:
    """Changes the unit, the labels or the rounding."""
    return Ask("POST", "/api/describe", _json(words), _nothing)


def drop(name: str) -> Ask[None]:
    """Removes a stream."""
    return Ask("DELETE", f"/api/streams/{quote(name)}", None, _nothing)


def rename(name: str, new: str) -> Ask[None]:
    """Gives a stream another name."""
    return Ask("PATCH", f"/api/streams/{quote(name)}", _json({"rename": new}), _nothing)


def mark(name: str, codec: Codec, action: str, time: int | None) -> Ask[None]:
    """Opens a landmark, or closes the open one."""
    told: dict[str, object] = {"stream": name, "action": action}
    if time is not None:
        told["time"] = Meaning.of(codec.description).seconds(time)
    return Ask("POST", "/api/landmark", _json(told), _nothing)


def reading(name: str, codec: Codec, time: object, value: object) -> bytes:
    """A reading, without a time where it is to be now."""
    told: dict[str, object] = {"stream": name, "value": codec.value_back(codec.value(value))}
    if time is not UNSAID:
        told["time"] = Meaning.of(codec.description).seconds(codec.time(time))
    return _json(told)


# ---- readings ---------------------------------------------------------------------------


class Posts(Sending):
    """The rows of one `append_many` as bodies for the service."""

    def __init__(self, name: str, codec: Codec, rows: object, refused: OnRefused | None,
                 lateness: object | None) -> None:
        super().__init__(codec, rows_of(rows), refused, lateness)
        self._name = name

    def _readings(self, rows: Sequence[Row]) -> Posted:
        if str in set(map(type, rows)):
            raise TypeError("a row is a time and a value, and not a text")
        return Posted([reading(self._name, self.codec, time, value) for time, value in rows])


@dataclass(frozen=True)
class Posted:
    """Readings as a service takes them."""

    readings: Sequence[bytes]

    def lines(self, session: int) -> bytes:
        """All of them. A service has no sessions."""
        return b"".join([each + b",\n" for each in self.readings])

    def line(self, at: int) -> str:
        """One of them."""
        return self.readings[at].decode("utf-8")

    def and_more(self, others: Sequence[Posted]) -> Posted:
        """The same with others behind it."""
        return Posted([reading for each in (self, *others) for reading in each.readings])


def posted(request: Appends[Row]) -> Ask[None]:
    """The rows of a request on their way. None of them may be stored by then."""
    request.written = len(request.rows)
    return Ask("POST", "/api/append", body_of(request.data), _nothing)


def body_of(readings: bytes) -> bytes:
    """Some readings as a body."""
    return b'{"readings":[' + readings.rstrip(b",\n") + b"]}"


def took(request: Appends[Row], status: int, told: Body) -> None:
    """What became of the rows of a request. Raises where it isn't known of all."""
    if "stored" not in told:      # nothing was taken
        request.written = 0
        raise error_of(status, told)
    first, surely_not = (min(_places(told, key), default=len(request.rows))
                         for key in ("unknown", "not_stored"))
    request.answered, request.written = min(first, surely_not), surely_not
    for refused in _refused(told):
        at = int(str(refused["index"]))
        if at < request.answered:
            request.refused.append((request.rows[at], refusal(refused)))
    if request.answered < len(request.rows):
        raise error_of(status, told)


def _places(told: Body, key: str) -> Sequence[int]:
    found = told.get(key, [])
    return [int(at) for at in found] if isinstance(found, list) else []


def _refused(told: Body) -> Sequence[Body]:
    found = told.get("refused", [])
    return [each for each in found if isinstance(each, dict)] if isinstance(found, list) else []


def refusal(told: Body) -> errors.SummaryStoreError:
    """Why a reading was refused."""
    code, reason = str(told["code"]), str(told["reason"])
    found = _made(KINDS.get(code, errors.RefusedError), code, reason)
    assert isinstance(found, errors.SummaryStoreError)
    return found


def first_refusal(status: int, told: Body) -> None:
    """Raises what became of one reading, where it isn't stored."""
    refused = _refused(told)
    if refused:
        raise refusal(refused[0])
    if status != 200:
        raise error_of(status, told)


# ---- names and windows ------------------------------------------------------------------


class RemoteNames:
    """The streams of a service, as it told them last. `look` asks it again."""

    lists = False

    def __init__(self, zone: str | datetime.tzinfo | None, look: Callable[[], None] | None = None) -> None:
        self._zone = zone_of(zone)
        self._look = look
        self._described: Descriptions = {}
        self._names: dict[str, str] = {}
        self._codecs: dict[str, DescribedCodec] = {}

    def take(self, told: Body) -> None:
        """Takes what the service says."""
        streams, names = told["streams"], told["names"]
        assert isinstance(streams, dict) and isinstance(names, dict)
        described = {name: entry_of(entry) for name, entry in streams.items()}
        self._codecs = {name: codec for name, codec in self._codecs.items()
                        if described.get(name) == self._described[name]}
        self._described = described
        self._names = {short: name for name, short in names.items()}

    def codec(self, name: str) -> Codec:
        """That of a stream. One that isn't known is asked for."""
        if name not in self._described and name not in self._names and self._look is not None:
            self._look()
        if name in self._described:
            codec = self._codecs.get(name)
            if codec is None:
                codec = self._codecs[name] = DescribedCodec(*self._described[name], self._zone)
            return codec
        if not isinstance(name, str):
            raise StreamNameError("NAME", repr(name), "a name is text")
        if not NAME.fullmatch(name):
            raise UnknownStreamError("UNKNOWN", name)
        return PlainCodec(name)

    def name_of(self, short: str) -> str:
        """The name that people use."""
        return self._names.get(short, short)

    def learn(self, rows: Sequence[str]) -> None:
        """Is told by `take`."""

    def declare(self, name: str, description: Description | None) -> Codec:
        """The service declares."""
        return self.codec(name)

    def keep(self, changes: Sequence[Change]) -> Sequence[Codec | Exception]:
        """The service keeps."""
        return [self.codec(change.name) for change in changes]

    def made(self, name: str, codec: Codec) -> None:
        """The service knows."""

    def unmade(self, name: str, codec: Codec) -> None:
        """The service knows."""

    def removed(self, name: str) -> None:
        """The service knows."""

    def describe(self, name: str, description: Description) -> None:
        """The service describes."""

    def rename(self, name: str, new: str) -> None:
        """The service renames."""

    def keep_joins(self, name: str, joins: Sequence[tuple[int, int]]) -> None:
        """The service joins."""


class Described:
    """How the streams of a service are read, as far as it told."""

    path: str
    _names: RemoteNames

    def __repr__(self) -> str:
        return f"<summarystore.RemoteStore {self.path}>"

    def codec(self, name: str) -> Codec:
        """How a stream's times and values become whole numbers, and back."""
        return self._names.codec(name)

    def description(self, name: str) -> Description | None:
        """How a stream is read. None where it takes and gives whole numbers."""
        return self.codec(name).description

    def now(self, name: str) -> Time:
        """The present time of a described stream."""
        codec = self.codec(name)
        return codec.time_back(codec.now())


def windows_path(name: str) -> str:
    """Where the windows of a stream are, a line each."""
    return f"/api/windows?stream={quote(name, safe='')}"


def window_of(line: str, codec: Codec) -> Window:
    """A window, from its line of CSV."""
    cells = line.split(",")
    meaning = Meaning.of(codec.description)
    start, end = (codec.time_back(meaning.count_of_seconds(cell)) for cell in cells[6:])
    total, least, greatest = (codec.value_back(codec.value(cell)) if codec.description else int(cell)
                              for cell in cells[3:6])
    return Window(int(cells[0]), int(cells[1]), int(cells[2]), total, least, greatest, start, end)
