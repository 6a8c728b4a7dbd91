"""A small service of made-up streams in the shapes of the real one, for the tests of the page.

What it holds is a function of the time, so that a test knows each answer: readings each ten
seconds, which are known exactly when they are young and by intervals when they are old.
"""

from __future__ import annotations

import asyncio
import json
import math
import threading
from collections.abc import Awaitable, Callable, Mapping, Sequence
from dataclasses import dataclass, field
from decimal import ROUND_CEILING, ROUND_FLOOR, Decimal
from itertools import pairwise
from types import TracebackType
from zoneinfo import ZoneInfo

from aiohttp import web

from summarystore.calendars import Calendar, unit_of
from summarystore.server import page
from summarystore.server.endpoints import ApiError

from ..ports import free_port
from ..waiting import SECONDS, TooLate, joined, result_of
from .page_clock import now

APART = 10
EXACT_SECONDS = 6 * 3600
DAY = 86400
TENTH = Decimal("0.1")
Json = dict[str, object]
Handler = Callable[[web.Request], Awaitable[web.StreamResponse]]


def level(time_: float, base: float, swing: float) -> Decimal:
    """A value that goes up and down by the day, with some noise that is the same each time."""
    noise = math.sin(time_ * 12.9898) * 43758.5453 % 1 - 0.5
    wave = math.sin(2 * math.pi * time_ / DAY + base) + math.sin(time_ / (4000 + 9 * base)) / 3
    value = base + swing * (wave + noise / 6)
    return Decimal(value).quantize(TENTH)


@dataclass
class Stream:
    """One made-up stream."""

    name: str
    unit: str
    base: float
    swing: float
    days: float = 400
    labels: Mapping[str, str] = field(default_factory=dict)
    landmarks: list[tuple[float, float | None]] = field(default_factory=list)
    added: list[tuple[float, Decimal]] = field(default_factory=list)
    silent: float = 0
    """So many seconds ago the readings ended."""
    within: int | None = None
    """The step of the stream, in seconds."""
    shows: str | None = None
    words: Mapping[str, str] = field(default_factory=dict)

    def value(self, time_: float) -> Decimal:
        return level(time_, self.base, self.swing)

    @property
    def last(self) -> float:
        """The time of the newest reading. Where some were added none is made up after them."""
        if self.added:
            return max(time_ for time_, _ in self.added)
        return (now() - self.silent) // APART * APART

    @property
    def first(self) -> float:
        return (now() - self.days * DAY) // APART * APART

    def newest(self) -> Json:
        for time_, value in self.added:
            if time_ == self.last:
                return {"time": time_, "lo": value, "hi": value}
        return {"time": self.last, "lo": self.value(self.last), "hi": self.value(self.last)}

    @property
    def is_open(self) -> bool:
        return any(to is None for _, to in self.landmarks)

    def described(self) -> Json:
        return {"name": self.name, "unit": self.unit, "labels": dict(self.labels), "target": "power 1 1 4 1",
                "within": self.within, "within_seconds": self.within, "shows": self.shows,
                "words": dict(self.words),
                "values": int(self.days * DAY / APART) + len(self.added), "windows": 1207,
                "landmarks": len(self.landmarks), "open_landmark": self.is_open,
                "last": self.last, "newest": self.newest()}

    def answer(self, kind: str, start: float, end: float) -> Json:
        """What a row or a query says of the times from `start` to `end`, both included."""
        start, end = max(start, self.first), min(end, self.last)
        count = int(end // APART - math.ceil(start / APART) + 1)
        if count < 1:
            none = kind not in ("count", "sum")
            number = None if none else 0
            return {"lo": number, "hi": number, "mid": number, "exact": not none, "none": none,
                    "maybe_none": False}
        if count > 25:
            times = [start + (end - start) * at / 24 for at in range(25)]
        else:
            times = [float((math.ceil(start / APART) + at) * APART) for at in range(count)]
        values = [self.value(time_) for time_ in times]
        values += [value for time_, value in self.added if start <= time_ <= end]
        mean = sum(values, Decimal()) / len(values)
        middle = {"count": Decimal(count), "sum": (mean * count).quantize(TENTH), "min": min(values),
                  "max": max(values), "mean": mean.quantize(Decimal("0.0001"))}[kind]
        age = max(0.0, self.last - EXACT_SECONDS - end)
        slack = Decimal(0.08 * math.sqrt(age / DAY) + 0.02) if age else Decimal(0)
        if kind in ("sum", "count"):
            slack *= max(1, count // 50)
        step = Decimal(1) if kind == "count" else TENTH if kind != "mean" or slack else Decimal("0.0001")
        low = (middle - slack).quantize(step, ROUND_FLOOR)
        high = (middle + slack).quantize(step, ROUND_CEILING)
        return {"lo": low, "hi": high, "mid": (low + high) / 2, "exact": low == high, "none": False,
                "maybe_none": False}


def many() -> list[Stream]:
    """The streams of a house and its garden."""
    present = now()
    kitchen = {"floor": "0", "sensor": "SHT31"}
    return [
        Stream("garden/greenhouse/humidity", "%", 62, 14),
        Stream("garden/rain", "mm", 2, 1.8),
        Stream("garden/soil/moisture", "%", 31, 3, silent=3 * DAY),
        Stream("home/attic/temperature", "°C", 24, 6),
        Stream("home/boiler/pressure", "bar", 1.6, 0.1),
        Stream("home/kitchen/temperature", "°C", 21, 2, labels=kitchen,
               landmarks=[(present - 5 * 3600, present - 3.5 * 3600)]),
        Stream("home/meter/power", "W", 420, 260),
        Stream("office/carbon dioxide", "ppm", 640, 180),
    ]


def _text(value: object) -> str:
    """JSON with decimals in full."""
    if isinstance(value, Decimal):
        return format(value, "f")
    if isinstance(value, dict):
        return "{" + ",".join(f"{json.dumps(key)}:{_text(each)}" for key, each in value.items()) + "}"
    if isinstance(value, list | tuple):
        return "[" + ",".join(_text(each) for each in value) + "]"
    return json.dumps(value)


def reply(value: object, status: int = 200) -> web.Response:
    """JSON as the service writes it."""
    return web.Response(text=_text(value), status=status, content_type="application/json")


def refusal(status: int, code: str, reason: str) -> web.Response:
    """An error as the service tells it."""
    return reply({"error": code, "reason": reason}, status)


async def next_of(held: asyncio.Queue[bytes | None]) -> bytes | None:
    """What is to be sent next: an event, or after some time a sign that the service lives."""
    try:
        return await asyncio.wait_for(held.get(), 10)
    except asyncio.TimeoutError:
        return b": alive\n\n"


def edges_of(start: float, end: float, step: str, zone: str | None) -> Sequence[float]:
    """Where rows begin, and where the last of them ends."""
    unit = unit_of(step)
    if zone is None or unit is None:
        return [start + at * float(step) for at in range(math.floor((end - start) / float(step)) + 2)]
    found = Calendar(unit, ZoneInfo(zone)).edges(int(start * 10**9), int(end * 10**9), 2001)
    assert found is not None
    return [edge / 10**9 for edge in found]


class StandIn:
    """The service in a thread of its own: `with StandIn(many()) as service: service.address`."""

    def __init__(self, streams: list[Stream], token: str = "", has_chart: bool = True) -> None:
        self.streams = {stream.name: stream for stream in streams}
        self.token = token
        self.asked: list[tuple[str, dict[str, str]]] = []
        self.told: list[tuple[str, object]] = []
        self.health: Json = {"status": "ok", "store": {"state": "open", "reason": ""},
                             "mapping": {"entries": 2}, "unmatched": {"readings": 0}}
        self.failing: web.Response | None = None
        self.admin = False
        self.unknown_zone: str | None = None
        self.slow = 0.0
        self.port = free_port()
        self._has_chart = has_chart
        self._followers: set[asyncio.Queue[bytes | None]] = set()
        self._loop = asyncio.new_event_loop()
        self._ready = threading.Event()
        self._thread = threading.Thread(target=self._run, daemon=True)

    @property
    def address(self) -> str:
        return f"http://127.0.0.1:{self.port}/"

    def __enter__(self) -> StandIn:
        self._thread.start()
        if not self._ready.wait(SECONDS):
            raise TooLate("the stand-in doesn't listen")
        return self

    def __exit__(self, kind: type[BaseException] | None, error: BaseException | None,
                 trace: TracebackType | None) -> None:
        self._call(self._end_followers)
        self._loop.call_soon_threadsafe(self._loop.stop)
        joined(self._thread)

    def emit(self, event: str, data: object) -> None:
        """Tells an event to all who follow."""
        text = f"event: {event}\ndata: {_text(data)}\n\n".encode()
        self._call(lambda: self._tell(text))

    def _tell(self, text: bytes) -> None:
        for each in self._followers:
            each.put_nowait(text)

    def append(self, name: str, value: str) -> None:
        """A reading that comes now."""
        time_ = math.floor(now() * 1000) / 1000
        self.streams[name].added.append((time_, Decimal(value)))
        self.emit("reading", {"stream": name, "time": time_, "value": Decimal(value)})

    def cut(self) -> None:
        """Ends all connections that follow."""
        self._call(self._end_followers)

    def stop_listening(self) -> None:
        """Ends the service; `listen_again` brings it back under the same port."""
        self._call(self._end_followers)
        result_of(asyncio.run_coroutine_threadsafe(self._site.stop(), self._loop))

    def listen_again(self) -> None:
        result_of(asyncio.run_coroutine_threadsafe(self._listen(), self._loop))

    def _call(self, call: Callable[[], object]) -> None:
        async def run() -> None:
            call()
        result_of(asyncio.run_coroutine_threadsafe(run(), self._loop))

    def _end_followers(self) -> None:
        for each in self._followers:
            each.put_nowait(None)

    def _run(self) -> None:
        asyncio.set_event_loop(self._loop)
        self._loop.run_until_complete(self._start())
        self._ready.set()
        self._loop.run_forever()
        self._loop.run_until_complete(self._runner.cleanup())
        self._loop.close()

    async def _start(self) -> None:
        app = web.Application(middlewares=[self._guard])
        for endpoint in page.routes() if self._has_chart else page.routes(places=()):
            app.router.add_get(endpoint.path, endpoint.handler)     # and HEAD, as the service does
        app.add_routes([
            web.get("/api/streams", self._streams), web.get("/api/query", self._query),
            web.get("/api/series", self._series), web.get("/api/windows", self._windows),
            web.get("/api/landmarks", self._landmarks), web.post("/api/landmark", self._landmark),
            web.get("/api/events", self._events), web.get("/healthz", self._healthz),
            web.get("/api/access", self._access), web.delete("/api/streams/{name:.+}", self._drop),
            web.patch("/api/streams/{name:.+}", self._rename),
        ])
        self._runner = web.AppRunner(app)
        await self._runner.setup()
        await self._listen()

    async def _listen(self) -> None:
        self._site = web.TCPSite(self._runner, "127.0.0.1", self.port, reuse_address=True, shutdown_timeout=1)
        await self._site.start()

    @web.middleware
    async def _guard(self, request: web.Request, handler: Handler) -> web.StreamResponse:
        if request.path in page.ADDRESSES or request.path in ("/healthz", "/api/access"):
            try:
                return await handler(request)
            except ApiError as error:
                return refusal(error.status, error.code, error.reason)
        self.asked.append((request.path, dict(request.query)))
        if self.token and request.headers.get("Authorization") != f"Bearer {self.token}":
            return refusal(401, "unauthorized", "a token is wanted")
        if self.failing is not None:
            return refusal(self.failing.status, "failing", str(self.failing.text))
        await asyncio.sleep(self.slow)
        return await handler(request)

    async def _streams(self, request: web.Request) -> web.StreamResponse:
        return reply({"streams": [stream.described() for stream in self.streams.values()]})

    async def _query(self, request: web.Request) -> web.StreamResponse:
        stream, kind, start, end = self._asked_for(request)
        answer = stream.answer(kind, start, end)
        return reply({"stream": stream.name, "kind": kind, "from": start, "to": end, **answer})

    async def _series(self, request: web.Request) -> web.StreamResponse:
        stream, kind, start, end = self._asked_for(request)
        word, zone = request.query["step"], request.query.get("zone")
        if zone is not None and zone == self.unknown_zone:
            return refusal(400, "bad_time", f"`zone`: no such zone: {zone}")
        edges = edges_of(start, end, word, zone)
        if len(edges) > 2001:
            return refusal(400, "too_many_rows", f"{len(edges) - 1} rows are more than 2000")
        rows: list[Json] = []
        for begin, until in pairwise(edges):
            answer = stream.answer(kind, begin, min(end, until - 0.001) if zone is None else until - 0.001)
            del answer["maybe_none"]
            rows.append({"time": begin, **({} if zone is None else {"until": until}), **answer})
        return reply({"stream": stream.name, "kind": kind, "unit": stream.unit, "from": start, "to": end,
                      "step": word if zone else float(word), "rows": rows})

    async def _windows(self, request: web.Request) -> web.StreamResponse:
        stream = self.streams[request.query["stream"]]
        return reply({"stream": stream.name, "windows": [{"from": stream.first, "to": stream.first + 60}]})

    async def _landmarks(self, request: web.Request) -> web.StreamResponse:
        stream = self.streams[request.query["stream"]]
        marks = [{"from": start, "to": end} for start, end in stream.landmarks]
        values = [{"time": time_, "value": value} for time_, value in stream.added if stream.is_open]
        return reply({"landmarks": marks, "values": values})

    async def _landmark(self, request: web.Request) -> web.StreamResponse:
        body = await request.json()
        self.told.append(("landmark", body))
        stream = self.streams[body["stream"]]
        if body["action"] == "open":
            if stream.is_open:
                return refusal(409, "landmark_open", "a landmark is open already")
            stream.landmarks.append((now(), None))
        else:
            start, _ = stream.landmarks.pop()
            stream.landmarks.append((start, now()))
        self._tell(f'event: landmark\ndata: {json.dumps({"stream": stream.name})}\n\n'.encode())
        return reply({"stream": stream.name})

    async def _events(self, request: web.Request) -> web.StreamResponse:
        response = web.StreamResponse(headers={"Content-Type": "text/event-stream"})
        await response.prepare(request)
        held: asyncio.Queue[bytes | None] = asyncio.Queue()
        self._followers.add(held)
        try:
            await response.write(b": hello\n\n")
            while (text := await next_of(held)) is not None:
                await response.write(text)
        except ConnectionResetError:
            pass
        finally:
            self._followers.discard(held)
        return response

    async def _access(self, request: web.Request) -> web.StreamResponse:
        return reply({"read": True, "write": True, "admin": self.admin})

    async def _drop(self, request: web.Request) -> web.StreamResponse:
        del self.streams[request.match_info["name"]]
        return reply({"dropped": True})

    async def _rename(self, request: web.Request) -> web.StreamResponse:
        name, new = request.match_info["name"], (await request.json())["rename"]
        if new in self.streams:
            return refusal(409, "stream_exists", f"a stream {new!r} stands")
        self.streams[new] = self.streams.pop(name)
        self.streams[new].name = new
        return reply({"stream": name, "rename": new})

    async def _healthz(self, request: web.Request) -> web.StreamResponse:
        return reply(self.health)

    def _asked_for(self, request: web.Request) -> tuple[Stream, str, float, float]:
        query = request.query
        return self.streams[query["stream"]], query["kind"], float(query["from"]), float(query["to"])
