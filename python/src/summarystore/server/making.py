"""`POST /api/streams`: makes a stream, or brings one that stands to what is told of it."""

from __future__ import annotations

from collections.abc import Mapping, Sequence

from aiohttp import web

from ..gauges import BESIDE
from . import asked, exactjson
from .answers import json_answer
from .app import Service
from .bodies import body_of
from .endpoints import Access, Endpoint

TEXTS = ("target", "time", "since", "unit", "rounding", "kind", "integrate", "rule")
NUMBERS = ("scale", "overflow")
KEYS = ("name", "within", "labels", "exist_ok", *TEXTS, *NUMBERS)
Given = Mapping[str, object]


def _given(body: bytes) -> Given:
    try:
        found = exactjson.loads(body)
    except ValueError as error:
        raise asked.bad(str(error)) from None
    if not isinstance(found, dict):
        raise asked.bad("an object with `name` and `target` is to stand in the body")
    for key in found:
        if key not in KEYS:
            raise asked.bad(f"there is no {key[:40]!r}; there are {', '.join(KEYS)}")
    return {key: value for key, value in found.items() if value is not None}


def _text(given: Given, key: str) -> str | None:
    found = given.get(key)
    if found is not None and not isinstance(found, str):
        raise asked.bad(f"`{key}` is a text")
    return found


def _labels(given: Given) -> Mapping[str, str] | None:
    found = given.get("labels")
    if found is not None and (not isinstance(found, dict) or not all(
            isinstance(word, str) for pair in found.items() for word in pair)):
        raise asked.bad("`labels` is an object of texts")
    return found


class Making:
    """The handlers."""

    def __init__(self, service: Service) -> None:
        self._service = service

    async def create(self, request: web.Request) -> web.StreamResponse:
        """`POST /api/streams`."""
        given = _given(await body_of(request, self._service.configuration.limits))
        name, target = self._name(given), _text(given, "target")
        within, exist_ok = given.get("within"), given.get("exist_ok", False)
        if target is None or not isinstance(exist_ok, bool):
            raise asked.bad("`target` is a text such as power 1 1 4 1, and `exist_ok` is true or false")
        if within is not None and (isinstance(within, bool) or not isinstance(within, int)):
            raise asked.bad("`within` is a whole number")
        streams = self._service.intake.streams
        async with streams.alone(name):
            made = await self._service.store().create(
                name, target, within, exist_ok=exist_ok, scale=given.get("scale"),
                overflow=given.get("overflow"), labels=_labels(given),
                time=_text(given, "time"), since=_text(given, "since"), unit=_text(given, "unit"),
                rounding=_text(given, "rounding"), kind=_text(given, "kind"),
                integrate=_text(given, "integrate"), rule=_text(given, "rule"))
            streams.forget(name)
            streams.came(name)
            if given.get("kind") == "gauge":
                streams.came(name + BESIDE)
        return json_answer({"stream": name, "values": made.values, "windows": made.windows})

    async def describe(self, request: web.Request) -> web.StreamResponse:
        """`POST /api/describe`: the unit, labels and rounding of a stream that stands."""
        given = _given(await body_of(request, self._service.configuration.limits))
        name = self._name(given)
        if set(given) - {"name", "unit", "labels", "rounding"}:
            raise asked.bad("`unit`, `labels` and `rounding` alone can be changed")
        streams = self._service.intake.streams
        async with streams.alone(name):
            self._service.store().describe(name, unit=_text(given, "unit"), labels=_labels(given),
                                           rounding=_text(given, "rounding"))
            streams.forget(name)
            streams.came(name)
        return json_answer({"stream": name})

    def _name(self, given: Given) -> str:
        name = given.get("name")
        if not isinstance(name, str):
            raise asked.bad("`name` is the name of a stream")
        mistake = self._service.intake.mistake_of(name)
        if mistake is not None:
            raise asked.bad(mistake.reason, "bad_name")
        return name


def endpoints(service: Service) -> Sequence[Endpoint]:
    """The addresses."""
    making = Making(service)
    return [Endpoint("POST", "/api/streams", making.create, Access.WRITE),
            Endpoint("POST", "/api/describe", making.describe, Access.WRITE)]
