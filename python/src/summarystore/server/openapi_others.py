"""What of the document is about the addresses that clients of others ask: Prometheus, Graphite, InfluxDB."""

from __future__ import annotations

from .endpoints import Access
from .openapi_words import COUNT, TEXT, Json, operation, word

FORM: Json = {"application/x-www-form-urlencoded": {"schema": {"type": "object"}}}
TARGETS = word("target", {"type": "array", "items": TEXT}, True,
               "a path with `*`, or a function of Graphite's over paths; each gives a series")
PATHS = word("query", TEXT, True, "a pattern of paths, whose levels are parted by `.`")
SINCE = (word("from", TEXT, False, "the first time, as Graphite writes it: `-1h`, or seconds"),
         word("until", TEXT, False, "the last time, or now"))
LIST: Json = {"type": "array", "items": {"type": "object"}}


def _both(told: str, words: tuple[Json, ...], answer: Json) -> Json:
    """An address that takes its words in the address, or as a form in the body."""
    return {"get": operation(told, words, answer), "post": operation(told, (), answer, FORM)}


def _graphite() -> Json:
    tags = _both("The tags that Graphite's source in Grafana asks for: there are none", (), LIST)
    return {
        "/render": _both("Series for Graphite's source in Grafana",
                         (TARGETS, *SINCE, word("maxDataPoints", COUNT, False, "at most so many of each")),
                         LIST),
        "/metrics/find": _both("The next level of the paths", (PATHS,), LIST),
        "/metrics/expand": _both("The paths of a pattern", (PATHS,), {"type": "object"}),
        "/metrics/index.json": _both("All paths", (), {"type": "array", "items": TEXT}),
        "/tags/autoComplete/tags": tags,
        "/tags/autoComplete/values": tags,
    }


def _influx() -> Json:
    told = "InfluxDB's CREATE DATABASE, which changes nothing. Nothing else of InfluxQL is understood"
    words = (word("q", TEXT, True, "such as CREATE DATABASE home"),)
    answer: Json = {"type": "object"}
    return {
        "/query": {"get": operation(told, words, answer, access=Access.WRITE),
                   "post": operation(told, (), answer, FORM, Access.WRITE)},
        "/ping": {"get": operation("Whether there is one, as clients of InfluxDB 1 ask", access=Access.OPEN,
                                   status="204")},
        "/health": {"get": operation("Whether readings are taken, as clients of InfluxDB 2 ask", (), answer,
                                     access=Access.OPEN)},
    }


def paths() -> Json:
    """The addresses."""
    metrics = operation("What the service counts of itself, for Prometheus", (), TEXT, kind="text/plain")
    return {**_graphite(), **_influx(), "/metrics": {"get": metrics}}
