"""HTTP: readings in, and answers out."""

from __future__ import annotations

import asyncio
import gzip
import os
import signal
import zlib
from decimal import Decimal
from pathlib import Path

import pytest

from summarystore.server.assembly import endpoints_of
from summarystore.server.intake import Incoming

from ..waiting import run
from .conftest import ANY
from .serving import Client, over_http

T = 1_764_410_400
PLAIN = '[[mapping]]\nmatch = "weather/**"\nscale = 0.1\nunit = "°C"\ntarget = "exp 2 60 1"\n'


def test_line_protocol(path: Path) -> None:
    async def work() -> None:
        async with over_http(PLAIN, path) as client:
            body = f"weather,room=attic temperature=21.5,humidity=40i {T}000000000\n"
            await client.post("/write?db=any", body, 204)
            await client.post("/api/v2/write?bucket=b&org=o&precision=s",
                              f"# told again\n\nweather,room=attic temperature=-3 {T + 1}\r\n", 204)
            await client.post("/write?precision=ms", f"weather,room=attic temperature=4 {T + 2}999\n", 204)
            streams = (await client.get("/api/streams"))["streams"]
            assert [stream["name"] for stream in streams] == ["weather,room=attic/temperature",
                                                              "weather,room=attic/humidity"]
            assert streams[0]["newest"] == {"time": T + 2, "lo": 4, "hi": 4} and streams[0]["values"] == 3
            assert streams[0]["unit"] == "°C"
    run(work())


def test_streams_of_whole_hours(path: Path) -> None:
    """What a mapping says of `within` holds of the streams that it makes."""
    async def work() -> None:
        async with over_http(PLAIN + "within = 3600\n", path) as client:
            body = "".join(f"weather t={at % 50} {T + at}\n" for at in range(0, 20_000, 10))
            await client.post("/write?precision=s", body, 204)
            assert [stream["within"] for stream in (await client.get("/api/streams"))["streams"]] == [3600]
            hour = (T // 3600 + 1) * 3600
            found = await client.get("/api/query", stream="weather/t", kind="sum", **{
                "from": str(hour), "to": str(hour + 3599)})
            assert found["exact"] is True
    run(work())


@pytest.mark.parametrize("encoding, pack", [("gzip", gzip.compress), ("deflate", zlib.compress),
                                            ("gzip", lambda data: gzip.compress(data[:7])
                                             + gzip.compress(data[7:]))])
def test_packed_bodies(path: Path, encoding: str, pack: object) -> None:
    async def work() -> None:
        async with over_http(PLAIN, path) as client:
            assert callable(pack)
            body = pack(b"".join(b"weather t=%d %d\n" % (at, T + at) for at in range(1000)))
            await client.post("/write?precision=s", body, 204, headers={"Content-Encoding": encoding})
            found = await client.get("/api/query", stream="weather/t", kind="sum")
            assert (found["lo"], found["exact"]) == (499500, True)
            bomb = gzip.compress(b"\n" * (100 << 20))
            before = _resident()
            told = await client.post("/write", bomb, 413, headers={"Content-Encoding": "gzip"})
            assert told["error"] == "too_large" and _resident() - before < 60 << 10
            for broken in (body[:-4], b"nothing packed"):
                told = await client.post("/write", broken, 400, headers={"Content-Encoding": "gzip"})
                assert told["error"] == "bad_encoding" and told["reason"]
            await client.post("/write", body, 415, headers={"Content-Encoding": "br"})
    run(work())


def _resident() -> int:
    """The memory of this process in KiB."""
    text = Path("/proc/self/status").read_text("ascii")
    return int(text.partition("VmRSS:")[2].split()[0])


def test_fields_that_are_no_numbers(path: Path) -> None:
    """They are counted, and keep nobody from what is stored. A mapping may say which numbers they are."""
    async def work() -> None:
        lamp = '[[mapping]]\nmatch = "lamp/on"\nwords = { true = 1, off = 0 }\n'
        async with over_http(PLAIN + lamp, path) as client:
            body = (f'weather t=1,word="on",truth=t {T}\nlamp on=T,model="a b=1" {T}\n'
                    f'lamp on="off" {T + 1}\nlamp on="dim" {T + 2}\n')
            await client.post("/write?precision=s", body, 204)
            assert client.headers["Summarystore-Not-Numbers"] == "4"
            assert client.service.counters.of("refused") == {("influx", "not_a_number"): 3,
                                                             ("influx", "unmatched"): 1}
            assert (await client.get("/api/query", stream="lamp/on", kind="sum"))["lo"] == 1
            assert [stream["name"] for stream in (await client.get("/api/streams"))["streams"]] == [
                "weather/t", "lamp/on"]
            await client.post("/write?precision=s", f'weather a="only",b=f {T}\n', 204)
            told = await client.post("/write?precision=s", f'weather t=1.55,word="on" {T + 1}\n', 400)
            assert [each["code"] for each in told["refused"]] == ["scale"] and told["dropped"] == 1
            assert client.headers["Summarystore-Not-Numbers"] == "1"
    run(work())


def test_lines_that_are_refused(path: Path) -> None:
    async def work() -> None:
        async with over_http('[http]\nlisten = "127.0.0.1:0"\nstrict = true\n' + PLAIN, path) as client:
            body = (f'weather t=1,word="on",truth=t {T}\nweather t=1.55 {T + 1}\nbroken\n'
                    f"other v=1 {T}\nweather t=0 {T}\nweather t=2 {T + 1}\nweather t=1 {T}\n")
            told = await client.post("/write?precision=s", body, 400)
            assert told["error"] == "partial write" and (told["stored"], told["there"]) == (2, 1)
            assert "dropped=6" in told["message"]
            assert [(each["line"], each["code"]) for each in told["refused"]] == [
                (1, "not_a_number"), (1, "not_a_number"), (2, "scale"), (3, "syntax"), (4, "unmatched"),
                (5, "late")]
            told = await client.get("/api/unmatched")
            assert told["readings"] == 1 and told["names"][0]["name"] == "other/v"
    run(work())


def test_json(path: Path) -> None:
    async def work() -> None:
        async with over_http(ANY, path) as client:
            room = "home/living room"
            told = await client.post("/api/append", {"stream": room, "time": T, "value": "21.5"})
            assert told == {"stored": 1, "there": 0, "refused": []}
            rows = [{"stream": room, "time": "2025-11-29T11:00:01+01:00", "value": 21.6},
                    {"stream": room, "time": T + Decimal("2.75"), "value": -3},
                    {"stream": room, "time": T + 1, "value": 21.7}, {"stream": room, "value": 7}]
            body = {"readings": [{key: float(each) if isinstance(each, Decimal) else each
                                  for key, each in row.items()} for row in rows]}
            told = await client.post("/api/append", body, 400)
            assert told["error"] == "partial write" and told["message"].endswith("dropped=1")
            assert told["stored"] == 3 and [each["index"] for each in told["refused"]] == [2]
            assert told["refused"][0]["code"] == "late" and "isn't later" in told["refused"][0]["reason"]
            told = await client.post("/api/append", {"stream": room, "time": T, "value": "21.5"})
            assert told["there"] == 1 and not told["refused"]
            told = await client.post("/api/append", {"stream": room, "value": "unavailable"}, 400)
            assert told["refused"][0]["code"] == "not_a_number"
            words = {"from": str(T), "to": str(T + 2)}
            found = await client.get("/api/query", stream=room, kind="max", **words)
            assert found == {"stream": room, "kind": "max", "from": T, "to": T + 2, "lo": Decimal("21.6"),
                             "hi": Decimal("21.6"), "mid": Decimal("21.6"), "exact": True, "none": False,
                             "maybe_none": False}
    run(work())


@pytest.mark.parametrize("body", [
    b"", b"{", b"[]", b"7", b"\xff", b'{"stream":"home/a"}', b'{"readings":{}}', b'{"readings":[7]}',
    b'{"stream":1,"value":2}', b'{"stream":"home/a","value":1,"when":2}', b'{"stream":"home/a","value":NaN}',
    b'{"stream":"home/a","value":1,"time":"soon"}', b'{"stream":"home/a","value":1,"time":true}',
    b'{"stream":"home/a","value":1,"time":1e99}',
    b'{"stream":"home/a","value":1,"time":"2025-11-29 10:00"}',
    b"[" * 100000, b'{"stream":"home/a","value":%s}' % (b"9" * 5000),
    b'{"stream":"home/a","value":1e999999}'])
def test_bodies_that_are_no_readings(path: Path, body: bytes) -> None:
    async def work() -> None:
        async with over_http(ANY, path) as client:
            async with client.session.post(client.base + "/api/append", data=body) as answer:
                told = await answer.json()
                assert answer.status == 400, told
                reason = told.get("reason") or told["refused"][0]["reason"]
                assert reason and len(reason) < 400
            assert all(stream["values"] <= 1 for stream in (await client.get("/api/streams"))["streams"])
    run(work())


async def _filled(client: Client, count: int = 1000) -> None:
    told = await client.service.intake.append_many(
        [Incoming("home/a", str(at % 50), (T + at) * 10**9) for at in range(count)])
    assert all(outcome.good for outcome in told)


def test_series(path: Path) -> None:
    async def work() -> None:
        async with over_http(ANY, path) as client:
            await _filled(client)
            found = await client.get("/api/series", stream="home/a", kind="max", rows="10")
            assert [found[key] for key in ("from", "to", "step")] == [T, T + 999, 100]
            assert len(found["rows"]) == 10 and found["unit"] == "°C"
            assert all(row["lo"] <= 49 <= row["hi"] for row in found["rows"])
            words = {"from": str(T), "to": str(T + 2000), "step": "1000"}
            rows = (await client.get("/api/series", stream="home/a", kind="mean", **words))["rows"]
            assert [row["time"] for row in rows] == [T, T + 1000, T + 2000]
            assert rows[0]["lo"] <= Decimal("24.5") <= rows[0]["hi"]
            assert rows[2]["none"] and rows[2]["lo"] is None
            words["step"] = "20min"
            rows = (await client.get("/api/series", stream="home/a", kind="count", **words))["rows"]
            assert len(rows) == 2
            words["step"] = "1"
            told = await client.get("/api/series", 400, stream="home/a", kind="max", **words)
            assert told["error"] == "too_many_rows"
            table = {"Accept": "text/csv"}
            text = await client.text("GET", "/api/series?stream=home/a&rows=2", headers=table)
            lines = text.splitlines()
            assert lines[0] == "time,lo,hi,mid,exact,none,maybe_none" and len(lines) == 3
    run(work())


@pytest.mark.parametrize("words, code", [
    ("", "bad_request"), ("stream=home/b&kind=sum", "unknown_stream"), ("stream=home/a", "bad_request"),
    ("stream=home/a&kind=median", "bad_request"), ("stream=home/a&kind=sum&from=later", "bad_time"),
    ("stream=home/a&kind=sum&from=2025-11-29", "bad_time"),
    ("stream=home/a&kind=sum&from=5&to=4", "bad_range"),
    ("stream=home/a&kind=has", "bad_request"), ("stream=home/a&kind=has&value=x", "bad_request"),
    ("stream=home/a&kind=has&value=1.55", "bad_number"), ("stream=home/a&kind=sum&from=now-1y", "bad_time"),
    ("stream=%00&kind=sum", "unknown_stream"), ("stream=a%0Ab&kind=sum", "unknown_stream")])
def test_questions_that_say_nothing(path: Path, words: str, code: str) -> None:
    async def work() -> None:
        async with over_http(ANY, path) as client:
            await _filled(client, 1)
            status = 404 if code == "unknown_stream" else 400
            told = await client.get("/api/query?" + words, status)
            assert told["error"] == code and told["reason"]
    run(work())


def test_times_in_questions(path: Path) -> None:
    async def work() -> None:
        async with over_http(ANY, path) as client:
            await _filled(client, 10)
            for begin in (str(T + 4), f"{T + 3}.5", "2025-11-29T10:00:04Z", "2025-11-29T11:00:04+01:00",
                          "2025-11-29 11:00:04+01:00"):
                found = await client.get("/api/query", stream="home/a", kind="count", **{"from": begin})
                assert found["lo"] == 6, begin
            lost = "/api/query?stream=home/a&kind=count&from=2025-11-29T11:00:04+01:00"
            assert '"lo":6' in await client.text("GET", lost)
            for begin, count in (("now", 0), ("now-100000h", 10), ("now-5m", 0), ("-5", 10)):
                found = await client.get("/api/query", stream="home/a", kind="count", **{"from": begin})
                assert found["lo"] == count, begin
    run(work())


def test_windows_in_pieces(path: Path) -> None:
    async def work() -> None:
        async with over_http(ANY.replace("2 60 1", "2 4096 1"), path) as client:
            await _filled(client, 1500)
            found = (await client.get("/api/windows", stream="home/a"))["windows"]
            assert len(found) == 1500 and found[-1]["from"] == T + 1499
            assert sum(window["count"] for window in found) == 1500
            assert (await client.get("/api/windows", stream="home/a", limit="200"))["windows"] == found[:200]
            assert (await client.get("/api/windows", stream="home/a", limit="7"))["windows"] == found[:7]
            text = await client.text("GET", "/api/windows?stream=home/a", headers={"Accept": "text/csv"})
            assert len(text.splitlines()) == 1501
            await client.get("/api/windows", 400, stream="home/a", limit="0")
            await client.get("/api/windows", 404, stream="home/b")
            await client.service.store().create("empty", "exp 2 60 1", scale="0.1")
            client.service.intake.streams.learn(await client.service.store().list())
            assert (await client.get("/api/windows", stream="empty"))["windows"] == []
            series = await client.get("/api/series", stream="empty")
            assert series["rows"] == [] and series["step"] is None
    run(work())


def test_landmarks(path: Path) -> None:
    async def work() -> None:
        async with over_http(ANY, path) as client:
            await _filled(client, 3)
            mark = {"stream": "home/a", "action": "open", "time": T + 10}
            assert (await client.post("/api/landmark", mark))["time"] == T + 10
            assert (await client.get("/api/streams"))["streams"][0]["open_landmark"] is True
            assert (await client.post("/api/landmark", mark, 409))["error"] == "landmark_open"
            await client.post("/api/append", {"stream": "home/a", "time": T + 11, "value": "35.5"})
            await client.post("/api/landmark", {**mark, "action": "close", "time": T + 12})
            told = await client.post("/api/landmark", {**mark, "action": "close", "time": T + 13}, 409)
            assert told["error"] == "landmark_not_open"
            told = await client.get("/api/landmarks", stream="home/a")
            assert told == {"stream": "home/a", "landmarks": [{"from": T + 10, "to": T + 12}], "unknown": 0,
                            "values": [{"time": T + 11, "value": Decimal("35.5")}]}
            words = {"from": str(T + 13), "to": str(T + 20)}
            assert (await client.get("/api/landmarks", stream="home/a", **words))["landmarks"] == []
            now = (await client.post("/api/landmark", {"stream": "home/a", "action": "open"}))["time"]
            assert now > T
            await client.post("/api/landmark", {"stream": "home/x", "action": "open"}, 404)
            await client.post("/api/landmark", {"stream": "home/a", "action": "shut"}, 400)
        async with over_http(ANY, path) as client:
            told = await client.get("/api/landmarks", stream="home/a")
            assert told["landmarks"][1] == {"from": now, "to": None}
            await client.post("/api/landmark", {"stream": "home/a", "action": "close"})
            assert (await client.get("/api/streams"))["streams"][0]["open_landmark"] is False
    run(work())


def test_names_that_are_asked_for(path: Path) -> None:
    async def work() -> None:
        async with over_http(ANY, path) as client:
            for name in ("home/a", "home/ä b/c", "home/b"):
                await client.post("/api/append", {"stream": name, "value": 1})
            for pattern, count in (("*", 3), ("home/?", 2), ("*/c", 1), ("x*", 0), ("*" * 200, 3), ("**", 3)):
                found = await client.get("/api/streams", match=pattern)
                assert len(found["streams"]) == count, pattern
            await client.get("/api/streams", 400, match="x" * 1000)
            text = await client.text("GET", "/api/streams", headers={"Accept": "text/csv"})
            assert len(text.splitlines()) == 4
    run(work())


def test_what_clients_of_influxdb_ask(path: Path) -> None:
    async def work() -> None:
        async with over_http(PLAIN, path) as client:
            await client.text("GET", "/ping", 204)
            assert client.headers["X-Influxdb-Version"]
            assert (await client.get("/health"))["status"] == "pass"
            for address, status in (("/ping", 204), ("/healthz", 200), ("/api/streams", 405)):
                assert await client.text("HEAD", address, status) == ""
            assert (await client.get("/query", q='CREATE DATABASE "x"'))["results"]
            form = {"q": "CREATE DATABASE telegraf"}
            async with client.session.post(client.base + "/query", data=form) as answer:
                assert answer.status == 200
            assert (await client.get("/query", 400, q="SELECT * FROM x"))["error"] == "no_influxql"
            assert (await client.post("/write?precision=year", "a b=1", 400))["error"] == "bad_request"
    run(work())


def test_addresses_that_there_are_not(path: Path) -> None:
    async def work() -> None:
        async with over_http("", path) as client:
            for address in ("/nothing", "/api", "/static/../main.py", "/static/%2e%2e/main.py",
                            "/static/..%2fmain.py", "//etc/passwd", "/static/%00"):
                told = await client.get(address, 404)
                assert told["error"] == "no_such_address" and told["reason"]
            assert (await client.post("/api/query", "", 405))["error"] == "method"
            assert (await client.post("/write", "\udcff".encode("utf-8", "surrogateescape"), 400))["reason"]
    run(work())


def test_the_document(path: Path) -> None:
    async def work() -> None:
        async with over_http("", path) as client:
            document = await client.get("/openapi.json")
            told = {(path, method) for path, methods in document["paths"].items() for method in methods}
            ours = {(each.path.replace(":.+", ""), each.method.lower())
                    for each in endpoints_of(client.service)}
            assert told == {each for each in ours if each[0] != "/" and not each[0].startswith("/static/")}
            assert {"/metrics", "/render", "/query", "/health", "/ping"} <= {each[0] for each in told}
    run(work())


def test_events(path: Path) -> None:
    async def work() -> None:
        async with over_http(ANY, path) as client:
            async with client.session.get(client.base + "/api/events?stream=home/a") as answer:
                assert answer.content_type == "text/event-stream"
                lines = answer.content

                async def event() -> tuple[str, str]:
                    while not (kind := (await lines.readline()).decode()).startswith("event: "):
                        pass
                    return kind[7:-1], (await lines.readline()).decode()[6:-1]

                assert (await event())[0] == "health"
                await client.post("/api/append", {"stream": "home/b", "time": T, "value": "1"})
                await client.post("/api/append", {"stream": "home/a", "time": T, "value": "21.50"})
                assert await event() == ("reading", f'{{"stream":"home/a","time":{T},"value":21.5}}')
                await client.post("/api/landmark", {"stream": "home/a", "action": "open", "time": T + 1})
                assert (await event())[0] == "landmark"
                pid = client.service.supervisor.pid
                assert pid is not None
                os.kill(pid, signal.SIGKILL)
                await client.get("/api/streams")
                assert (await event())[0] == "health"
            await asyncio.sleep(0)
    run(work())


def test_too_many_listen(path: Path) -> None:
    async def work() -> None:
        async with over_http(ANY + "[limits]\nsubscribers = 1\n", path) as client:
            async with client.session.get(client.base + "/api/events") as answer:
                assert answer.status == 200
                assert (await client.get("/api/events", 503))["error"] == "busy"
                assert client.headers["Retry-After"]
    run(work())


def test_days_of_a_zone(path: Path) -> None:
    async def work() -> None:
        async with over_http(PLAIN + "within = 86400\n", path) as client:
            begin = 1_774_566_000     # 2026-03-27 in Berlin, where summer begins on the 29th
            body = "".join(f"weather t={at} {begin + at * 3600}\n" for at in range(5 * 24 - 1))
            await client.post("/write?precision=s", body, 204)
            words = {"stream": "weather/t", "kind": "count", "step": "1d", "zone": "Europe/Berlin",
                     "from": "2026-03-27", "to": "2026-03-31"}
            found = await client.get("/api/series", **words)
            assert [(row["until"] - row["time"]) // 3600 for row in found["rows"]] == [24, 24, 23, 24, 24]
            assert found["rows"][0]["time"] == begin and found["step"] == "1d"
            assert found["zone"] == "Europe/Berlin" and "`within 3600` would" in found["notice"]
            assert [row["mid"] for row in found["rows"]] == [24, 24, 23, 24, 24]
            several = {key: word for key, word in words.items() if key != "stream"}
            both = await client.get("/api/series", streams="weather/*", **several)
            assert [(row["time"], row["until"], row["lo"], row["hi"]) for row in both["rows"]] == [
                (row["time"], row["until"], row["lo"], row["hi"]) for row in found["rows"]]
            month = await client.get("/api/series", **{**words, "step": "1mon"})
            assert [row["mid"] for row in month["rows"]] == [5 * 24 - 1]
            fixed = (await client.get("/api/series", **{**words, "step": "24h"}))["rows"]
            assert {after["time"] - row["time"] for row, after in zip(fixed, fixed[1:])} == {86400}
            utc = await client.get("/api/series", **{**words, "zone": "UTC"})
            assert utc["notice"] is None and all(row["exact"] for row in utc["rows"])
            table = await client.text("GET", "/api/series", params=words, headers={"Accept": "text/csv"})
            assert table.splitlines()[0] == "time,until,lo,hi,mid,exact,none,maybe_none"
            for wrong in ({"zone": "Europe/Nowhere"}, {"zone": "Europe"}, {"zone": "../etc/passwd"},
                          {"zone": ""}):
                refused = await client.get("/api/series", 400, **{**words, **wrong})
                assert refused["error"] == "bad_time" and "zone" in refused["reason"]
            del words["zone"]
            assert "give `zone`" in (await client.get("/api/series", 400, **{
                **words, "from": str(begin), "to": "now", "step": "1mon"}))["reason"]
            assert (await client.get("/api/series", 400, **{
                **words, "from": "1900-01-01", "zone": "UTC"}))["error"] == "too_many_rows"
    run(work())


SHOWN = """
[[mapping]]
match = "home/*/door"
stream = "doors/{1}"
shows = "state"
words = { open = 1, ON = 1, shut = 0, unknown = "ignore" }
[[mapping]]
match = "weather/rain"
scale = 0.1
shows = "sum"
[[mapping]]
match = "**"
"""


def test_what_the_page_shows(path: Path) -> None:
    """It is said by the mapping of a stream, which is found by the stream's name, also after a new start."""
    async def work() -> None:
        async with over_http(SHOWN, path) as client:
            await client.post("/api/append", {"readings": [
                {"stream": "home/hall/door", "time": T, "value": 1},
                {"stream": "any/other", "time": T, "value": 2}]})
            await client.post("/write?precision=s", f"weather,place=garden rain=2.5 {T}\n", 204)
        async with over_http(SHOWN, path) as client:
            found = {stream["name"]: (stream["shows"], stream["words"])
                     for stream in (await client.get("/api/streams"))["streams"]}
            assert found == {"doors/hall": ("state", {"1": "open", "0": "shut"}), "any/other": (None, {}),
                             "weather,place=garden/rain": ("sum", {})}
            table = await client.text("GET", "/api/streams", headers={"Accept": "text/csv"})
            assert "words" in table.splitlines()[0]
    run(work())
