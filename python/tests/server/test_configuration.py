"""The configuration: what it says, and each mistake with its file, key and reason."""

from __future__ import annotations

import datetime
from pathlib import Path

import pytest
from hypothesis import given, settings
from hypothesis import strategies as st

from summarystore.server.configuration import Configuration, StoreSettings, parse, read
from summarystore.server.errors import ConfigurationError
from summarystore.server.globs import Glob, GlobError, matches
from summarystore.server.intake import Incoming, Result
from summarystore.server.mapping import Mappings, UnmatchedNames, full_name

from ..waiting import run
from .conftest import ANY, Serving

WHOLE = """
[store]
path = "/var/lib/a.store"
program = "/usr/bin/summarystore"
checked = false
[http]
listen = "[::1]:80"
hosts = ["readings.example"]
[graphite]
listen = "127.0.0.1:2003"
[mqtt]
broker = "broker:1883"
topics = ["home/#"]
client = "c"
user = "u"
password_file = "p"
certificates = "ca.pem"
receive_maximum = 7
[tokens]
file = "tokens"
[limits]
queue = 500
lines = 500
idle_seconds = 1.5
[[mapping]]
match = "home/*/temperature"
source = "mqtt"
tags = { room = "attic*" }
stream = "{1} {room}"
scale = 0.25
time = "minute"
since = 1958-01-01
unit = "°C"
labels = { a = "b" }
rounding = "half-even"
target = "exp 2 60 1"
within = 60
words = { ON = 1, OFF = 0.5 }
json = "a.0"
json_time = "t"
[[mapping]]
match = "**"
ignore = true
"""
LINES = st.sampled_from(WHOLE.splitlines())


def test_all_of_it() -> None:
    found = parse(WHOLE, "a.toml")
    assert found.store == StoreSettings("/var/lib/a.store", "/usr/bin/summarystore", False)
    assert found.http.listen == ("::1", 80) and found.graphite.listen == ("127.0.0.1", 2003)
    assert found.mqtt.receive_maximum == 7 and found.mqtt.certificates == "ca.pem"
    assert found.limits.queue == 500 and found.limits.idle_seconds == 1.5 and found.limits.rows == 2000
    mapping = found.mappings[0]
    assert str(mapping.description.scale) == "0.25" and mapping.description.time == "minute"
    assert mapping.description.since == datetime.date(1958, 1, 1) and mapping.within == 60
    assert mapping.words == {"ON": "1", "OFF": "0.5"} and (mapping.json, mapping.json_time) == ("a.0", "t")
    assert found.mappings[1].ignore and found.mappings[1].target == "power 1 1 4 1"


def test_nothing_is_enough() -> None:
    found = parse("", "a.toml")
    assert found.http.listen == ("127.0.0.1", 8087) and found.graphite.listen is None
    assert found == Configuration("a.toml", mappings=[])


@pytest.mark.parametrize("text, key, reason", [
    ("[", "", "not TOML"),
    ("[stor]\n", "stor", "is 'store' meant"),
    ("store = 1", "[store]", "a table is to stand here"),
    ("[store]\npath = 1", "[store] path", "not 1"),
    ("[store]\npath = ''", "[store] path", "a text"),
    ("[store]\nchecked = 1", "[store] checked", "true or false"),
    ("[http]\nlisten = 8087", "[http] listen", "a text"),
    ("[http]\nlisten = '127.0.0.1'", "[http] listen", "HOST:PORT"),
    ("[http]\nlisten = '::1:80'", "[http] listen", "HOST:PORT"),
    ("[http]\nlisten = 'a:99999'", "[http] listen", "HOST:PORT"),
    ("[http]\nhosts = 'a'", "[http] hosts", "a list of texts"),
    ("[http]\nlisten_to = 'a'", "[http] listen_to", "is 'listen' meant"),
    ("[mqtt]\nbroker = 'a:1'", "[mqtt] topics", "which topics"),
    ("[mqtt]\nreceive_maximum = 0", "[mqtt] receive_maximum", "from 1 to 65535"),
    ("[tokens]\nanyone = 'yes'", "[tokens] anyone", "true or false"),
    ("[limits]\nqueue = true", "[limits] queue", "not True"),
    ("[limits]\nqueue = -1", "[limits] queue", "not -1"),
    ("[limits]\nqueue = 5", "[limits] lines", "more than the queue"),
    ("[limits]\nidle_seconds = 'a'", "[limits] idle_seconds", "seconds"),
    ("mapping = 1", "[[mapping]]", "an array of tables"),
    ("[[mapping]]", "[[mapping]] 1 match", "a pattern"),
    ("[[mapping]]\nmatch='a'\n[[mapping]]\nmatch='a**'", "[[mapping]] 2 match", "a level of its own"),
    ("[[mapping]]\nmatch='**/**'", "[[mapping]] 1 match", "at most once"),
    ("[[mapping]]\nmatch='a'\nsource='fax'", "[[mapping]] 1 source", "one of http"),
    ("[[mapping]]\nmatch='a'\nstream='{1}'", "[[mapping]] 1 stream", "the pattern has 0 stars"),
    ("[[mapping]]\nmatch='*'\nstream='{01}'", "[[mapping]] 1 stream", "{01}"),
    ("[[mapping]]\nmatch='a'\nstream='{}'", "[[mapping]] 1 stream", "a place is"),
    ("[[mapping]]\nmatch='a'\nstream='{a'", "[[mapping]] 1 stream", "a brace"),
    ("[[mapping]]\nmatch='a'\ntarget='exp 2 1'", "[[mapping]] 1 target", "`exp B R S`"),
    ("[[mapping]]\nmatch='a'\nshows='pie'", "[[mapping]] 1 shows", "one of sum, increase, mean, state"),
    ("[[mapping]]\nmatch='a'\nscale=0", "[[mapping]] 1 scale", "more than 0"),
    ("[[mapping]]\nmatch='a'\nscale='x'", "[[mapping]] 1 scale", "not a number"),
    ("[[mapping]]\nmatch='a'\nscale=nan", "[[mapping]] 1 scale", "not a number"),
    ("[[mapping]]\nmatch='a'\ntime='year'", "[[mapping]] 1 scale", "no resolution"),
    ("[[mapping]]\nmatch='a'\nsince='soon'", "[[mapping]] 1 scale", "a day"),
    ("[[mapping]]\nmatch='a'\nsince=5", "[[mapping]] 1 scale", "a day"),
    ("[[mapping]]\nmatch='a'\nrounding='up'", "[[mapping]] 1 scale", "no rounding"),
    ("[[mapping]]\nmatch='a'\nwords={ON=true}", "[[mapping]] 1 words", "a number"),
    ("[[mapping]]\nmatch='a'\nwords=1", "[[mapping]] 1 words", "a table"),
    ("[[mapping]]\nmatch='a'\ntags={a='**b'}", "[[mapping]] 1 tags", "level"),
    ("[[mapping]]\nmatch='a'\njson_time='t'", "[[mapping]] 1 json_time", "without `json`"),
    ("[[mapping]]\nmatch='a'\nwithin=0", "[[mapping]] 1 within", "from 1"),
    ("[[mapping]]\nmatch='a'\nwithin=4294967296", "[[mapping]] 1 within", "to 4294967295"),
    ("[[mapping]]\nmatch='a'\nmatches='a'", "[[mapping]] 1 matches", "is 'match' meant"),
    ("x = 9" + "9" * 5000, "", "not TOML")])
def test_mistakes(text: str, key: str, reason: str) -> None:
    with pytest.raises(ConfigurationError) as met:
        parse(text, "a.toml")
    assert met.value.file == "a.toml" and met.value.key.startswith(key), met.value
    assert reason in met.value.reason and str(met.value).startswith("a.toml: ")


def test_files_that_cant_be_read(folder: Path) -> None:
    for file, reason in (("none", "No such file"), (".", "Is a directory"), ("a\0b", "null")):
        with pytest.raises(ConfigurationError, match=reason):
            read(str(folder / file) if "\0" not in file else file)
    (folder / "a").write_bytes(b"\xff")
    with pytest.raises(ConfigurationError, match="UTF-8"):
        read(str(folder / "a"))


@settings(max_examples=200)
@given(st.one_of(st.text(max_size=200), st.lists(LINES, max_size=12).map("\n".join),
                 st.tuples(LINES, st.text(max_size=5)).map("".join)))
def test_any_text_is_a_configuration_or_a_mistake(text: str) -> None:
    try:
        parse(text, "a.toml")
    except ConfigurationError as error:
        assert error.reason


@pytest.mark.parametrize("pattern, name, found", [
    ("a", "a", []), ("a", "b", None), ("*", "a", ["a"]), ("*", "a.b", None), ("*.*", "a.b", ["a", "b"]),
    ("home/*/t", "home/a.b/t", ["a.b"]), ("home/*/t", "home/a/b/t", None), ("home/**", "home/a/b", ["a/b"]),
    ("home/**", "home", None), ("**/t", "a/b/t", ["a/b"]), ("a/**/t", "a/t", None),
    ("**", "a/b.c", ["a/b.c"]),
    ("a*c*", "abcd", ["b", "d"]), ("a*c", "acc", ["c"]), ("?", "ab", None), ("a?", "ab", []),
    ("a*b*c", "abbc", ["", "b"]), ("a*a", "a", None), ("servers.*.load", "servers.web-1.load", ["web-1"]),
    ("*b", "bb", ["b"]), ("x*", "y", None), ("a/*", "a/", [""])])
def test_patterns(pattern: str, name: str, found: list[str] | None) -> None:
    glob = Glob(pattern)
    assert glob.match(name) == found
    assert glob.captures == pattern.replace("**", "*").count("*")


@settings(max_examples=300)
@given(st.text("ab*?/.", min_size=1, max_size=8), st.text("ab/.", max_size=8))
def test_what_a_pattern_stood_for_makes_the_name(pattern: str, name: str) -> None:
    try:
        glob = Glob(pattern)
    except GlobError:
        return
    found = glob.match(name)
    if found is not None and "?" not in pattern:
        parts = iter(found)
        assert "".join(next(parts) if piece == "*" else piece for piece in pattern.replace("**", "*")) == name


@settings(max_examples=300)
@given(st.text("ab*?", min_size=1, max_size=8), st.text("ab", max_size=10))
def test_patterns_of_clients(pattern: str, name: str) -> None:
    import fnmatch
    assert matches(pattern, name) == fnmatch.fnmatchcase(name, pattern)


def test_a_hostile_pattern_takes_no_time() -> None:
    assert not matches("a*" * 250 + "b", "a" * 5000)
    assert Glob("a" + "*a" * 16 + "b").match("a" * 5000) is None


def test_routes() -> None:
    mappings = Mappings(parse("""
        [[mapping]]
        match = "weather/*"
        tags = { room = "a*" }
        stream = "{room}: {1} of {name}"
        [[mapping]]
        match = "weather/*"
        stream = "in {floor}"
        [[mapping]]
        match = "weather/*"
        source = "mqtt"
        [[mapping]]
        match = "zigbee/*"
        json = "temperature"
        stream = "{1}/temperature"
        [[mapping]]
        match = "zigbee/*"
        json = "humidity"
        stream = "{1}/humidity"
        [[mapping]]
        match = "weather/secret"
        ignore = true
    """, "a").mappings)

    def route(name: str, source: str = "influx", **tags: str) -> str | None:
        found = mappings.route(name, tags, source)
        return None if found is None else found.stream

    assert route("weather/t", room="attic") == "attic: t of weather/t"
    assert route("weather/t", room="cellar") is None
    assert route("weather/t", floor="1") == "in 1"
    assert route("weather/t", "mqtt", x="1", a="2") == "weather,a=2,x=1/t"
    assert route("zigbee/a", "mqtt") is None and route("other") is None
    found = mappings.json_routes("zigbee/a", "mqtt")
    assert [each.stream for each in found] == ["a/temperature", "a/humidity"]
    assert full_name("t", {"b": "1", "a": "2"}) == "t,a=2,b=1"


def test_unmatched_names_are_bounded() -> None:
    names = UnmatchedNames(2)
    new = [names.add(name, "http", at) for at, name in enumerate("aabcc")]
    assert new == [True, False, True, False, False]
    assert (names.count, names.unlisted, len(names.list())) == (5, 2, 2)


def test_what_is_ignored(serving: Serving) -> None:
    async def work() -> None:
        async with serving(ANY + '[[mapping]]\nmatch = "noise/**"\nignore = true\n') as service:
            found = await service.intake.append(Incoming("noise/a", "no number", 1))
            assert found.result is Result.IGNORED and found.final and not found.good
            assert service.unmatched.count == 0 and not await service.store().list()
    run(work())


def test_the_mapping_is_read_anew(serving: Serving, folder: Path) -> None:
    file = folder / "a.toml"

    async def work() -> None:
        file.write_text("[http]\n")
        async with serving(ANY) as service:
            assert not service.reload()         # there is no such file
            assert service.mapping_error and "test.toml" in service.mapping_error
            object.__setattr__(service.configuration, "file", str(file))
            assert service.reload() and service.mapping_error is None
            assert (await service.intake.append(Incoming("home/a", "1", 1))).code == "unmatched"
            file.write_text(ANY + "scale = 7\n")
            assert not service.reload() and "a.toml" in str(service.mapping_error)
            assert (await service.intake.append(Incoming("home/a", "1", 1))).code == "unmatched"
            file.write_text(ANY)
            assert service.reload()
            assert (await service.intake.append(Incoming("home/a", "1", 1))).good
    run(work())


def test_a_mapping_brings_its_unit_to_a_stream_that_stands(serving: Serving) -> None:
    async def work() -> None:
        async with serving('[[mapping]]\nmatch = "a"\nscale = 0.1\nunit = "K"') as service:
            assert (await service.intake.append(Incoming("a", "1.5", 10**9))).good
        other = '[[mapping]]\nmatch = "a"\nscale = 0.1\nunit = "°C"\nrounding = "floor"'
        async with serving(other) as service:
            assert (await service.intake.append(Incoming("a", "1.55", 2 * 10**9))).good
            told = service.store().description("a")
            assert told is not None and (told.unit, told.rounding) == ("°C", "floor")
    run(work())
