"""What the payload of a broker's message says: a number at its place, a time, or why there is none."""

from __future__ import annotations

import json
from decimal import Decimal

import pytest
from hypothesis import given
from hypothesis import strategies as st

from summarystore.server.mqtt_payload import PayloadError, json_of, path_of, text_of, time_in, word_in


@pytest.mark.parametrize("payload, path, word", [
    ('{"temperature": 21.50}', "temperature", "21.50"),
    ('{"ENERGY": {"Power": 1e3}}', "ENERGY.Power", "1e3"),
    ('{"list": [{"v": 1}, {"v": 12345678901234567890}]}', "list[1].v", "12345678901234567890"),
    ('{"list": [[1, 2], [3, 4]]}', "list.1[0]", "3"),
    ('{"a/b": {"c~d": "7.5 "}}', "/a~1b/c~0d", "7.5"),
    ('{"state": "ON"}', "state", "ON"), ('{"state": true}', "state", "true"), ('{"v": null}', "v", "null"),
    ('{"0": 5}', "0", "5"), ("[5]", "[0]", "5"),
    ("0.1000000000000000000001", "", "0.1000000000000000000001")])
def test_word_of_json(payload: str, path: str, word: str) -> None:
    assert word_in(json_of(payload), path_of(path) if path else ()) == word


@pytest.mark.parametrize("payload, path, code", [
    ('{"a": 1}', "b", "nothing_there"), ('{"a": [1]}', "a[1]", "nothing_there"),
    ('{"a": 1}', "a.b", "nothing_there"),
    ('{"a": {"b": 1}}', "a", "not_a_number"), ('{"a": [1]}', "a", "not_a_number"), ("{", "a", "not_json"),
    ("unavailable", "a", "not_json"), ('{"a": NaN}', "a", "not_json"), ('{"a": 1, "a": 2}', "a", "not_json"),
    ('{"a": Infinity}', "a", "not_json"), ("[" * 60_000, "a", "not_json")])
def test_no_word_of_json(payload: str, path: str, code: str) -> None:
    with pytest.raises(PayloadError) as error:
        word_in(json_of(payload), path_of(path))
    assert error.value.code == code


@pytest.mark.parametrize("payload, code", [(b"", "empty"), (b" \n", "empty"), (b"\xff\xfe", "not_utf8"),
                                           (b"1" * 70_000, "too_large")])
def test_no_text(payload: bytes, code: str) -> None:
    with pytest.raises(PayloadError) as error:
        text_of(payload)
    assert error.value.code == code


@pytest.mark.parametrize("path", ["", ".", "a.", "a..b", "[x]", "a[", "a]b", "a[1]b"])
def test_no_path(path: str) -> None:
    with pytest.raises(ValueError):
        path_of(path)


@pytest.mark.parametrize("told, moment", [
    ('"2026-11-29T10:00:00Z"', 1795946400 * 10**9), ('"2026-11-29T11:00:00.5+01:00"', 1795946400500000000),
    ("1795946400", 1795946400 * 10**9), ("1795946400.25", 1795946400250000000),
    ("1795946400123", 1795946400123 * 10**6), ("1795946400123456789", 1795946400123456789),
    ('"1795946400"', 1795946400 * 10**9)])
def test_time_of_json(told: str, moment: int) -> None:
    assert time_in(json_of(f'{{"t": {told}}}'), path_of("t")) == moment


@pytest.mark.parametrize("told", ['"2026-11-29T10:00:00"', '"soon"', "-5", "true", '""', "1e30", "[1]"])
def test_no_time_of_json(told: str) -> None:
    with pytest.raises(PayloadError):
        time_in(json_of(f'{{"t": {told}}}'), path_of("t"))


JSON = st.recursive(st.none() | st.booleans() | st.integers() | st.floats() | st.text(max_size=5),
                    lambda inner: st.lists(inner, max_size=3) | st.dictionaries(st.text(max_size=3), inner,
                                                                                max_size=3), max_leaves=8)


@given(st.binary(max_size=60) | JSON.map(lambda value: json.dumps(value).encode()),
       st.sampled_from(["a", "a.b", "[0]", "/a/0", "0"]))
def test_any_payload(payload: bytes, path: str) -> None:
    """A payload has a word, or is refused with a reason."""
    try:
        value = json_of(text_of(payload))
        word_in(value, path_of(path))
        time_in(value, path_of(path))
    except PayloadError as error:
        assert error.code and str(error)


@given(st.decimals(allow_nan=False, allow_infinity=False))
def test_no_digit_of_json_is_lost(number: Decimal) -> None:
    assert word_in(json_of(f'{{"v": {number}}}'.replace("+", "")), ("v",)) == str(number).replace("+", "")
