"""A table of a TOML file, read key by key. Each mistake is told with its file, key and reason."""

from __future__ import annotations

import difflib
import re
from collections.abc import Mapping, Sequence
from decimal import Decimal

from ..clock import span_of
from ..errors import TimeError
from .errors import ConfigurationError

ADDRESS = re.compile(r"(?:\[([0-9a-fA-F:.]+)\]|([^\s:/\[\]]+)):([0-9]{1,5})")
Address = tuple[str, int]


def address_of(text: str) -> Address | None:
    """HOST:PORT, or [HOST]:PORT where the host is one of IPv6. None where it is neither."""
    found = ADDRESS.fullmatch(text)
    if not found or int(found[3]) > 65535:
        return None
    return found[1] or found[2], int(found[3])


class Table:
    """One table of a file. What was asked for is known, and what is left over is a mistake."""

    def __init__(self, file: str, name: str, given: object) -> None:
        self._file = file
        self._name = name
        if not isinstance(given, dict):
            raise ConfigurationError(file, name, "a table is to stand here")
        self._given: Mapping[str, object] = given
        self._known: set[str] = set()

    def wrong(self, key: str, reason: str) -> ConfigurationError:
        """The mistake of a key."""
        return ConfigurationError(self._file, f"{self._name} {key}".strip(), reason)

    def take(self, key: str) -> object | None:
        """What stands at a key, as it is."""
        self._known.add(key)
        return self._given.get(key)

    def text(self, key: str) -> str | None:
        """A text that isn't empty."""
        found = self.take(key)
        if found is not None and (not isinstance(found, str) or not found or "\0" in found):
            raise self.wrong(key, f"a text is to stand here, and not {shown(found)}")
        return found

    def texts(self, key: str) -> tuple[str, ...]:
        """A list of texts."""
        found = self.take(key)
        if found is None:
            return ()
        if not isinstance(found, list) or not all(isinstance(each, str) and each for each in found):
            raise self.wrong(key, f"a list of texts is to stand here, and not {shown(found)}")
        return tuple(found)

    def words(self, key: str) -> dict[str, str]:
        """A table of texts."""
        found = self.take(key)
        if found is None:
            return {}
        if not isinstance(found, dict) or not all(isinstance(each, str) for each in found.values()):
            raise self.wrong(key, f"a table of texts is to stand here, and not {shown(found)}")
        return dict(found)

    def whole(self, key: str, least: int, most: int) -> int | None:
        """A whole number from `least` to `most`."""
        found = self.take(key)
        if found is None:
            return None
        if not isinstance(found, int) or isinstance(found, bool) or not least <= found <= most:
            raise self.wrong(key, f"a whole number from {least} to {most} is to stand here, and not "
                                  f"{shown(found)}")
        return found

    def seconds(self, key: str, least: int, most: int) -> float | None:
        """A number of seconds from `least` to `most`."""
        found = self.take(key)
        if found is None:
            return None
        if not isinstance(found, (int, Decimal)) or isinstance(found, bool) or not least <= found <= most:
            raise self.wrong(key, f"{least} to {most} seconds are to stand here, and not {shown(found)}")
        return float(found)

    def span(self, key: str, otherwise: int) -> int:
        """A span of time such as `10s`, in nanoseconds."""
        found = self.text(key)
        try:
            return otherwise if found is None else span_of(found)
        except TimeError:
            raise self.wrong(key, f"a span of time such as \"10s\" is to stand here, and not {shown(found)}"
                             ) from None

    def __contains__(self, key: str) -> bool:
        return key in self._given

    def decimal(self, key: str) -> str | None:
        """A decimal, as a number or as a text."""
        found = self.take(key)
        if found is None:
            return None
        if isinstance(found, bool) or not isinstance(found, (int, str, Decimal)):
            raise self.wrong(key, f"a decimal is to stand here, and not {shown(found)}")
        return str(found)

    def truth_told(self, key: str) -> bool | None:
        """`true` or `false`."""
        found = self.take(key)
        if not isinstance(found, bool) and found is not None:
            raise self.wrong(key, f"true or false is to stand here, and not {shown(found)}")
        return found

    def truth(self, key: str) -> bool:
        """`true` or `false`, and `false` where nothing stands."""
        return bool(self.truth_told(key))

    def address(self, key: str) -> Address | None:
        """HOST:PORT."""
        found = self.text(key)
        if found is None:
            return None
        address = address_of(found)
        if address is None:
            raise self.wrong(key, f"HOST:PORT is to stand here, and not {shown(found)}")
        return address

    def end(self) -> None:
        """All keys were asked for. Raises where others stand there."""
        for key in self._given:
            if key not in self._known:
                near = difflib.get_close_matches(key, self._known, 1)
                raise self.wrong(key, f"there is no such key{f'; is {near[0]!r} meant?' if near else ''}")


def shown(value: object) -> str:
    """A value of a file as it is shown in a mistake."""
    text = repr(value) if isinstance(value, (str, list, dict)) else str(value)
    return text if len(text) <= 60 else f"{text[:57]}..."


def rows_of(file: str, name: str, given: object) -> Sequence[Table]:
    """The tables of an array of tables."""
    if given is None:
        return ()
    if not isinstance(given, list):
        raise ConfigurationError(file, f"[[{name}]]", "an array of tables is to stand here")
    return [Table(file, f"[[{name}]] {number}", each) for number, each in enumerate(given, 1)]
