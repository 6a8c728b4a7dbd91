"""Who may read, write, and drop streams: tokens out of a file, compared in constant time.

Each line of the file is `read TOKEN`, `write TOKEN` or `admin TOKEN`, where TOKEN has 16 characters at
least. What begins with `#` is a comment. Who may write may read, too, and `admin` may do all. A file
that others can read is refused.
"""

from __future__ import annotations

import base64
import binascii
import hashlib
import hmac
from collections.abc import Iterator, Mapping, Sequence

from .endpoints import Access
from .errors import ConfigurationError
from .private import private_lines

SHORTEST = 16
LONGEST = 1024


class Tokens:
    """The tokens of a file. Without a file everybody may do all; but where the service is open to
    `anyone` beyond its machine nobody may drop streams."""

    def __init__(self, tokens: Sequence[tuple[Access, str]] | None, anyone: bool = False) -> None:
        self.needed = tokens is not None
        self._anyone = anyone
        self._hashes = [(access, _hash(token)) for access, token in tokens or ()]

    def allow(self, access: Access, headers: Mapping[str, str], words: Mapping[str, str]) -> bool:
        """Whether a request that says this may have this access."""
        if access is Access.OPEN:
            return True
        if not self.needed:
            return not (self._anyone and access is Access.ADMIN)
        allowed = False
        for given in given_tokens(headers, words):
            allowed |= self._knows(access, _hash(given))
        return allowed

    def _knows(self, access: Access, given: bytes) -> bool:
        """Whether a token is known. All are compared, whichever it is."""
        known = False
        for may, token in self._hashes:
            same = hmac.compare_digest(token, given)
            known |= same and may.allows(access)
        return known


def _hash(token: str) -> bytes:
    return hashlib.sha256(token.encode("utf-8", "surrogateescape")).digest()


def given_tokens(headers: Mapping[str, str], words: Mapping[str, str]) -> Iterator[str]:
    """The tokens that a request has: by `Authorization`, or by the words `u` and `p` of InfluxDB 1."""
    kind, _, rest = headers.get("Authorization", "").partition(" ")
    rest = rest.strip()
    if rest and len(rest) <= LONGEST:
        if kind.lower() in ("bearer", "token"):
            yield rest
        elif kind.lower() == "basic":
            yield from _of_basic(rest)
    if 0 < len(words.get("p", "")) <= LONGEST:
        yield words["p"]


def _of_basic(text: str) -> Iterator[str]:
    """The password of the basic form, whoever the user is."""
    try:
        said = base64.b64decode(text, validate=True).decode("utf-8")
    except (binascii.Error, ValueError):
        return
    yield said.partition(":")[2]


def read_tokens(file: str | None, anyone: bool = False) -> Tokens:
    """The tokens of a file. Raises ConfigurationError where it can't be used."""
    if file is None:
        return Tokens(None, anyone)
    return Tokens([_token(file, number, line) for number, line in private_lines(file, "token")])


def _token(file: str, number: int, line: str) -> tuple[Access, str]:
    words = line.split()
    if len(words) != 2 or words[0] not in ("read", "write", "admin"):
        raise ConfigurationError(file, f"line {number}",
                                 "`read TOKEN`, `write TOKEN` or `admin TOKEN` is to stand here")
    if not SHORTEST <= len(words[1]) <= LONGEST:
        raise ConfigurationError(file, f"line {number}", f"a token has {SHORTEST} to {LONGEST} characters")
    return Access(words[0]), words[1]
