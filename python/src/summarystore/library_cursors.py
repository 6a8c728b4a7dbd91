"""Cursors over the library: the windows of a stream as they were at the opening, which are kept here."""

from __future__ import annotations

import re
from collections.abc import Callable, Hashable
from typing import NamedTuple

from .wire import MOST_ROWS, Reply

COUNT = re.compile(r"0*([1-9][0-9]{0,3})")


class Cursor(NamedTuple):
    """The line that was done last, its reply, the text of all windows, and where the next one begins."""

    line: Hashable
    reply: Reply
    text: bytearray
    at: int


class Cursors:
    """The cursor of each session. Lines have names, so that one that was done isn't done again."""

    def __init__(self) -> None:
        self._open: dict[int, Cursor] = {}

    def reply(self, session: int, named: Hashable, line: str, ask: Callable[[str], tuple[str, bytearray]]
              ) -> Reply | None:
        """The reply to a line of a session: None where it is about no cursor."""
        if "cursor" not in line:
            return None
        cursor = self._open.get(session)
        if cursor is not None and cursor.line == named:
            return cursor.reply
        match re.findall("[^ \t]+", line):
            case ["cursor", "open", _] if cursor is not None:
                return Reply("refused BUSY")
            case ["cursor", "open", name]:
                return self._opened(session, named, *ask(f"windows {name}"))
            case ["cursor", "next", count]:
                return self._next(session, named, count, cursor)
            case ["cursor", "close"]:
                return Reply("refused NO_CURSOR" if self._open.pop(session, None) is None else "closed")
            case ["cursor", *_]:
                return Reply("refused SYNTAX")
        return None

    def _opened(self, session: int, named: Hashable, head: str, text: bytearray) -> Reply:
        if head.startswith("refused "):
            return Reply(head)
        reply = Reply(head.replace("windows", "cursor", 1))
        self._open[session] = Cursor(named, reply, text, 0)
        return reply

    def _next(self, session: int, named: Hashable, word: str, cursor: Cursor | None) -> Reply:
        found = COUNT.fullmatch(word)
        count = int(found[1]) if found is not None else 0
        if not 1 <= count <= MOST_ROWS:
            return Reply("refused NUMBER")
        if cursor is None:
            return Reply("refused NO_CURSOR")
        rows: list[str] = []
        end = cursor.at
        while len(rows) < count and end < len(cursor.text):
            begin, end = end, cursor.text.index(b"\n", end) + 1
            rows.append(cursor.text[begin:end - 1].decode("ascii"))
        reply = Reply(f"rows {len(rows)}", rows)
        self._open[session] = Cursor(named, reply, cursor.text, end)
        return reply
