"""Late readings of one stream, held back and sorted before they are stored."""

from __future__ import annotations

import threading
from concurrent.futures import Future
from types import TracebackType
from typing import TYPE_CHECKING, NamedTuple, Self

from . import calls
from .codec import Codec
from .errors import ProcessEndedError, ProtocolError, refusal_of
from .late import ReorderBuffer
from .records import Stored
from .wire import stored_of

if TYPE_CHECKING:
    from .channel import Channel


class Held(NamedTuple):
    """A reading that isn't stored yet."""

    line: str
    future: Future[Stored]


class Reordered:
    """A bounded buffer before a stream. What it holds isn't acknowledged.

    `append` gives a Future, which is done when the reading is stored or refused. The end of the `with`
    stores all that is held.
    """

    def __init__(self, store: Channel, codec: Codec, lateness: object, most: int) -> None:
        self._store = store
        self._codec = codec
        self._lock = threading.RLock()      # what a Future calls when it is done may append
        self._buffer: ReorderBuffer[Held] = ReorderBuffer(codec.step(lateness), most)

    def __len__(self) -> int:
        return len(self._buffer)

    def append(self, time: object, value: object) -> Future[Stored]:
        """Takes a reading, and stores those that are old enough by now."""
        line = calls.append(self._codec, time, value).lines[0]
        held = Held(line, Future())
        held.future.set_running_or_notify_cancel()      # a reading that is held can't be taken back
        with self._lock:
            self._send(self._buffer.put(self._codec.time(time), held))
        return held.future

    def flush(self) -> None:
        """Stores all that is held."""
        with self._lock:
            self._send(self._buffer.flush())

    def _send(self, items: list[Held]) -> None:
        if not items:
            return
        try:
            request = self._store.send([item.line for item in items])
        except BaseException as failed:
            for item in items:
                item.future.set_exception(failed)
            raise
        for item, reply in zip(items, request.replies):
            if reply.head.startswith("refused "):
                item.future.set_exception(refusal_of(reply.head[8:], item.line))
            else:
                item.future.set_result(stored_of(reply))
        error = request.error
        for at, item in enumerate(items[len(request.replies):], len(request.replies)):
            item.future.set_exception(_of_one(error, item.line, at < request.written))
        if error is not None:
            raise error

    def __enter__(self) -> Self:
        return self

    def __exit__(self, kind: type[BaseException] | None, error: BaseException | None,
                 trace: TracebackType | None) -> None:
        self.flush()


def _of_one(error: BaseException | None, line: str, sent: bool) -> BaseException:
    """What became of one line where the program ended."""
    if not isinstance(error, ProcessEndedError):
        return error or ProtocolError(f"no reply to {line}")
    one = type(error)(error.status, error.text)
    if sent:
        one.unknown = [line]
    else:
        one.not_stored = [line]
    return one
