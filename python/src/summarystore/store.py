"""A store for threads: calls wait for their replies."""

from __future__ import annotations

import threading
from collections.abc import Iterator, Mapping, Sequence
from contextlib import contextmanager
from datetime import date
from functools import partial
from itertools import islice
from time import sleep
from types import TracebackType
from typing import TYPE_CHECKING, Self, cast

from . import calls
from .channel import LOOK_AGAIN, Channel
from .codec import Codec
from .cursor import Windows
from .description import Description, brought_to, changed, description_of
from .errors import (CursorBusyError, LateError, RefusedError, StreamExistsError, StreamNameError,
                     SummaryStoreError, UnknownStreamError)
from .frames import columns_of, frame_of, names_left, rows_of
from .gauges import (BESIDE, GaugeCodec, gauge_of, increments_name, increments_of, must_stand_alone,
                     standing_of, taking, with_increments)
from .handle import Handle
from .late import MOST_HELD
from .meters import counting, must_not_count
from .outcome import tell
from .present import UNSAID, next_free, reading_of
from .program import find_program
from .questions import Questions
from .records import Soundness, Stored
from .sending import OPEN, OnRefused, Sending

if TYPE_CHECKING:
    from .reordered import Reordered


class Store(Channel, Questions):
    """A store. Threads may share it. `summarystore.open` makes one that knows names and scales.

    Alone, this class takes and gives whole numbers and the program's own names.
    """

    def __enter__(self) -> Self:
        return self

    def __exit__(self, kind: type[BaseException] | None, error: BaseException | None,
                 trace: TracebackType | None) -> None:
        self.close()

    def __repr__(self) -> str:
        state = "closed" if self._closed else "open"
        return f"<summarystore.Store {self.path}, {state}>"

    def __getitem__(self, name: str) -> Handle:
        """One stream. Raises UnknownStreamError, a LookupError, where none stands."""
        if name not in self:
            raise UnknownStreamError("UNKNOWN", repr(name))
        return Handle(self, name)

    def __contains__(self, name: object) -> bool:
        try:
            self._do(calls.last_numbers(self._translator.codec(cast(str, name))))
        except (UnknownStreamError, StreamNameError):
            return False
        return True

    def __iter__(self) -> Iterator[str]:
        """The names of the streams, in the order in which they were made."""
        return iter([stream.name for stream in self.list()])

    # ---- events -------------------------------------------------------------------------

    def create(self, name: str, target: str | Sequence[object], within: int | None = None, *,
               scale: object | None = None, time: str | None = None, since: date | str | None = None,
               unit: str | None = None, labels: Mapping[str, str] | None = None,
               rounding: str | None = None, exist_ok: bool = False,
               kind: str | None = None, overflow: object | None = None,
               integrate: str | None = None, rule: str | None = None) -> Stored:
        """Makes a stream with a target such as `power 1 1 4 1` or ("exp", 2, 60, 1). No window of it crosses
        a multiple of `within`, in the unit of its times: of seconds, 86400 keeps to whole days in UTC.

        With `exist_ok` one that stands may be the same one: its target, its scale and its times have to
        be those. Its unit, labels and rounding are changed to what is given. Readings of the kind
        `counter` are joined over resets, and over what it overflows at, so that what is kept rises. Those of
        a `gauge` are integrated over the span `integrate`, as `h`, by the rule `step` or `trapezoid`.
        """
        description = description_of(scale=scale, time=time, since=since, unit=unit, labels=labels,
                                     rounding=rounding, kind=kind, overflow=overflow, integrate=integrate,
                                     rule=rule)
        self._ready()
        codec = self._declared(name, description, target, within)
        try:
            made = self._do(calls.create(codec, target, within))
        except (RefusedError, TypeError, ValueError) as error:
            self._translator.unmade(name, codec)
            if not exist_ok or not isinstance(error, StreamExistsError):
                raise
            changes = brought_to(self.description(name), description, name)
            stands = self._do(calls.standing(self._translator, name, target, within))
            if changes is not None:
                self._translator.describe(name, changes)
            return stands
        self._translator.made(name, codec)
        return made

    def _declared(self, name: str, description: Description | None, target: str | Sequence[object],
                  within: int | None) -> Codec:
        """How a stream that is to be made is read. That of a gauge's increments is made before it."""
        if description is None or gauge_of(description) is None:
            return self._translator.declare(name, description)
        must_stand_alone(target)
        other = name + BESIDE
        beside = self._translator.declare(other, increments_of(description))
        wanted = with_increments(description, beside.short)
        codec = self._translator.declare(name, wanted)
        if codec.description == wanted:
            try:
                self._do(calls.create(beside, target, within))
            except StreamExistsError:
                pass
            except (RefusedError, TypeError, ValueError):
                self._translator.unmade(other, beside)
                self._translator.unmade(name, codec)
                raise
            self._translator.made(other, beside)
        return codec

    def describe(self, name: str, *, unit: str | None = None, labels: Mapping[str, str] | None = None,
                 rounding: str | None = None) -> None:
        """Changes what is given of a described stream. Its scale and its times can't be changed."""
        self._ready()
        known = self.description(name) or Description()
        self._translator.describe(name, changed(known, unit, labels, rounding))

    def rename(self, name: str, new: str) -> None:
        """Gives a described stream another long name, for all that it holds and will take."""
        self._ready()
        beside = increments_name(self._translator, self._translator.codec(name))
        self._translator.rename(name, new)
        if beside is not None:
            self._translator.rename(beside, new + BESIDE)

    def append(self, name: str, time: object = UNSAID, value: object = UNSAID) -> Stored:
        """Takes a value at a time later than all before, or without a time now. It is on the disk when
        this returns.

        Where a reading stands at the present step, one without a time goes to the next free step, at most
        a second ahead of the clock. Raises LateError, with the newest time, where the time isn't later.
        """
        time, value = reading_of(time, value)
        codec = self._translator.codec(name)
        if time is not UNSAID:
            return self._append(name, codec, time, value)
        count = codec.now()
        while True:
            try:
                return self._append(name, codec, count, value)
            except LateError as error:      # a reading stands there, or another one came first
                count, wait = next_free(codec, error)
            sleep(wait)

    def _append(self, name: str, codec: Codec, time: object, value: object) -> Stored:
        try:
            with self._taking(codec, name) as taking:
                if isinstance(taking, GaugeCodec):
                    return self._do(taking.append(time, value))
                return self._do(calls.append(taking, time, value))
        except LateError as error:
            self._tell_newest(codec, [error])
            raise

    def _tell_newest(self, codec: Codec, late: Sequence[LateError]) -> None:
        """Puts the newest time of a stream into refusals."""
        if late:
            try:
                found = self._do(calls.last_numbers(codec))
            except SummaryStoreError:
                return      # what became of the rows is told, and the newest time isn't
            for error in late:
                error.newest = codec.time_back(found[0]) if found else None

    def append_many(self, name: object, rows: object = None, *, refused: OnRefused | None = None,
                    lateness: object | None = None) -> int:
        """Takes rows of a time and a value, without waiting for each. Gives how many were stored.

        Rows are pairs, or a dict, or a pandas Series. A pandas DataFrame stands alone: its index has the
        times, and each of its columns is the stream of its name. All are on the disk when this returns. With
        `refused` it is called with each row that is refused, and its exception. Without it no more rows
        are sent then, and RowsRefusedError is raised. With `lateness` rows that are late by at most so
        much are sorted. Where something else cuts it off, as an interrupt does, `outcome_of` that
        exception says what became of the rows that were drawn.
        """
        frame = frame_of(name)
        if frame is None:
            codec = self._translator.codec(cast(str, name))
            with self._taking(codec, cast(str, name)) as taking:
                return self.append_rows(taking, rows_of(rows), refused, lateness)
        stored, columns = 0, columns_of(frame)
        codecs = [self._translator.codec(column) for column, _ in columns]
        for at, (codec, (column, readings)) in enumerate(zip(codecs, columns)):
            try:
                with self._taking(codec, column) as taking:
                    stored += self.append_rows(taking, readings, refused, lateness)
            except BaseException as error:
                names_left(error, [name for name, _ in columns], at)
                raise
        return stored

    @contextmanager
    def _taking(self, codec: Codec, name: str) -> Iterator[Codec]:
        """The codec of a stream that takes readings: that of a meter knows what stands, and is alone."""
        if codec.description is None or codec.description.meter is None:
            yield codec
            return
        with self._alone[name]:
            keep = partial(self._translator.keep_joins, name)
            if gauge_of(codec.description) is not None:
                stands = self._do(standing_of(codec))
                yield taking(self._translator.codec(name), name, stands, keep)
                return
            standing = self._do(calls.standing_of_counter(codec))
            yield counting(self._translator.codec(name), name, standing, keep)

    def append_rows(self, codec: Codec, rows: object, refused: OnRefused | None = None,
                    lateness: object | None = None) -> int:
        """`append_many` for whoever has made the codec of the stream."""
        sending = Sending(codec, rows, refused, lateness)
        self.send_some(sending)
        return self.send_rest(sending)

    def send_some(self, sending: Sending) -> None:
        """Sends the rows of a `Sending`. The last of them are under way then."""
        self._close_let_go()
        with self._session() as session, self._telling(sending):
            for request in sending.requests(session):
                connection = sending.connection = self._submit(request, sending.connection)
                for oldest in sending.due(0 if connection.is_due else OPEN - 1):
                    self._wait(oldest)
        if sending.stopped:
            self.send_rest(sending)

    def send_rest(self, sending: Sending) -> int:
        """Waits for all that is under way. Gives how many rows were stored, as `append_many` does."""
        with self._session(), self._telling(sending):
            for oldest in sending.due(0):
                self._wait(oldest)
        self._tell_newest(sending.codec, sending.late())
        return sending.end()

    @contextmanager
    def _telling(self, sending: Sending) -> Iterator[None]:
        """An exception that comes within tells what became of the rows."""
        try:
            yield
        except BaseException as error:
            self._cut_off(sending, error)
            raise

    def _cut_off(self, sending: Sending, error: BaseException) -> None:
        """An exception came: what isn't written yet is taken back, and what became of the rows is told
        with it."""
        try:
            with self._lock:
                self._call_off(sending.under_way)
            for request in sending.under_way:
                self._wait(request)
        finally:
            tell(error, sending.outcome())

    @contextmanager
    def landmark(self, name: str, start: object | None = None, end: object | None = None
                 ) -> Iterator[None]:
        """Keeps the values that are appended meanwhile one by one.

        It opens at `start`, or now. It closes at `end`, or else at the stream's last time, and where
        `start` wasn't given either, now, if that is later.
        """
        codec = self._translator.codec(name)
        begun, ended = calls.landmark_span(codec, start, end)
        self._do(calls.landmark_open(codec, begun))
        try:
            yield
        finally:
            if ended is None:
                newest = self._do(calls.last_numbers(codec))[0]
                ended = max(newest, codec.now()) if start is None else newest
            self._do(calls.landmark_close(codec, ended))

    def open_landmark(self, name: str, time: object | None = None) -> Stored:
        """Opens a landmark at a time, or now, for one that ends in another place of the program."""
        codec = self._translator.codec(name)
        return self._do(calls.landmark_open(codec, codec.now() if time is None else codec.time(time)))

    def close_landmark(self, name: str, time: object | None = None) -> Stored:
        """Closes the landmark that is open."""
        codec = self._translator.codec(name)
        return self._do(calls.landmark_close(codec, codec.now() if time is None else codec.time(time)))

    def drop(self, name: str) -> None:
        """Removes a stream with all that it holds. It can't be undone."""
        codec = self._translator.codec(name)
        self._do(calls.drop(codec))
        self._translator.removed(name)
        beside = increments_name(self._translator, codec)
        if beside is not None:
            self.drop(beside)

    def reordered(self, name: str, lateness: object, most: int = MOST_HELD) -> Reordered:
        """A bounded buffer that holds readings back and sorts them: a context manager."""
        from .reordered import Reordered
        codec = self._translator.codec(name)
        must_not_count(codec, "give `lateness` to append_many")
        return Reordered(self, codec, lateness, most)

    # ---- what it keeps --------------------------------------------------------------------

    def windows(self, name: str) -> Windows:
        """The windows of a stream as they are now, the oldest first, read in pieces.

        The iterator holds one of the eight cursors until its end, or until it is closed.
        """
        return Windows(self, self._translator.codec(name))

    def check(self) -> Soundness:
        """Looks the store over, by the program. It is closed for that, and opened again."""
        find_program(self._program)     # before it is closed
        with self._lock:
            self._close_let_go()
            while not self._sessions.idle:
                if self._sessions.holds_any(threading.get_ident()) or self._is_mine():
                    raise CursorBusyError("BUSY", "check", "this thread has an iterator or a call open")
                self._changed.wait(LOOK_AGAIN)
                self._close_let_go()
            old = self._up()
            while not old.idle:
                self._pump()
            if self._connection is old:
                self._put_down(old)
            found = self._look_over()
            self._connection = old.successor = self._start()
            return found

    def span(self, name: str) -> tuple[int, int] | None:
        """The first time that a stream shows and its last one, as whole numbers."""
        codec = self._translator.codec(name)
        found = self._do(calls.last_numbers(codec))
        if not found:
            return None
        with Windows(self, codec) as windows:
            starts = [codec.time(window.start) for window in islice(windows, 1)]
        starts += [codec.time(reading.time) for reading in self.values(name)[:1]]
        return min(starts, default=found[0]), found[0]
