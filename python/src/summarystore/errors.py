"""What is raised: a class for each refusal of the program, and for each status with which it ends."""

from __future__ import annotations

import errno
import shlex
from collections.abc import Sequence
from typing import NamedTuple


class SummaryStoreError(Exception):
    """All that this package raises by itself."""


def _first_sentence(kind: type, otherwise: str) -> str:
    """What the docstring of a class says first, to stand within a sentence."""
    text = (kind.__doc__ or otherwise).partition("\n")[0].rstrip(".")   # python -OO has no docstrings
    return text[0].lower() + text[1:]


# ---- a line was refused ----------------------------------------------------------------


class RefusedError(SummaryStoreError):
    """The program refused a line, and nothing was changed by it.

    `refusal` is the program's word for the reason, and `line` what was sent.
    """

    reason = "the line was refused"

    def __init_subclass__(cls, word: str | None = None) -> None:
        super().__init_subclass__()
        cls.reason = _first_sentence(cls, cls.reason)
        if word is not None:
            REFUSALS[word] = cls

    def __init__(self, refusal: str, line: str, reason: str | None = None) -> None:
        super().__init__(refusal, line, reason)
        self.refusal = refusal
        self.line = line
        if reason is not None:
            self.reason = reason

    def __str__(self) -> str:
        return f"{self.refusal}: {self.reason}: {self.line}"


REFUSALS: dict[str, type[RefusedError]] = {}
"""The class of each word behind `refused`."""


class LineTooLongError(RefusedError, word="LINE"):
    """The line has more than 256 bytes."""


class CommandError(RefusedError, word="SYNTAX"):
    """The program doesn't know this command.

    Another version of it may.
    """


class KindError(CommandError, ValueError):
    """There is no such kind of answer.

    What there is stands in the message.
    """

    def __str__(self) -> str:
        return f"{self.reason}, and not {self.line}"


class NumberError(RefusedError, ValueError, word="NUMBER"):
    """A number is out of range, or there would be more than 100,000 rows.

    Values have 64 bits, and times go up to 2^62.
    """


class StreamNameError(RefusedError, ValueError, word="NAME"):
    """A name has 1 to 32 letters, digits, `_`, `-` and `.`."""


class TargetError(RefusedError, ValueError, word="PARAM"):
    """A parameter of the target is out of its range."""


class StreamExistsError(RefusedError, word="EXISTS"):
    """A stream of that name stands."""


class TooManyStreamsError(RefusedError, word="STREAMS"):
    """4,096 streams stand."""


class UnknownStreamError(RefusedError, LookupError, word="UNKNOWN"):
    """No stream of that name stands."""


class LandmarkOpenError(RefusedError, word="OPEN"):
    """A landmark of the stream is open."""


class LandmarkNotOpenError(RefusedError, word="NOT_OPEN"):
    """No landmark of the stream is open."""


class LateError(RefusedError, word="TIME"):
    """The time isn't later than the last time of the stream.

    `newest` is that time, where it is known.
    """

    newest: object | None = None

    def __str__(self) -> str:
        told = "" if self.newest is None else f", {self.newest}"
        return f"{self.refusal}: {self.reason}{told}: {self.line}"


class RangeError(RefusedError, ValueError, word="RANGE"):
    """The range ends before it begins."""


class StreamFullError(RefusedError, word="STREAM_FULL"):
    """The stream has taken 2^40 values."""


class StoreFullError(RefusedError, word="STORE_FULL"):
    """2^20 streams, windows, landmarks and their values stand."""


class CursorBusyError(RefusedError, word="BUSY"):
    """A cursor is open.

    Either the session has one already, or one thread holds all eight.
    """


class NoCursorError(RefusedError, word="NO_CURSOR"):
    """No cursor is open."""


def refusal_of(word: str, line: str) -> RefusedError:
    """The exception for a word behind `refused`."""
    return REFUSALS.get(word, RefusedError)(word, line)


# ---- what became of rows ----------------------------------------------------------------


class Outcome(NamedTuple):
    """What became of the rows of an `append_many` that was cut off.

    `acknowledged` says how many are surely stored. `unknown` lists those that were sent without a reply,
    and `not_stored` those that were drawn and surely aren't stored.
    """

    acknowledged: int
    unknown: Sequence[object]
    not_stored: Sequence[object]

    def __str__(self) -> str:
        return (f"{self.acknowledged} acknowledged, {len(self.not_stored)} not stored, "
                f"{len(self.unknown)} unknown")


class RowsRefusedError(SummaryStoreError):
    """Of the rows that were sent together some were refused.

    `refused` has those known by then, as (row, exception); `stored` says how many were stored. Then no
    more rows were sent: `not_stored` lists those that were drawn by then.
    """

    def __init__(self, stored: int, refused: Sequence[tuple[tuple[object, object], Exception]],
                 not_stored: Sequence[object] = ()) -> None:
        super().__init__(stored, refused, not_stored)
        self.stored = stored
        self.refused = refused
        self.not_stored = not_stored

    def __str__(self) -> str:
        row, first = self.refused[0]
        return f"{len(self.refused)} rows were refused, and {self.stored} stored; first {row}: {first}"


# ---- the program ended ------------------------------------------------------------------


class ProcessEndedError(SummaryStoreError):
    """The program ended while a call was under way, or before it.

    `acknowledged` says how many events of the call are surely stored. `not_stored` lists those that
    surely aren't, and `unknown` those that were sent without a reply: they may be stored or not.
    For `append_many` these are rows, otherwise lines. `status` is that of the program, negative for
    a signal, and `text` what it said.
    """

    reason = "the program ended"
    said: tuple[str, ...] = ("",)

    def __init_subclass__(cls, status: int | None = None, said: tuple[str, ...] = ("",)) -> None:
        super().__init_subclass__()
        cls.reason = _first_sentence(cls, cls.reason)
        cls.said = said
        if status is not None:
            STATUSES.setdefault(status, []).append(cls)

    def __init__(self, status: int | None, text: str) -> None:
        super().__init__(status, text)
        self.status = status
        self.text = text
        self.path: str | None = None
        """The file of the store."""
        self.acknowledged = 0
        self.not_stored: Sequence[object] = ()
        self.unknown: Sequence[object] = ()

    def __str__(self) -> str:
        told = f": {self.text}" if self.text else ""
        text = f"{self.reason} (status {self.status}){told}"
        if self.acknowledged or self.not_stored or self.unknown:
            text += f"; {Outcome(self.acknowledged, self.unknown, self.not_stored)}"
        return text


STATUSES: dict[int, list[type[ProcessEndedError]]] = {}
"""The classes of each status: the last one of which the program said what belongs to it is raised."""


class UsageError(ProcessEndedError, status=2):
    """The program doesn't know the mode `sessions` or the option `--checked`, so it is an older one."""


class DamagedStoreError(ProcessEndedError, status=3):
    """The file is no store, or is damaged.

    Nothing was written to it.
    """

    def __str__(self) -> str:
        if self.path is None:
            return super().__str__()
        return (f"{self.path}: {super().__str__()}; `summarystore-scrub {shlex.quote(self.path)}` tells what "
                "is damaged, and with an older copy of the file what that repairs")


class StoreFileError(ProcessEndedError, status=4):
    """The file of the store couldn't be opened, locked, read, written or synced."""


class LockedError(StoreFileError, status=4, said=("another process uses it",)):
    """Another process uses the store."""


class DiskFullError(StoreFileError, status=4, said=("no space left on the device",)):
    """There is no room for the store."""


class NoStoreError(StoreFileError, FileNotFoundError, status=4, said=("no such file", "no such folder")):
    """There is no store, and none was made."""

    def __init__(self, status: int | None, text: str) -> None:
        super().__init__(status, text)
        self.errno = errno.ENOENT
        self.strerror = text


class InputFaultError(ProcessEndedError, status=5):
    """The program couldn't read its input."""


class OutputFaultError(ProcessEndedError, status=6):
    """The program couldn't write its report."""


class OutOfMemoryError(ProcessEndedError, MemoryError, status=7):
    """The program ran out of memory."""


class InputTooLongError(ProcessEndedError, status=8):
    """One process took more than 2^36 bytes."""


class RecordChangedError(ProcessEndedError, status=9):
    """Something else changed the file during the run."""


class KilledError(ProcessEndedError):
    """The program was ended by a signal.

    `status` is its negative number.
    """


class UnexpectedEndError(ProcessEndedError):
    """The program ended, and not with one of its statuses, or unasked."""


def ending_of(status: int | None, text: str, path: str | None = None) -> ProcessEndedError:
    """The exception for a status of the program and what it said, on either of its streams, of a store."""
    found = _kind_of(status, text)(status, text)
    found.path = path
    return found


def _kind_of(status: int | None, text: str) -> type[ProcessEndedError]:
    if status is not None and status < 0:
        return KilledError
    kinds = STATUSES.get(-1 if status is None else status, [UnexpectedEndError])
    # What the program said last is the reason, perhaps with the system's own words in brackets.
    said = text.rpartition(" [")[0] if text.endswith("]") else text
    return [kind for kind in kinds if said.endswith(kind.said)][-1]


# ---- told by this package ---------------------------------------------------------------


class ProtocolError(SummaryStoreError):
    """A reply isn't one that the program gives."""


class ProgramMissingError(SummaryStoreError):
    """The program `summarystore` wasn't found."""


class LibraryMissingError(SummaryStoreError):
    """The library `libsummarystore` wasn't found, or can't be loaded."""


class StoreClosedError(SummaryStoreError):
    """The `Store` was closed, or belongs to the process that this one was forked from."""


class NoValueError(SummaryStoreError, ValueError):
    """There is no value, or there may be none, where one was asked for."""


class NotANumberError(SummaryStoreError, ValueError):
    """What was given as a value is no number."""


class ScaleError(SummaryStoreError, ValueError):
    """A value isn't a multiple of its stream's scale, and no rounding was asked for."""


class TimeError(SummaryStoreError, ValueError):
    """What was given as a time doesn't say one time of the stream."""


class MeterError(SummaryStoreError, ValueError):
    """A value is no reading of its counter."""


class DescriptionError(SummaryStoreError, ValueError):
    """A stream can't be described like this, or isn't described."""


class NamesFileError(SummaryStoreError):
    """The file of the descriptions can't be understood. It is left as it is."""


class ServiceError(SummaryStoreError):
    """The service couldn't be reached, or didn't take a request.

    `status` is that of its answer, or None where there was none, `code` its word for the reason, and
    `retry_after` says after how many seconds it may be asked again.
    """

    def __init__(self, status: int | None, code: str, reason: str, retry_after: int | None = None) -> None:
        super().__init__(status, code, reason)
        self.status = status
        self.code = code
        self.reason = reason
        self.retry_after = retry_after

    def __str__(self) -> str:
        return f"{self.code}: {self.reason}"


class SourceError(SummaryStoreError):
    """A table can't be read, or may be read in two ways."""


class CertificateError(SummaryStoreError):
    """A certificate shows nothing, or it can't be told whether it does."""


class RoundedTimeWarning(UserWarning):
    """A time was rounded down to the steps of its stream. It is told once for each stream."""


class StepWarning(UserWarning):
    """Rows of a zone don't begin where the step of a stream has its boundaries. It is told once for each
    stream and zone."""


class ReopenedWarning(UserWarning):
    """The program had ended, and the store was opened again."""


class ReadsOnlyWarning(ReopenedWarning):
    """The disk is full: questions are answered from a copy, and what would change the store is refused."""
