"""Timestamped readings in a store that is proved, and answers as intervals that hold the truth."""

from __future__ import annotations

import datetime

from .backends import File, Name as Backend
from .certificate import Certificate
from .clock import Clock
from .connecting import RemoteStore, connect
from .description import EPOCH, Description
from .errors import (CertificateError, CommandError, CursorBusyError, DamagedStoreError, DescriptionError,
                     DiskFullError, InputFaultError, InputTooLongError, KilledError, KindError,
                     LandmarkNotOpenError, LandmarkOpenError, LateError, LibraryMissingError,
                     LineTooLongError, LockedError, MeterError, NamesFileError, NoCursorError, NoStoreError,
                     NotANumberError, NoValueError, NumberError, Outcome, OutOfMemoryError, OutputFaultError,
                     ProcessEndedError, ProgramMissingError, ProtocolError, RangeError, RecordChangedError,
                     RefusedError, ReopenedWarning, RoundedTimeWarning, RowsRefusedError, ScaleError,
                     ServiceError, SourceError, StepWarning, StoreClosedError, StoreFileError,
                     StoreFullError, StreamExistsError, StreamFullError, StreamNameError, SummaryStoreError,
                     TargetError, TimeError, TooManyStreamsError, UnexpectedEndError, UnknownStreamError,
                     UsageError)
from .interval import Interval, Presence, mean_of
from .names import Names
from .outcome import outcome_of
from .program import StorePath, check
from .records import Estimate, EstimateRow, Last, Reading, Row, Soundness, Stored, Stream, Window
from .series import Series
from .store import Store

__version__ = "1.0.0"


def open(path: StorePath, *, zone: str | datetime.tzinfo | None = None, existing: bool = False,
         checked: bool | None = None, program: File | None = None, backend: Backend | None = None,
         library: File | None = None) -> Store:
    """Opens a store, and makes it where there is none: with `existing` that raises NoStoreError.

    A store that is made is checked: its file tells of each record whether it is as it was written. With
    `checked=False` it is plain. One that stands stays what it is, and with `checked=True` it raises
    StoreFileError where it is plain.

    Its streams may have long names, scales and clock times. Times without a zone are those of `zone`,
    where it is given, such as Europe/Berlin.

    It is asked by the `backend` that is named: the `library` in this process, or the `program` as one of its
    own. Else it is the library, where it is found and no program is given.
    """
    return Store(path, program=program, translator=Names(path, zone), existing=existing,
                 checked=checked, backend=backend, library=library)


def now(resolution: str = "s") -> datetime.datetime:
    """The present time in UTC, as the last whole step of a resolution: `us`, `ms`, `s`, `minute`, .."""
    clock = Clock(resolution, EPOCH, None)
    shown = clock.back(clock.now())
    if not isinstance(shown, datetime.datetime):
        raise TimeError(f"no datetime has steps of {resolution}")
    return shown


__all__ = [
    "Certificate", "CertificateError", "CommandError", "CursorBusyError", "DamagedStoreError", "Description",
    "DescriptionError", "DiskFullError", "Estimate", "EstimateRow", "InputFaultError", "InputTooLongError",
    "Interval", "KilledError", "KindError", "LandmarkNotOpenError", "LandmarkOpenError", "Last", "LateError",
    "LibraryMissingError", "LineTooLongError", "LockedError", "MeterError", "NamesFileError",
    "NoCursorError", "NoStoreError", "NotANumberError", "NoValueError", "NumberError", "Outcome",
    "OutOfMemoryError", "OutputFaultError", "Presence", "ProcessEndedError", "ProgramMissingError",
    "ProtocolError", "RangeError", "Reading", "RecordChangedError", "RefusedError", "RemoteStore",
    "ReopenedWarning", "RoundedTimeWarning", "Row", "RowsRefusedError", "ScaleError", "Series",
    "ServiceError", "Soundness", "SourceError", "StepWarning", "Store", "StoreClosedError", "Stored",
    "StoreFileError", "StoreFullError", "Stream", "StreamExistsError", "StreamFullError", "StreamNameError",
    "SummaryStoreError", "TargetError", "TimeError", "TooManyStreamsError", "UnexpectedEndError",
    "UnknownStreamError", "UsageError", "Window", "check", "connect", "mean_of", "now", "open", "outcome_of",
]
