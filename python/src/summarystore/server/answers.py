"""What is answered: JSON or CSV with exact numbers, and errors with a word and a sentence."""

from __future__ import annotations

import csv
import io
from collections.abc import Mapping, Sequence

from aiohttp import web

from .. import errors
from ..decimals import Number
from ..interval import Interval
from . import exactjson
from .endpoints import ApiError
from .errors import NotTakenError

JSON = "application/json"
CSV = "text/csv"

STATUSES: Sequence[tuple[type[Exception], int, str]] = (
    (errors.UnknownStreamError, 404, "unknown_stream"),
    (errors.LateError, 409, "late"),
    (errors.LandmarkOpenError, 409, "landmark_open"),
    (errors.LandmarkNotOpenError, 409, "landmark_not_open"),
    (errors.StreamExistsError, 409, "stream_exists"),
    (errors.CursorBusyError, 503, "busy"),
    (errors.StoreFullError, 507, "full"),
    (errors.StreamFullError, 507, "full"),
    (errors.TooManyStreamsError, 507, "full"),
    (errors.TimeError, 400, "bad_time"),
    (errors.RangeError, 400, "bad_range"),
    (errors.NumberError, 400, "bad_number"),
    (errors.NotANumberError, 400, "bad_number"),
    (errors.ScaleError, 400, "bad_number"),
    (errors.StreamNameError, 400, "bad_name"),
    (errors.RefusedError, 400, "refused"),
    (errors.DescriptionError, 409, "bad_description"),
    (errors.ProcessEndedError, 503, "interrupted"),
    (errors.StoreClosedError, 503, "store_unavailable"),
    (errors.ProgramMissingError, 503, "store_unavailable"),
    (errors.ProtocolError, 503, "interrupted"))
"""The status and the word of what the package raises."""


def error_of(error: Exception) -> ApiError | None:
    """What a client is told of an error. None where it is a mistake of the service."""
    if isinstance(error, ApiError):
        return error
    if isinstance(error, NotTakenError):
        return ApiError(503, error.code, error.reason, error.retry_after)
    if isinstance(error, TimeoutError):
        return ApiError(503, "no_answer", "the store doesn't answer in time", 5)
    for kind, status, code in STATUSES:
        if isinstance(error, kind):
            return ApiError(status, code, str(error), 1 if status == 503 else None)
    return None


def json_answer(value: object, status: int = 200) -> web.Response:
    """A value as JSON."""
    return web.Response(status=status, text=exactjson.dumps(value), content_type=JSON)


def error_answer(error: ApiError, more: Mapping[str, object] | None = None) -> web.Response:
    """An error as JSON."""
    told: dict[str, object] = {"error": error.code, "reason": error.reason}
    answer = json_answer({**told, **(more or {})}, error.status)
    if error.retry_after is not None:
        answer.headers["Retry-After"] = str(error.retry_after)
    return answer


def wants_csv(request: web.Request) -> bool:
    """Whether a client asks for CSV, and not for JSON before it."""
    accepted = request.headers.get("Accept", "").lower()
    return CSV in accepted and not (JSON in accepted and accepted.index(JSON) < accepted.index(CSV))


def cell(value: object) -> str:
    """A value as a cell of a table."""
    if value is None:
        return ""
    if isinstance(value, str):
        # What a spreadsheet would take for a formula is text.
        return f"'{value}" if value[:1] in ("=", "+", "-", "@", "\t", "\r") else value
    return exactjson.dumps(value)


def csv_line(cells: Sequence[object]) -> str:
    """One line of CSV."""
    text = io.StringIO()
    csv.writer(text, lineterminator="\n").writerow([cell(each) for each in cells])
    return text.getvalue()


def table_answer(request: web.Request, whole: Mapping[str, object], rows: Sequence[Mapping[str, object]]
                 ) -> web.Response:
    """The whole as JSON, or where CSV is asked for its rows as that."""
    if not wants_csv(request):
        return json_answer(whole)
    lines = [csv_line(list(rows[0]))] if rows else []
    lines += [csv_line(list(row.values())) for row in rows]
    return web.Response(text="".join(lines), content_type=CSV)


def ends_of(interval: Interval) -> dict[str, object]:
    """An interval as it is answered."""
    lo: Number | None = None if interval.none else interval.lo
    hi: Number | None = None if interval.none else interval.hi
    mid: Number | None = None if interval.none else interval.mid
    return {"lo": lo, "hi": hi, "mid": mid, "exact": interval.exact, "none": interval.none,
            "maybe_none": interval.maybe_none}
