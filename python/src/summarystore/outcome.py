"""What became of the rows of an `append_many` that was cut off, as its exception tells it."""

from __future__ import annotations

from .errors import Outcome, ProcessEndedError, RowsRefusedError


def tell(error: BaseException, outcome: Outcome) -> None:
    """Says with an exception what became of the rows of the `append_many` that it cut off."""
    if isinstance(error, ProcessEndedError):
        error.acknowledged, error.unknown, error.not_stored = outcome
    else:
        error.add_note(f"append_many was cut off: {outcome}; summarystore.outcome_of(error) has the rows")
        vars(error)["_outcome"] = outcome


def outcome_of(error: BaseException) -> Outcome | None:
    """What became of the rows of the `append_many` that raised this, or let it through.

    None where no `append_many` did.
    """
    found = vars(error).get("_outcome")
    if isinstance(found, Outcome):
        return found
    if isinstance(error, ProcessEndedError):
        return Outcome(error.acknowledged, error.unknown, error.not_stored)
    if isinstance(error, RowsRefusedError):
        return Outcome(error.stored, (), error.not_stored)
    return None
