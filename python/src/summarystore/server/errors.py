"""What the service raises by itself."""

from __future__ import annotations

from ..errors import SummaryStoreError


class ConfigurationError(SummaryStoreError):
    """A mistake of a file of the configuration: the file, the key and the reason."""

    def __init__(self, file: str, key: str, reason: str) -> None:
        super().__init__(file, key, reason)
        self.file = file
        self.key = key
        self.reason = reason

    def __str__(self) -> str:
        return f"{self.file}: {self.key}: {self.reason}" if self.key else f"{self.file}: {self.reason}"


class NotTakenError(SummaryStoreError):
    """Nothing of what was handed over was taken: it may be handed over again after a while."""

    code = "not_taken"
    retry_after = 1
    """After so many seconds."""

    def __init__(self, reason: str) -> None:
        super().__init__(reason)
        self.reason = reason


class BusyError(NotTakenError):
    """The queue has no room for so many readings."""

    code = "busy"


class UnavailableError(NotTakenError):
    """The store isn't open: it is refused, damaged, or the service is stopping."""

    code = "store_unavailable"
    retry_after = 5
