"""What is raised by the fleet."""

from __future__ import annotations

from ..errors import SummaryStoreError


class FleetError(SummaryStoreError):
    """All that the fleet raises by itself."""


class SpoolError(FleetError):
    """The folder of the spool can't be used."""


class NameRefusedError(FleetError):
    """What came with frames can't be the long name of their stream."""


class BrokerError(FleetError):
    """The broker isn't there, or it refuses what it is asked."""
