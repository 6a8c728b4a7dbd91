"""What the tests of the fleet share: a cluster of a real broker, where one can be started."""

from __future__ import annotations

import shutil
import tempfile
from collections.abc import Iterator
from importlib.util import find_spec
from pathlib import Path

import pytest

from .rabbit import Cluster, server

if find_spec("pika") is None:   # the gate says so
    collect_ignore_glob = ["test_*.py"]


@pytest.fixture(scope="session")
def cluster() -> Iterator[Cluster]:
    """Three nodes of RabbitMQ. What needs them is left out where they can't be started."""
    if server() is None:
        pytest.skip("the broker: rabbitmq-server is missing")
    home = Path(tempfile.mkdtemp(prefix="summarystore-broker-"))
    made = Cluster(home)
    try:
        why = made.start()
        if why is not None:
            pytest.skip(f"the broker: {why}")
        yield made
    finally:
        made.close()
        shutil.rmtree(home, ignore_errors=True)
