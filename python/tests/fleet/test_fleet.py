"""A fleet over a cluster of a real broker: anything is killed at random, and nothing is lost."""

from __future__ import annotations

from pathlib import Path

import pytest

from .chaos import Chaos, Size
from .rabbit import Cluster

SMALL = Size(edges=4, streams=2, appends=60, shards=2, replicas=2, seconds=12, between=0.6)


@pytest.mark.parametrize("kind", ["stream", "quorum"])
def test_nothing_is_lost(cluster: Cluster, folder: Path, program: str, kind: str) -> None:
    chaos = Chaos(cluster, folder, program, kind, SMALL, 11, cluster.new_name(f"chaos-{kind}"))
    chaos.live()
    chaos.judge()
    print(kind, chaos.kills, "repeated", chaos.repeated, "prefixes", chaos.prefixes)
