"""The names of a log at the broker.

A log NAME of one shard has the exchange `NAME.0`, and in it the queues. One of four shards has the
exchanges `NAME.4.0` to `NAME.4.3` behind `NAME.4`, which deals messages out by the hash of their
stream's name. What followers tell goes by the exchange `NAME.told` to the sender that it is for. What a
queue that is emptied can't be rid of otherwise goes by the exchange `NAME.dead` to the queue of that name.
"""

from __future__ import annotations

import os
import socket
from dataclasses import dataclass
from hashlib import blake2b

STREAM, QUORUM = "stream", "quorum"
"""The kinds of queues: a log that stays, and a queue that is emptied."""
KEPT = 16 << 30
"""So many bytes a log that stays keeps at least, of its newest messages."""
DELIVERIES = 10_000
"""So often a message is given to a follower of a queue. With the longest pauses that takes a day."""
DEAD_KEPT = 1 << 30
"""So many bytes of what was put aside are kept, the newest."""


@dataclass(frozen=True)
class Log:
    """One log."""

    name: str
    shards: int

    @property
    def entrance(self) -> str:
        """The exchange that senders publish to."""
        return f"{self.name}.0" if self.shards == 1 else f"{self.name}.{self.shards}"

    def shard(self, number: int) -> str:
        """The exchange of a shard, and its queue where that is a stream."""
        return f"{self.name}.0" if self.shards == 1 else f"{self.name}.{self.shards}.{number}"

    @property
    def told(self) -> str:
        """The exchange of what followers tell."""
        return f"{self.name}.told"

    @property
    def dead(self) -> str:
        """The exchange of what can't be taken, and the queue behind it."""
        return f"{self.name}.dead"

    def bounds(self, kind: str, kept: int) -> dict[str, object]:
        """What keeps a queue of this kind from growing for ever, as the broker takes it."""
        if kind == STREAM:
            return {"x-max-length-bytes": kept}
        return {"x-dead-letter-exchange": self.dead, "x-delivery-limit": DELIVERIES}


def own_name(path: str) -> str:
    """A name for the follower of this store on this machine."""
    whole = f"{socket.gethostname()}:{os.path.abspath(path)}"
    return f"{socket.gethostname()}-{blake2b(whole.encode(), digest_size=6).hexdigest()}"
