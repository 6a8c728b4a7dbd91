"""A stream that takes the readings of another, whose newest time lies ahead of the clock.

What that one holds stays readable under its own name. The new one says by a label whose readings it takes.
"""

from __future__ import annotations

import logging

from .. import aio
from ..description import Description, meter_words
from ..gauges import BESIDE, gauge_of
from ..records import Stream
from .mapping import Route
from .mapping_table import PLACE_OF_STREAM
from .streams import RESTARTS, Streams

log = logging.getLogger("summarystored")


async def restart(streams: Streams, store: aio.Store, stream: Stream, new: str) -> None:
    """Makes a stream like this one, which takes its readings from now on."""
    told = streams.meaning(store, stream.name).description or Description()
    await store.create(new, stream.target, stream.within, scale=told.scale, time=told.time, since=told.since,
                       unit=told.unit, labels={**told.labels, RESTARTS: stream.name}, rounding=told.rounding,
                       **meter_words(told))
    streams.came(new)
    if gauge_of(told) is not None:
        streams.came(new + BESIDE)


async def restart_ahead(streams: Streams, store: aio.Store, route: Route, latest: int) -> None:
    """Does so where the mapping has a name for it, and the newest time is later than this, in nanoseconds."""
    mapping, name = route.mapping, route.stream
    if mapping is None or mapping.restart is None or not streams.stands(name):
        return
    newest = await streams.newest(store, name)
    if newest < 0 or streams.meaning(store, name).nanoseconds(newest) <= latest:
        return
    new = mapping.restart.replace(PLACE_OF_STREAM, name)
    stream = next((each for each in await store.list() if each.name == name), None)
    if stream is not None and not streams.stands(new):
        await restart(streams, store, stream, new)
        log.warning("stream restarted: stream=%r new=%r: its newest time lies ahead of the clock", name, new)
