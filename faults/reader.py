"""The second reader of a store's file that the Python package has, which shares nothing with the program; and what the program says of
a store, from what that reader gives."""

import os
import sys

sys.path.insert(0, os.path.join(os.path.dirname(os.path.abspath(__file__)), "..", "python", "src"))
from summarystore.storefile import (CHECKED, ENTRIES, ENTRY, ENTRY_SIZE, FIRST_SLOT, FREE, OPEN, PLAIN, SLOT, SLOTS, Holds, Refused, crc32c,
                                    entry_at, entry_with_checksum, is_checked, is_formatted, other_kind, puts_of, slot_at, slot_count,
                                    slot_with_checksum, slots_of)
from summarystore.storerecords import LAST_TIME, Held, Landmark, Stream, Value, Window, bit_of, record_in, streams_in, streams_of, survey

# Of each stream it is asked whether one of these is among all its values.
SOUGHT = (-500, 0, 7, 300)


def presence(one, value):
    """Whether a value is among all those of a stream, as far as can be told: each window lies whole in the range."""
    if any(mark.value == value for mark in one.values) or any(value in (window.least, window.greatest) for window in one.windows):
        return "present"
    may = any(window.least <= value <= window.greatest and window.filter & bit_of(value) for window in one.windows)
    return "maybe" if may else "absent"


def questions(streams):
    """What asks for all that `shown` has."""
    names = [one.streams[0].name.decode() for one in streams]
    return ["list", *(line for name in names for line in [f"windows {name}", *(f"query {name} has {v} 0 {LAST_TIME}" for v in SOUGHT)])]


def shown(streams):
    """The replies to `questions`."""
    lines = [f"list {len(streams)}"] + [one.row() for one in streams]
    for one in streams:
        lines += [f"windows {len(one.windows)}"] + [window.row() for window in one.windows]
        lines += [f"has {presence(one, value)}" for value in SOUGHT]
    return lines


def kept(streams):
    """All that the streams keep, to be compared: what is shown, and the records of windows and landmarks."""
    records = [record.spelled() for one in streams for record in one.windows + one.landmarks + one.values]
    return shown(streams), records
