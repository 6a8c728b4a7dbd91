"""Good stores of both kinds that scripts of this folder damage, and damage to their bytes."""

import importlib.util
import os
import sys

from reader import ENTRIES, ENTRY, ENTRY_SIZE, FIRST_SLOT, OPEN, SLOT, is_checked, other_kind, slot_count
from shared import HERE, call, script

PAGE = 4096

# After how many commands of the script stores are made.
COUNTS = (0, 6, 30, 60, 64, 100, 170, 240)


def read(path):
    with open(path, "rb") as file:
        return file.read()


def written(path, image):
    with open(path, "wb") as file:
        file.write(image)


def unjoined(folder, target, lengths):
    """A plain store in which merges are due, as a crash may leave it. Its values are 0."""
    spec = importlib.util.spec_from_file_location("bench_shared", os.path.join(HERE, "..", "bench", "shared.py"))
    bench = importlib.util.module_from_spec(spec)
    spec.loader.exec_module(bench)
    path = os.path.join(folder, "unjoined.store")
    bench.write_store(path, ["a", "b"], target, lengths)
    return read(path)


def run_stores(program, folder, options):
    """Stores that runs with these options leave after so many commands: with entries in use, and settled."""
    path = os.path.join(folder, "good.store")
    lines = script(COUNTS[-1])
    for count in COUNTS:
        if os.path.exists(path):
            os.remove(path)
        for part in (lines[:count], []):
            status, report, complaint = call([program, *options, path], part)
            if status != 0 or b"refused" in report:
                sys.exit(f"{sys.argv[0]}: a good store wasn't made: {status}, {complaint!r}")
            yield read(path)


def written_stores(folder):
    """Plain stores with merges that are due, also beside a stream that is dropped, of which the records are still there."""
    for target in ("exp 2 1 1", "power 1 1 1 1"):
        image = unjoined(folder, target, [1] * 20)
        yield image
        yield image[: FIRST_SLOT + 3] + b"\1" + image[FIRST_SLOT + 4 :]


def good_stores(program, folder, kind):
    """Good stores of a kind. Where the program doesn't know it they are made of plain ones by the second reader."""
    options = ["--checked"] if kind == "checked" and knows_checked(program, folder) else []
    made = [*run_stores(program, folder, options), *written_stores(folder)]
    return [image if is_checked(image) == (kind == "checked") else other_kind(image) for image in made]


def knows_checked(program, folder):
    """Whether the program makes checked stores."""
    path = os.path.join(folder, "asked.store")
    status = call([program, "--checked", path], [])[0]
    knows = status == 0 and is_checked(read(path))
    if os.path.exists(path):
        os.remove(path)
    return knows


# Where bits are changed.


def records_in(image):
    """The place of each slot that isn't free."""
    places = (FIRST_SLOT + SLOT * n for n in range(slot_count(image)))
    return [range(at, at + SLOT) for at in places if any(image[at : at + SLOT])]


def entries_in(image):
    """The place of each entry in use, behind its gate."""
    places = []
    for at in range(ENTRY, ENTRY + ENTRY_SIZE * ENTRIES, ENTRY_SIZE):
        if image[at : at + 1] != bytes([OPEN]):
            break
        places.append(range(at + 1, at + ENTRY_SIZE))
    return places


def xored(image, place, pattern):
    """An image with a pattern of bits over a place, where bit 0 is the lowest of its first byte."""
    last = min(place.stop, len(image))
    value = int.from_bytes(image[place.start : last], "little") ^ pattern
    return image[: place.start] + value.to_bytes(last - place.start, "little") + image[last:]


# Patterns of so many bits. They take lots.


def one_bit(bits, rng):
    return 1 << rng.randrange(bits)


def two_bits(bits, rng):
    a, b = rng.sample(range(bits), 2)
    return 1 << a | 1 << b


def a_burst(bits, rng):
    """A change within at most 32 bits in a row, of which the first and the last change."""
    length = rng.randint(2, 32)
    return (1 | rng.getrandbits(length) & ~1 | 1 << length - 1) << rng.randrange(bits - length + 1)


PATTERNS = (one_bit, two_bits, a_burst)
