"""A second reader of a store's file, written from docs/FORMAT.md alone: the map of slots.

It takes the bytes of a file, and shares nothing with the program. What stands in the slots is read by
`storerecords`.
"""

from __future__ import annotations

from collections.abc import Sequence

ENTRY, ENTRIES, ENTRY_SIZE = 512, 64, 544
FIRST_SLOT, SLOT, SLOTS = 36864, 128, 2**20
PUT = 132
"""The bytes of a put in an entry: the number of a slot, and the slot."""
PLAIN, CHECKED, OPEN, FREE = b"SSTORE01", b"SSTORE02", 0xA5, bytes(SLOT)


class Refused(Exception):  # noqa: N818: it is the word of the format
    """What no store is, or a damaged one, with the line that says so."""


class Holds(Exception):  # noqa: N818
    """A file that isn't formatted, but holds something where slots lie: it is refused at once."""


# Checksums. In a checked store the last four bytes of a record, and of an entry, are xor-ed with a CRC-32C of
# their number and of what is before them. Without it they are in plain form.


def table_row(byte: int) -> int:
    """What the CRC-32C makes of a byte: eight steps of division by the polynomial, lowest bits first."""
    for _ in range(8):
        byte = byte >> 1 ^ (0x82F63B78 if byte & 1 else 0)
    return byte


TABLE = [table_row(byte) for byte in range(256)]


def crc32c(content: bytes) -> int:
    """The checksum of some bytes."""
    crc = 0xFFFFFFFF
    for byte in content:
        crc = TABLE[(crc ^ byte) & 0xFF] ^ crc >> 8
    return crc ^ 0xFFFFFFFF


def with_checksum(number: int, content: bytes, start: int = 0) -> bytes:
    """Bytes of a checked store made plain, or plain ones made checked: the last four xor-ed with the checksum
    of those from `start` on."""
    checksum = crc32c(number.to_bytes(4, "big") + content[start:-4])
    last = int.from_bytes(content[-4:], "little") ^ checksum
    return content[:-4] + last.to_bytes(4, "little")


def slot_with_checksum(number: int, content: bytes) -> bytes:
    """A slot of a checked store made plain, or the other way. One whose byte 0 is 0 has no checksum."""
    return with_checksum(number, content) if content[0] else content


def entry_with_checksum(number: int, content: bytes) -> bytes:
    """An entry of a checked store made plain, or the other way. Its gate isn't under it."""
    return with_checksum(number, content, 1)


def is_checked(image: bytes) -> bool:
    """Whether it is a checked store."""
    return image[1:9] == CHECKED


def slot_at(image: bytes, number: int) -> bytes:
    """A slot of the file in plain form."""
    content = image[FIRST_SLOT + SLOT * number:FIRST_SLOT + SLOT * (number + 1)]
    return slot_with_checksum(number, content) if is_checked(image) else content


def entry_at(image: bytes, number: int) -> bytes:
    """An entry of the file in plain form."""
    content = image[ENTRY + ENTRY_SIZE * number:ENTRY + ENTRY_SIZE * (number + 1)]
    return entry_with_checksum(number, content) if is_checked(image) else content


def slot_count(image: bytes) -> int:
    """How many slots the file reaches to."""
    return max(0, min((len(image) - FIRST_SLOT) // SLOT, SLOTS))


def other_kind(image: bytes) -> bytes:
    """A formatted plain store as a checked one of the same content, and a checked one as a plain one. Entries
    that were never written stay zeros."""
    made = bytearray(image)
    made[1:9] = PLAIN if is_checked(image) else CHECKED
    for number in range(ENTRIES):
        at = ENTRY + ENTRY_SIZE * number
        if any(made[at + 1:at + ENTRY_SIZE - 4]):
            made[at:at + ENTRY_SIZE] = entry_with_checksum(number, bytes(made[at:at + ENTRY_SIZE]))
    for number in range(slot_count(image)):
        at = FIRST_SLOT + SLOT * number
        made[at:at + SLOT] = slot_with_checksum(number, bytes(made[at:at + SLOT]))
    return bytes(made)


# The map of slots.


def is_formatted(image: bytes) -> bool:
    """Whether the file is formatted or not; one that is neither is refused."""
    has_magic = image[1:9] in (PLAIN, CHECKED)
    if len(image) < 2 or image[0] == 0 or (has_magic and image[0] != OPEN):
        return False
    if len(image) >= FIRST_SLOT and has_magic and image[0] == OPEN:
        return True
    raise Refused("not a store")


def puts_of(entry: bytes, extent: int) -> tuple[Sequence[tuple[int, bytes]], int] | None:
    """The puts of an entry in use, over this extent, and the extent after them; None where it is damaged."""
    count = entry[1]
    if not 1 <= count <= 4 or any(entry[2 + PUT * count:]):
        return None
    puts, last = [], -1
    for at in range(2, 2 + PUT * count, PUT):
        slot = int.from_bytes(entry[at:at + 4], "big")
        if slot <= last or slot >= SLOTS or slot > extent:
            return None
        extent = max(extent, slot + 1)
        last = slot
        puts.append((slot, entry[at + 4:at + PUT]))
    return puts, extent


def slots_of(image: bytes) -> list[bytes]:
    """The slots below the extent, with the puts of the entries in use over them."""
    slots = [slot_at(image, number) for number in range(slot_count(image))]
    for number in range(ENTRIES):
        if image[ENTRY + ENTRY_SIZE * number] != OPEN:
            break
        found = puts_of(entry_at(image, number), len(slots))
        if found is None:
            raise Refused(f"damaged entry {number}")
        for slot, content in found[0]:
            slots[slot:slot + 1] = [content]
    return slots
