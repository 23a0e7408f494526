"""`numb`, a box of numbers of each kind, without version and flags. No standard has it."""

from tests.rows.making import Box, box, counting, declared, declared_as, resized

# Bytes with their highest bits set, and these bytes without these bits.
HIGH = box(b"numb", counting(0x81, 0x8F))
LOW = box(b"numb", counting(0x01, 0x0F))
HIGH_VALUE = Box(
    "numbers", byte=0x81, short=0x8283, medium=0x848586, signed_byte=-0x79, signed_short=-0x7777,
    signed_long=-0x75747373, packed={"is_first": True, "kind": 3, "level": 0x28F},
)
LOW_VALUE = Box(
    "numbers", byte=1, short=0x203, medium=0x40506, signed_byte=7, signed_short=0x809, signed_long=0xA0B0C0D,
    packed={"is_first": False, "kind": 3, "level": 0x20F},
)


def numbers_with_and_without_their_highest_bit():
    yield from declared_as(HIGH, HIGH_VALUE)
    yield from declared_as(LOW, LOW_VALUE)


def a_size_that_is_smaller_than_the_numbers():
    yield declared(resized(HIGH, 8), HIGH_VALUE)


def largest_numbers():
    """All bits of one part are set."""
    packed = {"is_first": True, "kind": 0x1F, "level": 0x3FF}
    value = Box("numbers", **{**HIGH_VALUE, "medium": 0xFFFFFF, "packed": packed})
    yield from declared_as(HIGH[:11] + b"\xff\xff\xff" + HIGH[14:21] + b"\xff\xff", value)
