"""`co64`, the offsets of chunks, in 64 bits. After version, flags and count the bytes of the fields count up from
0x85."""

from tests.rows.making import (
    box, counting, fields, full, invalid, large_count, listed, one_row_short, round_trip, too_many, u32, u64,
)
from tests.rows.values import full_box

COUNTED = box(b"co64", counting(0x81, 0x84), u32(3), counting(0x85, 0x9C))
OFFSETS = [0x85868788_898A8B8C, 0x8D8E8F90_91929394, 0x95969798_999A9B9C]
COUNTED_VALUE = full_box("co64", 0x81, 0x828384, entries=OFFSETS)


def three_entries():
    yield round_trip(COUNTED, COUNTED_VALUE)


def one_entry_short():
    yield from one_row_short(COUNTED, COUNTED_VALUE, 8, too_many("co64"))


def large_counts():
    yield from large_count("co64")


def text_of_a_count_without_room():
    text = "co64 entry_count indicates more entries than could fit in the box"
    yield listed(full(b"co64", u32(1)), invalid(text))


def fields_of_two_chunks():
    """ISO/IEC 14496-12, 8.7.5."""
    given = full(b"co64", u32(2), u64(0x1_0000_0003, 4), version=1, flags=2)
    yield fields(given, version=1, flags=2, chunk_offset=[4294967299, 4])
