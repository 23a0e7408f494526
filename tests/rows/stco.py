"""`stco`, the offsets of chunks, in 32 bits. After version, flags and count the bytes of the fields count up from
0x85."""

from tests.rows.making import (
    END, LARGEST, any_size, box, counting, fields, full, invalid, large_count, listed, one, one_row_short, round_trip,
    too_many, u32,
)
from tests.rows.values import full_box

COUNTED = box(b"stco", counting(0x81, 0x84), u32(3), counting(0x85, 0x90))
COUNTED_VALUE = full_box("stco", 0x81, 0x828384, entries=[0x85868788, 0x898A8B8C, 0x8D8E8F90])


def three_entries():
    yield round_trip(COUNTED, COUNTED_VALUE)


def one_entry_short():
    yield from one_row_short(COUNTED, COUNTED_VALUE, 4, too_many("stco"))


def large_counts():
    yield from large_count("stco")


def text_of_a_count_without_room():
    text = "stco entry_count indicates more entries than could fit in the box"
    yield listed(full(b"stco", u32(1)), invalid(text))


def counts_without_room():
    for count, size, expected in [
        (2, 20, too_many("stco")),
        (2, 24, END),
        (2, LARGEST, END),
        (2**32 - 1, 20, too_many("stco")),
        (2**32 - 1, LARGEST, END),
    ]:
        yield one(full(b"stco", u32(count, 267), size=size), expected)


def one_chunk():
    yield round_trip(full(b"stco", u32(1, 267), version=1, flags=5), full_box("stco", 1, 5, entries=[267]))


def empty_table_of_any_size():
    yield from any_size(full(b"stco", u32(0)), full_box("stco", entries=[]))


def fields_of_two_chunks():
    """ISO/IEC 14496-12, 8.7.5."""
    yield fields(full(b"stco", u32(2, 3, 4), version=1, flags=2), version=1, flags=2, chunk_offset=[3, 4])
