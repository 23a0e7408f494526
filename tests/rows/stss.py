"""`stss`, the numbers of sync samples. After version, flags and count the bytes of the fields count up from 0x85."""

from tests.rows.making import (
    box, counting, fields, full, invalid, large_count, listed, one_row_short, round_trip, too_many, u32,
)
from tests.rows.values import full_box

COUNTED = box(b"stss", counting(0x81, 0x84), u32(3), counting(0x85, 0x90))
COUNTED_VALUE = full_box("stss", 0x81, 0x828384, entries=[0x85868788, 0x898A8B8C, 0x8D8E8F90])


def three_entries():
    yield round_trip(COUNTED, COUNTED_VALUE)


def one_entry_short():
    yield from one_row_short(COUNTED, COUNTED_VALUE, 4, too_many("stss"))


def large_counts():
    yield from large_count("stss")


def text_of_a_count_without_room():
    text = "stss entry_count indicates more entries than could fit in the box"
    yield listed(full(b"stss", u32(1)), invalid(text))


def fields_of_two_sync_samples():
    """ISO/IEC 14496-12, 8.6.2."""
    yield fields(full(b"stss", u32(2, 3, 4), version=1, flags=2), version=1, flags=2, sample_number=[3, 4])
