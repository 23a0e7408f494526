"""`stts`, the durations of samples. After version, flags and count the bytes of the fields count up from 0x85."""

from tests.rows.making import (
    box, counting, fields, full, invalid, large_count, listed, one_row_short, round_trip, too_many, u32,
)
from tests.rows.values import full_box

COUNTED = box(b"stts", counting(0x81, 0x84), u32(3), counting(0x85, 0x9C))
COUNTED_VALUE = full_box("stts", 0x81, 0x828384, entries=[
    {"sample_count": 0x85868788, "sample_delta": 0x898A8B8C},
    {"sample_count": 0x8D8E8F90, "sample_delta": 0x91929394},
    {"sample_count": 0x95969798, "sample_delta": 0x999A9B9C},
])


def three_entries():
    yield round_trip(COUNTED, COUNTED_VALUE)


def one_entry_short():
    yield from one_row_short(COUNTED, COUNTED_VALUE, 8, too_many("stts"))


def large_counts():
    yield from large_count("stts")


def text_of_a_count_without_room():
    text = "stts entry_count indicates more entries than could fit in the box"
    yield listed(full(b"stts", u32(1)), invalid(text))


def fields_of_two_runs():
    """ISO/IEC 14496-12, 8.6.1.2."""
    yield fields(full(b"stts", u32(2, 3, 4, 5, 6), version=1, flags=2), version=1, flags=2, entries=[
        {"sample_count": 3, "sample_delta": 4}, {"sample_count": 5, "sample_delta": 6},
    ])
