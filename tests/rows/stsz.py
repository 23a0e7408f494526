"""`stsz`, the sizes of samples. After version, flags and counts the bytes of the fields count up from 0x85."""

from tests.rows.making import (
    any_size, box, counting, fields, full, large_count, listed, one_row_short, round_trip, too_many, u32,
)
from tests.rows.values import full_box

COUNTED = box(b"stsz", counting(0x81, 0x84), u32(0, 3), counting(0x85, 0x90))
COUNTED_VALUE = full_box(
    "stsz", 0x81, 0x828384, sample_size=0, sample_count=3, sample_sizes=[0x85868788, 0x898A8B8C, 0x8D8E8F90],
)
TOO_MANY = too_many("stsz", "sample_count", "values")


def three_sizes():
    yield round_trip(COUNTED, COUNTED_VALUE)


def one_size_of_all_samples():
    yield round_trip(box(b"stsz", counting(0x81, 0x8C)), full_box(
        "stsz", 0x81, 0x828384, sample_size=0x85868788, sample_count=0x898A8B8C, sample_sizes=[],
    ))


def samples_of_one_size_take_no_list():
    given = full(b"stsz", u32(1, 2**32 - 1))
    yield round_trip(given, full_box("stsz", sample_size=1, sample_count=2**32 - 1, sample_sizes=[]))


def one_size_short():
    yield from one_row_short(COUNTED, COUNTED_VALUE, 4, TOO_MANY)


def large_counts():
    yield from large_count("stsz", 0, fault=TOO_MANY)


def text_of_a_count_without_room():
    yield listed(full(b"stsz", u32(0, 1)), TOO_MANY)


def empty_table_of_any_size():
    yield from any_size(full(b"stsz", u32(0, 0)), full_box("stsz", sample_size=0, sample_count=0, sample_sizes=[]))


def fields_of_one_size_and_of_two():
    """ISO/IEC 14496-12, 8.7.3.2."""
    yield fields(
        full(b"stsz", u32(3, 4), version=1, flags=2),
        version=1, flags=2, sample_size=3, sample_count=4, entry_size=[],
    )
    yield fields(
        full(b"stsz", u32(0, 2, 5, 6), version=1, flags=2),
        version=1, flags=2, sample_size=0, sample_count=2, entry_size=[5, 6],
    )
