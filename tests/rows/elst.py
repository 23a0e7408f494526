"""`elst`, the edits of a track. After version, flags and count the bytes of the fields count up, from 0x85 or 0x84."""

from tests.rows.making import (
    any_size, box, counting, fields, full, invalid, large_count, listed, one, one_row_short, round_trip, too_many, u8,
    u16, u32, u64,
)
from tests.rows.values import elst, full_box

NAMES = ("segment_duration", "media_time", "media_rate", "media_rate_fraction")


def edits(*rows):
    return [dict(zip(NAMES, row)) for row in rows]


SHORT = box(b"elst", u8(0), counting(0x81, 0x83), u32(3), counting(0x84, 0xA7))
SHORT_VALUE = full_box("elst", 0, 0x818283, entries=edits(
    (0x84858687, 0x88898A8B, 0x8C8D, 0x8E8F),
    (0x90919293, 0x94959697, 0x9899, 0x9A9B),
    (0x9C9D9E9F, 0xA0A1A2A3, 0xA4A5, 0xA6A7),
))

# Every version but 1 has times of 32 bits.
OTHER = box(b"elst", counting(0x81, 0x84), u32(3), counting(0x85, 0xA8))
OTHER_VALUE = full_box("elst", 0x81, 0x828384, entries=edits(
    (0x85868788, 0x898A8B8C, 0x8D8E, 0x8F90),
    (0x91929394, 0x95969798, 0x999A, 0x9B9C),
    (0x9D9E9FA0, 0xA1A2A3A4, 0xA5A6, 0xA7A8),
))

LONG = box(b"elst", u8(1), counting(0x81, 0x83), u32(3), counting(0x84, 0xBF))
LONG_VALUE = full_box("elst", 1, 0x818283, entries=edits(
    (0x84858687_88898A8B, 0x8C8D8E8F_90919293, 0x9495, 0x9697),
    (0x98999A9B_9C9D9E9F, 0xA0A1A2A3_A4A5A6A7, 0xA8A9, 0xAAAB),
    (0xACADAEAF_B0B1B2B3, 0xB4B5B6B7_B8B9BABB, 0xBCBD, 0xBEBF),
))


def three_edits():
    yield round_trip(SHORT, SHORT_VALUE)
    yield round_trip(OTHER, OTHER_VALUE)
    yield round_trip(LONG, LONG_VALUE)


def edits_of_other_versions():
    given = full(b"elst", u32(1, 634634, 0), u16(1, 0), version=2)
    yield round_trip(given, elst(2, 634634, 0))
    given = full(b"elst", u32(1), u64(634634, 2**32), u16(1, 0), version=1)
    yield round_trip(given, elst(1, 634634, 2**32))


def one_edit_short():
    yield from one_row_short(SHORT, SHORT_VALUE, 12, too_many("elst"))
    yield from one_row_short(OTHER, OTHER_VALUE, 12, too_many("elst"))
    yield from one_row_short(LONG, LONG_VALUE, 20, too_many("elst"))


def large_counts():
    yield from large_count("elst", version=1)


def text_of_a_count_without_room():
    text = "elst entry_count indicates more entries than could fit in the box"
    yield listed(full(b"elst", u32(1)), invalid(text))


def edits_of_64_bits_have_no_room():
    """The row has 12 bytes in version 1, where a row needs 20."""
    yield one(full(b"elst", u32(1, 634634, 0), u32(0x10000), version=1), too_many("elst"))


def empty_table_of_any_size():
    yield from any_size(full(b"elst", u32(0)), full_box("elst", entries=[]))


def fields_of_two_edits():
    """ISO/IEC 14496-12, 8.6.6. An empty edit has the media time -1, of 32 bits in version 0."""
    last = {"segment_duration": 5, "media_time": 6, "media_rate_integer": -2, "media_rate_fraction": -7}
    for version, number, media_time in [(0, u32, -1), (1, u64, 4294967295)]:
        given = full(
            b"elst", u32(2), number(3, 0xFFFFFFFF), u16(1, 4), number(5, 6), u16(0xFFFE, 0xFFF9), version=version,
            flags=2,
        )
        yield fields(given, version=version, flags=2, entries=[
            {"segment_duration": 3, "media_time": media_time, "media_rate_integer": 1, "media_rate_fraction": 4}, last,
        ])
