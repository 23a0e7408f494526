"""`ssix`, the levels of subsegments: counted subsegments, each with counted ranges of a level and 24 bits. The bytes of
the fields count up from 0x81, after the version and around the counts."""

from tests.rows.making import (
    END, NO_VERSION_1, TOO_MANY_ENTRIES, Box, box, changed, counting, declared, declared_as, fields, full, resized, u8,
    u24, u32,
)

# Three subsegments: with two ranges, with none, and with one.
THREE = box(b"ssix", b"\0", counting(0x81, 0x83), u32(3, 2), counting(0x84, 0x8B), u32(0, 1), counting(0x8C, 0x8F))


def ssix(*subsegments):
    found = [{"ranges": [{"level": level, "range_size": size} for level, size in ranges]} for ranges in subsegments]
    return Box("ssix", version=0, flags=0x818283, subsegments=found)


VALUE = ssix([(0x84, 0x858687), (0x88, 0x898A8B)], [], [(0x8C, 0x8D8E8F)])


def three_subsegments_and_none():
    yield from declared_as(THREE, VALUE)
    yield from declared_as(box(b"ssix", THREE[8:12], u32(0)), ssix())


def counts_that_are_too_large():
    yield declared(changed(THREE, {15: 4}), END)
    yield declared(changed(THREE, {len(THREE) - 5: 2}), TOO_MANY_ENTRIES)
    yield declared(resized(THREE, len(THREE) - 1), TOO_MANY_ENTRIES)


def version_1():
    yield declared(changed(THREE, {8: 1}), NO_VERSION_1)


def fields_of_levels():
    """ISO/IEC 14496-12, 8.16.4."""
    ranges = [{"level": 2, "range_size": 3}, {"level": 4, "range_size": 16777215}]
    yield fields(
        full(b"ssix", u32(2), u32(2), u8(2), u24(3), u8(4), u24(0xFF_FFFF), u32(0), flags=0x01_0203),
        version=0, flags=66051, subsegment_count=2,
        subsegments=[{"range_count": 2, "ranges": ranges}, {"range_count": 0, "ranges": []}],
    )
