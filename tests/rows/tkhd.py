"""`tkhd`, the header of a track. The bytes of the fields count up from 0x81, after the version."""

from tests.rows.making import (
    box, counting, fields, filled, full, round_trip, u8, u16, u32, u64, versions_above_1, written_as,
)
from tests.rows.values import LONG_MATRIX, SHORT_MATRIX, full_box

SHORT = box(
    b"tkhd", u8(0), counting(0x81, 0x8F), bytes(4), counting(0x90, 0x93), bytes(8), counting(0x94, 0x99), bytes(2),
    counting(0x9A, 0xC5),
)
SHORT_VALUE = full_box(
    "tkhd", 0, 0x818283, creation_time=0x84858687, modification_time=0x88898A8B, track_id=0x8C8D8E8F,
    duration=0x90919293, layer=0x9495, alternate_group=0x9697, volume=0x9899, matrix=SHORT_MATRIX, width=0xBEBFC0C1,
    height=0xC2C3C4C5,
)

LONG = box(
    b"tkhd", u8(1), counting(0x81, 0x97), bytes(4), counting(0x98, 0x9F), bytes(8), counting(0xA0, 0xA5), bytes(2),
    counting(0xA6, 0xD1),
)
LONG_VALUE = full_box(
    "tkhd", 1, 0x818283, creation_time=0x84858687_88898A8B, modification_time=0x8C8D8E8F_90919293, track_id=0x94959697,
    duration=0x98999A9B_9C9D9E9F, layer=0xA0A1, alternate_group=0xA2A3, volume=0xA4A5, matrix=LONG_MATRIX,
    width=0xCACBCCCD, height=0xCECFD0D1,
)


def every_field():
    yield round_trip(SHORT, SHORT_VALUE)
    yield round_trip(LONG, LONG_VALUE)


def reserved_bytes_are_ignored():
    yield written_as(filled(SHORT, 0xFF, range(24, 28), range(32, 40), range(46, 48)), SHORT_VALUE, SHORT)
    yield written_as(filled(LONG, 0xFF, range(32, 36), range(44, 52), range(58, 60)), LONG_VALUE, LONG)


def other_versions():
    yield from versions_above_1(LONG)


def matrix_of_small_numbers():
    given = full(
        b"tkhd", u32(0x01020304, 0x05060708, 0x090A0B0C, 0, 0x0D0E0F10, 0, 0), u16(0x1112, 0x1314, 0x1516, 0),
        u32(1, 0xFFFFFFFF, 2, 0xFFFFFFFE, 3, 0xFFFFFFFD, 0x7FFFFFFF, 0x80000000, 4), u32(0x17181920, 0x21222324),
        flags=7,
    )
    matrix = {"a": 1, "b": -1, "u": 2, "c": -2, "d": 3, "v": -3, "x": 0x7FFFFFFF, "y": -0x80000000, "w": 4}
    yield round_trip(given, full_box(
        "tkhd", flags=7, creation_time=0x01020304, modification_time=0x05060708, track_id=0x090A0B0C,
        duration=0x0D0E0F10, layer=0x1112, alternate_group=0x1314, volume=0x1516, matrix=matrix, width=0x17181920,
        height=0x21222324,
    ))


def fields_of_a_track():
    """ISO/IEC 14496-12, 8.3.2. The layer, the group and the volume have a sign."""
    matrix = u32(0x18000, 0xFFFE0000, 0x40000000, 0x34000, 0x42000, 0xE0000000, 0x51000, 0x60800, 0x70000000)
    given = full(
        b"tkhd", u64(2, 3), u32(4, 0), u64(5), bytes(8), u16(0xFFFA, 0xFFF9, 0x0180, 0), matrix,
        u32(0x02804000, 0x01688000), version=1, flags=7,
    )
    yield fields(
        given, version=1, flags=7, creation_time=2, modification_time=3, track_ID=4, duration=5, layer=-6,
        alternate_group=-7, volume=1.5,
        matrix={"a": 1.5, "b": -2.0, "u": 1.0, "c": 3.25, "d": 4.125, "v": -0.5, "x": 5.0625, "y": 6.03125, "w": 1.75},
        width=640.25, height=360.5,
    )
