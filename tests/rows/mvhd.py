"""`mvhd`, the header of a movie. The bytes of the fields count up from 0x81, after the version."""

from tests.rows.making import (
    WRONG_VERSION, box, counting, fields, filled, full, listed, one, round_trip, u8, u16, u32, u64, versions_above_1,
    written_as,
)
from tests.rows.values import LONG_MATRIX, SHORT_MATRIX, full_box

SHORT = box(
    b"mvhd", u8(0), counting(0x81, 0x99), bytes(10), counting(0x9A, 0xBD), bytes(24), counting(0xBE, 0xC1),
)
SHORT_VALUE = full_box(
    "mvhd", 0, 0x818283, creation_time=0x84858687, modification_time=0x88898A8B, timescale=0x8C8D8E8F,
    duration=0x90919293, rate=0x94959697, volume=0x9899, matrix=SHORT_MATRIX, next_track_id=0xBEBFC0C1,
)

LONG = box(
    b"mvhd", u8(1), counting(0x81, 0xA5), bytes(10), counting(0xA6, 0xC9), bytes(24), counting(0xCA, 0xCD),
)
LONG_VALUE = full_box(
    "mvhd", 1, 0x818283, creation_time=0x84858687_88898A8B, modification_time=0x8C8D8E8F_90919293,
    timescale=0x94959697, duration=0x98999A9B_9C9D9E9F, rate=0xA0A1A2A3, volume=0xA4A5, matrix=LONG_MATRIX,
    next_track_id=0xCACBCCCD,
)


def every_field():
    yield round_trip(SHORT, SHORT_VALUE)
    yield round_trip(LONG, LONG_VALUE)


def reserved_bytes_are_ignored():
    yield written_as(filled(SHORT, 0xFF, range(34, 44), range(80, 104)), SHORT_VALUE, SHORT)
    yield written_as(filled(LONG, 0xFF, range(46, 56), range(92, 116)), LONG_VALUE, LONG)


def other_versions():
    yield from versions_above_1(LONG)


def fields_of_an_unknown_version_are_missing():
    yield one(full(b"mvhd", version=2, size=108), WRONG_VERSION)
    yield listed(full(b"mvhd", version=2), WRONG_VERSION)


def fields_of_a_movie():
    """ISO/IEC 14496-12, 8.2.2. The rate and the volume have a sign."""
    matrix = u32(0x18000, 0xFFFE0000, 0x40000000, 0x34000, 0x42000, 0xE0000000, 0x51000, 0x60800, 0x70000000)
    given = full(
        b"mvhd", u64(3, 4), u32(5), u64(6), u32(0xFFFF8000), u16(0xFF40), bytes(10), matrix, bytes(24), u32(7),
        version=1, flags=2,
    )
    yield fields(
        given, version=1, flags=2, creation_time=3, modification_time=4, timescale=5, duration=6, rate=-0.5,
        volume=-0.75,
        matrix={"a": 1.5, "b": -2.0, "u": 1.0, "c": 3.25, "d": 4.125, "v": -0.5, "x": 5.0625, "y": 6.03125, "w": 1.75},
        next_track_ID=7,
    )
