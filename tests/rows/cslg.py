"""`cslg`, how composition times relate to decoding times. The bytes of the fields count up from 0x81, after the
version, so that all times are negative: 2^32 - 0x7b7a7979 is 0x84858687. In the other rows the first bytes count up
from 0x01."""

from tests.rows.making import (
    WRONG_VERSION, Box, box, changed, counting, declared, declared_as, fields, full, resized, u32, u64,
)

NAMES = [
    "composition_to_dts_shift", "least_decode_to_display_delta", "greatest_decode_to_display_delta",
    "composition_start_time", "composition_end_time",
]
SHORT = box(b"cslg", b"\0", counting(0x81, 0x97))
LONG = box(b"cslg", b"\1", counting(0x81, 0xAB))


def cslg(version, *times):
    return Box("cslg", version=version, flags=0x818283, **dict(zip(NAMES, times, strict=True)))


SHORT_VALUE = cslg(0, -0x7B7A7979, -0x77767575, -0x73727171, -0x6F6E6D6D, -0x6B6A6969)
LONG_VALUE = cslg(
    1, -0x7B7A7978_77767575, -0x73727170_6F6E6D6D, -0x6B6A6968_67666565, -0x63626160_5F5E5D5D, -0x5B5A5958_57565555,
)


def version_0():
    yield from declared_as(SHORT, SHORT_VALUE)


def version_1_has_longer_times():
    yield from declared_as(LONG, LONG_VALUE)


def times_of_both_signs():
    short = SHORT[:12] + counting(0x01, 0x04) + u32(2**32 - 1, 2**31, 2**31 - 1) + counting(0x05, 0x08)
    yield from declared_as(short, cslg(0, 0x01020304, -1, -(2**31), 2**31 - 1, 0x05060708))
    long = LONG[:12] + counting(0x01, 0x08) + u64(2**64 - 1, 2**63, 2**63 - 1, 2**32 - 1)
    yield from declared_as(long, cslg(1, 0x01020304_05060708, -1, -(2**63), 2**63 - 1, 2**32 - 1))


def a_size_that_is_smaller_than_the_times():
    for size in (8, 31):
        yield declared(resized(SHORT, size), SHORT_VALUE, SHORT)
    yield declared(resized(LONG, 51), LONG_VALUE, LONG)


def other_versions():
    for version in (2, 0x81, 0xFF):
        yield declared(changed(LONG, {8: version}), WRONG_VERSION)


def fields_of_composition_times():
    """ISO/IEC 14496-12, 8.6.1.4."""
    short = u32(11, 2**32 - 12, 13, 2**31, 2**31 - 1)
    yield fields(
        full(b"cslg", short, version=0, flags=0x010203),
        version=0, flags=66051, compositionToDTSShift=11, leastDecodeToDisplayDelta=-12,
        greatestDecodeToDisplayDelta=13, compositionStartTime=-2147483648, compositionEndTime=2147483647,
    )
    long = u64(2**64 - 0x1_0000000B, 12, 0x1_0000000D, 2**64 - 14, 2**63 - 1)
    yield fields(
        full(b"cslg", long, version=1, flags=0x010203),
        version=1, flags=66051, compositionToDTSShift=-4294967307, leastDecodeToDisplayDelta=12,
        greatestDecodeToDisplayDelta=4294967309, compositionStartTime=-14, compositionEndTime=9223372036854775807,
    )
