"""`leva`, the levels of fragments: a number of levels, and bytes up to its end. The bytes of the fields count up from
0x81, after the version."""

from tests.rows.making import NO_VERSION_1, Box, box, changed, counting, declared, declared_as, fields, full, u8

LEVA = box(b"leva", b"\0", counting(0x81, 0x89))


def leva(levels):
    return Box("leva", version=0, flags=0x818283, level_count=0x84, levels=list(levels))


def five_bytes_and_none():
    yield from declared_as(LEVA, leva(counting(0x85, 0x89)))
    yield from declared_as(box(b"leva", LEVA[8:13]), leva(b""))


def version_1():
    yield declared(changed(LEVA, {8: 1}), NO_VERSION_1)


def fields_of_levels():
    """ISO/IEC 14496-12, 8.8.13."""
    yield fields(
        full(b"leva", u8(4), b"\5\6", flags=0x01_0203), version=0, flags=66051, level_count=4, data_bytes="0506",
    )
