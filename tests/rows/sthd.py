"""`sthd`, the header of subtitles. The bytes of the flags count up from 0x81."""

from tests.rows.making import Box, box, counting, declared_as, fields, full

STHD = box(b"sthd", b"\0", counting(0x81, 0x83))


def version_and_flags():
    yield from declared_as(STHD, Box("sthd", version=0, flags=0x818283))


def fields_of_a_header():
    """ISO/IEC 14496-12, 12.6.2."""
    yield fields(full(b"sthd", flags=9), version=0, flags=9)
