"""`nmhd`, a header of media. The bytes of the flags count up from 0x81."""

from tests.rows.making import Box, box, counting, declared_as, fields, full

NMHD = box(b"nmhd", b"\0", counting(0x81, 0x83))


def version_and_flags():
    yield from declared_as(NMHD, Box("nmhd", version=0, flags=0x818283))


def fields_of_a_header():
    """ISO/IEC 14496-12, 8.4.5.2."""
    yield fields(full(b"nmhd", flags=0x01_0203), version=0, flags=66051)
