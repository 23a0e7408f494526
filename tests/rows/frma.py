"""`frma`, the format before a transformation. The bytes of the code count up from 0x81."""

from tests.rows.making import Box, box, counting, declared_as, fields

FRMA = box(b"frma", counting(0x81, 0x84))


def a_code():
    yield from declared_as(FRMA, Box("frma", data_format=0x81828384))


def fields_of_a_format():
    """ISO/IEC 14496-12, 8.12.2."""
    yield fields(box(b"frma", b"avc1"), data_format="avc1")
