"""`pasp`, the shape of a pixel, a box without version. The bytes of the fields count up from 0x81."""

from tests.rows.making import Box, box, counting, declared_as, fields, u32

PASP = box(b"pasp", counting(0x81, 0x88))


def two_numbers():
    yield from declared_as(PASP, Box("pasp", h_spacing=0x81828384, v_spacing=0x85868788))


def fields_of_both_numbers():
    """ISO/IEC 14496-12, 12.1.4.2."""
    yield fields(box(b"pasp", u32(4, 3)), hSpacing=4, vSpacing=3)
