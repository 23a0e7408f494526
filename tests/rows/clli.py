"""`clli`, the brightness of pictures. The bytes of the fields count up from 0x81."""

from tests.rows.making import Box, box, counting, declared_as, fields, u16

CLLI = box(b"clli", counting(0x81, 0x84))


def two_numbers():
    yield from declared_as(CLLI, Box("clli", max_content_light_level=0x8182, max_pic_average_light_level=0x8384))


def fields_of_both_levels():
    """ISO/IEC 14496-12, 12.1.6."""
    yield fields(box(b"clli", u16(1000, 400)), max_content_light_level=1000, max_pic_average_light_level=400)
