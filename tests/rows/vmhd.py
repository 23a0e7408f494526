"""`vmhd`, the header of a video media. The bytes of the fields count up from 0x81."""

from tests.rows.making import box, counting, fields, full, round_trip, u16
from tests.rows.values import full_box


def every_field():
    color = {"red": 0x8788, "green": 0x898A, "blue": 0x8B8C}
    value = full_box("vmhd", 0x81, 0x828384, graphics_mode=0x8586, op_color=color)
    yield round_trip(box(b"vmhd", counting(0x81, 0x8C)), value)


def colors():
    color = {"red": 1, "green": 2, "blue": 3}
    value = full_box("vmhd", flags=1, graphics_mode=0, op_color=color)
    yield round_trip(full(b"vmhd", u16(0, 1, 2, 3), flags=1), value)


def fields_of_a_color():
    """ISO/IEC 14496-12, 12.1.2."""
    yield fields(
        full(b"vmhd", u16(3, 4, 5, 6), version=1, flags=2),
        version=1, flags=2, graphicsmode=3, opcolor_red=4, opcolor_green=5, opcolor_blue=6,
    )
