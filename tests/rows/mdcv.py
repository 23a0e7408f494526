"""`mdcv`, the display of the mastering. The bytes of the fields count up from 0x81."""

from tests.rows.making import Box, box, counting, declared_as, fields, u16, u32

MDCV = box(b"mdcv", counting(0x81, 0x98))


def four_points_and_two_numbers():
    value = Box(
        "mdcv", display_primaries_0={"x": 0x8182, "y": 0x8384}, display_primaries_1={"x": 0x8586, "y": 0x8788},
        display_primaries_2={"x": 0x898A, "y": 0x8B8C}, white_point={"x": 0x8D8E, "y": 0x8F90},
        max_display_mastering_luminance=0x91929394, min_display_mastering_luminance=0x95969798,
    )
    yield from declared_as(MDCV, value)


def fields_of_points_and_luminances():
    """ISO/IEC 14496-12, 12.1.7."""
    yield fields(
        box(b"mdcv", u16(1, 2, 3, 4, 5, 6, 7, 8), u32(9, 10)), display_primaries_x_0=1, display_primaries_y_0=2,
        display_primaries_x_1=3, display_primaries_y_1=4, display_primaries_x_2=5, display_primaries_y_2=6,
        white_point_x=7, white_point_y=8, max_display_mastering_luminance=9, min_display_mastering_luminance=10,
    )
