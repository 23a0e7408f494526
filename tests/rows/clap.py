"""`clap`, the part of a picture that is shown. The bytes of the fields count up from 0x81, so that both offsets are
negative: 2^32 - 0x6e6d6c6c is 0x91929394, and 2^32 - 0x66656464 is 0x999a9b9c."""

from tests.rows.making import Box, box, counting, declared_as, fields, u32

CLAP = box(b"clap", counting(0x81, 0xA0))


def four_fractions():
    value = Box(
        "clap", clean_aperture_width_n=0x81828384, clean_aperture_width_d=0x85868788,
        clean_aperture_height_n=0x898A8B8C, clean_aperture_height_d=0x8D8E8F90, horiz_off_n=-0x6E6D6C6C,
        horiz_off_d=0x95969798, vert_off_n=-0x66656464, vert_off_d=0x9D9E9FA0,
    )
    yield from declared_as(CLAP, value)


def fields_of_four_fractions():
    """ISO/IEC 14496-12, 12.1.4."""
    # Writes -5 as 2^32 - 5, and -7 as 2^32 - 7.
    numbers = u32(1, 2, 3, 4, 0xFFFFFFFB, 6, 0xFFFFFFF9, 8)
    yield fields(
        box(b"clap", numbers), cleanApertureWidthN=1, cleanApertureWidthD=2, cleanApertureHeightN=3,
        cleanApertureHeightD=4, horizOffN=-5, horizOffD=6, vertOffN=-7, vertOffD=8,
    )
