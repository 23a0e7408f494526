"""`styp`, the brands of a segment, up to its end. The bytes of the fields count up from 0x81."""

from tests.rows.making import NOT_FILLED, Box, box, counting, declared, declared_as, fields, resized, u32

STYP = box(b"styp", counting(0x81, 0x94))


def brands_up_to_the_end():
    brands = [0x898A8B8C, 0x8D8E8F90, 0x91929394]
    value = Box("styp", major_brand=0x81828384, minor_version=0x85868788, compatible_brands=brands)
    yield from declared_as(STYP, value)


def a_size_that_ends_inside_a_brand():
    yield declared(resized(STYP, 27), NOT_FILLED)


def fields_of_types_of_segments():
    """ISO/IEC 14496-12, 8.16.2 and 4.3."""
    yield fields(
        box(b"styp", b"dash", u32(7), b"iso6", b"msdh", b"msix"),
        major_brand="dash", minor_version=7, compatible_brands=["iso6", "msdh", "msix"],
    )
    yield fields(
        box(b"styp", b"M4A ", u32(8), b"\xa9x\"\0"),
        major_brand="M4A ", minor_version=8, compatible_brands=["©x\"\0"],
    )
