"""`irot`, the rotation of an image, a box without version: six reserved bits, and an angle of two. The bits of 0x86 are
100001 10."""

from tests.rows.making import Box, box, declared_as, fields


def reserved_bits_and_an_angle():
    yield from declared_as(box(b"irot", b"\x86"), Box("irot", rotation={"reserved": 0x21, "angle": 2}))


def fields_of_rotations():
    """ISO/IEC 23008-12, 6.5.10."""
    # Writes the bits 000000 11, and then 000101 01, whose reserved bits aren't 0.
    yield fields(box(b"irot", b"\x03"), angle=3, angle_name="270 degrees anticlockwise")
    yield fields(box(b"irot", b"\x15"), reserved=5, angle=1, angle_name="90 degrees anticlockwise")
