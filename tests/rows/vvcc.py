"""`vvcC`, the configuration of a VVC decoder: a byte of bits, and bytes up to its end. The bytes of the fields count up
from 0x81, after the version. The bits of 0x84 are 10000 10 0, and those of 0x85 are 10000 10 1."""

from tests.rows.making import NO_VERSION_1, Box, box, changed, counting, declared, declared_as, fields, full

VVCC = box(b"vvcC", b"\0", counting(0x81, 0x88))


def vvcc(is_present, record):
    front = {"reserved": 0x10, "length_size_minus_one": 2, "ptl_present_flag": is_present}
    return Box("vvcc", version=0, flags=0x818283, front=front, record=list(record))


def bits_and_bytes():
    yield from declared_as(VVCC, vvcc(False, counting(0x85, 0x88)))
    yield from declared_as(changed(VVCC, {12: 0x85}), vvcc(True, counting(0x85, 0x88)))
    yield from declared_as(box(b"vvcC", VVCC[8:13]), vvcc(False, b""))


def version_1():
    yield declared(changed(VVCC, {8: 1}), NO_VERSION_1)


def fields_of_bits_and_bytes():
    """ISO/IEC 14496-15, 11.2.4.2."""
    # Writes the bits 11111 11 0, and then 11110 11 1, whose reserved bits aren't all set.
    yield fields(
        full(b"vvcC", b"\xfe\0", flags=0x01_0203),
        version=0, flags=66051, LengthSizeMinusOne=3, ptl_present_flag=0, data_bytes="00",
    )
    yield fields(
        full(b"vvcC", b"\xf7", flags=0x01_0203),
        version=0, flags=66051, reserved=30, LengthSizeMinusOne=3, ptl_present_flag=1,
    )
