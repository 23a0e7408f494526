"""`ispe`, the size of an image. The bytes of the fields count up from 0x81, after the version."""

from tests.rows.making import NO_VERSION_1, Box, box, changed, counting, declared, declared_as, fields, full, u32

ISPE = box(b"ispe", b"\0", counting(0x81, 0x8B))


def two_numbers():
    value = Box("ispe", version=0, flags=0x818283, image_width=0x84858687, image_height=0x88898A8B)
    yield from declared_as(ISPE, value)


def version_1():
    yield declared(changed(ISPE, {8: 1}), NO_VERSION_1)


def fields_of_a_size():
    """ISO/IEC 23008-12, 6.5.3."""
    yield fields(
        full(b"ispe", u32(640, 480), flags=0x01_0203), version=0, flags=66051, image_width=640, image_height=480,
    )
