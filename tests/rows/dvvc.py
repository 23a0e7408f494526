"""`dvvC`, how to decode Dolby Vision, a box without version: two bytes, bits, and 16 reserved bytes. The bits after the
two bytes are 1000011 101100 1 0 1, and 1001 followed by 0xabcdef9."""

from tests.rows.making import Box, box, changed, declared, declared_as, fields, u8

DVVC = box(b"dvvC", b"\x81\x82\x87\x65\x9a\xbc\xde\xf9", bytes(16))
CONFIG = {
    "dv_version_major": 0x81, "dv_version_minor": 0x82, "dv_profile": 0x43, "dv_level": 0x2C,
    "rpu_present_flag": True, "el_present_flag": False, "bl_present_flag": True,
    "dv_bl_signal_compatibility_id": 9, "reserved": 0xABCDEF9,
}


def bits():
    yield from declared_as(DVVC, Box("dvvc", config=CONFIG))


def reserved_bytes_are_left_out():
    other = changed(DVVC, {place: 0xD0 + place for place in range(16, 32)})
    yield declared(other, Box("dvvc", config=CONFIG), DVVC)


def fields_of_unusual_bits():
    """Dolby Vision Streams Within the ISO Base Media File Format: the reserved bits aren't 0."""
    # Writes, after the two bytes, the bits 0000111 000110 1 0 1 and 1001, and 28 reserved bits with the value 8.
    yield fields(
        box(b"dvvC", u8(1, 2), b"\x0e\x35\x90\0\0\x08", bytes(16)), dv_version_major=1, dv_version_minor=2,
        dv_profile=7, dv_level=6, rpu_present_flag=1, el_present_flag=0, bl_present_flag=1,
        dv_bl_signal_compatibility_id=9, reserved=8,
    )
