"""`iloc`, the places of items: the sizes of fields, a count of 4 bytes in version 2 and of 2 bytes before it, and bytes
up to its end. The bytes of the fields count up from 0x81, after the version. The bits of 0x84 and 0x85 are 1000 0100
1000 0101."""

from tests.rows.making import Box, box, changed, counting, declared, declared_as, fields, full, invalid, u8, u16

SHORT = box(b"iloc", b"\0", counting(0x81, 0x8A))
LONG = box(b"iloc", b"\2", counting(0x81, 0x8A))
SIZES = {"offset_size": 8, "length_size": 4, "base_offset_size": 8, "index_size": 5}


def iloc(version, count, items):
    return Box("iloc", version=version, flags=0x818283, sizes=SIZES, item_count=count, items=list(items))


def each_version():
    yield from declared_as(SHORT, iloc(0, 0x8687, b"\x88\x89\x8a"))
    yield from declared_as(changed(SHORT, {8: 1}), iloc(1, 0x8687, b"\x88\x89\x8a"))
    yield from declared_as(LONG, iloc(2, 0x86878889, b"\x8a"))


def no_items():
    yield from declared_as(box(b"iloc", SHORT[8:16]), iloc(0, 0x8687, b""))
    yield from declared_as(box(b"iloc", LONG[8:18]), iloc(2, 0x86878889, b""))


def version_3():
    yield declared(changed(SHORT, {8: 3}), invalid("version is too large"))


def fields_of_places():
    """ISO/IEC 14496-12, 8.11.3."""
    yield fields(
        full(b"iloc", u8(0x48, 0x03), u16(2), b"\1\2", version=1, flags=0x01_0203),
        version=1, flags=66051, offset_size=4, length_size=8, base_offset_size=0, index_size=3, item_count=2,
        data_bytes="0102",
    )
