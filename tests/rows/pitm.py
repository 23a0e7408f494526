"""`pitm`, the item to show first: its number has 2 bytes in version 0, and 4 in version 1. The bytes of the fields
count up from 0x81, after the version."""

from tests.rows.making import WRONG_VERSION, Box, box, changed, counting, declared, declared_as, fields, full, u32

SHORT = box(b"pitm", b"\0", counting(0x81, 0x85))
LONG = box(b"pitm", b"\1", counting(0x81, 0x87))


def each_version():
    yield from declared_as(SHORT, Box("pitm", version=0, flags=0x818283, item_id=0x8485))
    yield from declared_as(LONG, Box("pitm", version=1, flags=0x818283, item_id=0x84858687))


def version_2():
    yield declared(changed(LONG, {8: 2}), WRONG_VERSION)


def fields_of_a_primary_item():
    """ISO/IEC 14496-12, 8.11.4."""
    yield fields(full(b"pitm", u32(0x1_0000), version=1, flags=0x01_0203), version=1, flags=66051, item_ID=65536)
