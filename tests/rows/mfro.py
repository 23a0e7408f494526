"""`mfro`, the length of the `mfra` around it. The bytes of the fields count up from 0x81, after the version."""

from tests.rows.making import NO_VERSION_1, Box, box, changed, counting, declared, declared_as, fields, full, u32

MFRO = box(b"mfro", b"\0", counting(0x81, 0x87))


def a_number():
    yield from declared_as(MFRO, Box("mfro", version=0, flags=0x818283, parent_size=0x84858687))


def version_1():
    yield declared(changed(MFRO, {8: 1}), NO_VERSION_1)


def fields_of_a_size():
    """ISO/IEC 14496-12, 8.8.11."""
    yield fields(full(b"mfro", u32(3), version=0, flags=2), version=0, flags=2, parent_size=3)
