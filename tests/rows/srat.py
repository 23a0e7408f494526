"""`srat`, the sample rate of a sound. The bytes of the fields count up from 0x81, after the version."""

from tests.rows.making import NO_VERSION_1, Box, box, changed, counting, declared, declared_as, fields, full, u32

SRAT = box(b"srat", b"\0", counting(0x81, 0x87))


def a_number():
    yield from declared_as(SRAT, Box("srat", version=0, flags=0x818283, sampling_rate=0x84858687))


def version_1():
    yield declared(changed(SRAT, {8: 1}), NO_VERSION_1)


def fields_of_a_rate():
    """ISO/IEC 14496-12, 12.2.3."""
    yield fields(full(b"srat", u32(192000), flags=0x01_0203), version=0, flags=66051, sampling_rate=192000)
