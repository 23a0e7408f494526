"""`iods`, a description of a presentation: bytes up to its end. The bytes of the fields count up from 0x81, after the
version."""

from tests.rows.making import NO_VERSION_1, Box, box, changed, counting, declared, declared_as, fields, full

IODS = box(b"iods", b"\0", counting(0x81, 0x88))


def iods(descriptor):
    return Box("iods", version=0, flags=0x818283, descriptor=list(descriptor))


def five_bytes_and_none():
    yield from declared_as(IODS, iods(counting(0x84, 0x88)))
    yield from declared_as(box(b"iods", IODS[8:12]), iods(b""))


def version_1():
    yield declared(changed(IODS, {8: 1}), NO_VERSION_1)


def fields_of_presentations():
    """ISO/IEC 14496-14, 5.1."""
    yield fields(full(b"iods", b"\x10\2", flags=0x01_0203), version=0, flags=66051, OD="1002")
    yield fields(full(b"iods"), version=0, flags=0, OD="")
