"""`auxC`, the role of an auxiliary image: a string that a byte of 0 ends, and bytes. The bytes of the fields count up
from 0x81, after the version."""

from tests.rows.making import (
    NO_END, NO_VERSION_1, Box, box, changed, counting, declared, declared_as, fields, full, resized,
)

AUXC = box(b"auxC", b"\0", counting(0x81, 0x86), b"\0", counting(0x87, 0x88))


def auxc(kind, more):
    return Box("auxc", version=0, flags=0x818283, aux_type=list(kind), aux_subtype=list(more))


def a_string_and_bytes():
    yield from declared_as(AUXC, auxc(b"\x84\x85\x86", b"\x87\x88"))
    yield from declared_as(box(b"auxC", AUXC[8:12], b"\0"), auxc(b"", b""))
    yield from declared_as(box(b"auxC", AUXC[8:12], b"\0\0\x81"), auxc(b"", b"\0\x81"))


def a_string_without_an_end():
    yield declared(changed(AUXC, {15: 0x89}), NO_END)
    yield declared(resized(AUXC[:15], 15), NO_END)


def version_1():
    yield declared(changed(AUXC, {8: 1}), NO_VERSION_1)


def fields_of_roles():
    """ISO/IEC 23008-12, 6.5.8."""
    yield fields(
        full(b"auxC", b"urn:mpeg:hevc:2015:auxid:1\0", flags=0x01_0203),
        version=0, flags=66051, aux_type="urn:mpeg:hevc:2015:auxid:1",
    )
    # Takes a role that isn't UTF-8, with bytes after it.
    yield fields(
        full(b"auxC", b"a\xff\0", b"\x01\x02", flags=0x01_0203),
        version=0, flags=66051, aux_type="a\ufffd", aux_type_hex="61ff", aux_subtype="0102",
    )
