"""`alis`, a reference to media data by an alias of a Macintosh. The bytes of the fields count up from 0x81, after the
version."""

from tests.rows.making import (
    END, NO_VERSION_1, Box, box, changed, counting, declared, declared_as, fields, full, resized,
)

ALIS = box(b"alis", b"\0", counting(0x81, 0x86))


def alis(alias):
    return Box("alis", version=0, flags=0x818283, alias=list(alias))


def with_and_without_an_alias():
    yield from declared_as(ALIS, alis(counting(0x84, 0x86)))
    yield from declared_as(box(b"alis", ALIS[8:12]), alis(b""))


def other_sizes():
    yield declared(resized(ALIS, 14), alis(counting(0x84, 0x85)), resized(ALIS[:-1], 14))
    yield declared(resized(ALIS, 16), END)


def version_1():
    yield declared(changed(ALIS, {8: 1}), NO_VERSION_1)


def fields_of_an_alias():
    """QuickTime File Format, "Data reference atoms"."""
    yield fields(full(b"alis", b"\0\1\2", flags=0x01_0203), version=0, flags=66051, data_bytes="000102")
    yield fields(full(b"alis", flags=1), version=0, flags=1)


def fields_in_a_data_reference():
    """QuickTime File Format, "Data reference atoms": the last of two references."""
    references = full(b"dref", b"\0\0\0\2", full(b"url ", flags=1), full(b"alis", b"\7", flags=2))
    yield fields(box(b"dinf", references), version=0, flags=2, data_bytes="07")
