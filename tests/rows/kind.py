"""`kind`, the purpose of a track: two strings, each of which a byte of 0 ends. The bytes of the fields count up from
0x81, after the version."""

from tests.rows.making import (
    END, NO_END, NO_VERSION_1, Box, box, changed, counting, declared, declared_as, fields, full, resized,
)

# A string of three bytes, and one of two.
KIND = box(b"kind", b"\0", counting(0x81, 0x86), b"\0", counting(0x87, 0x88), b"\0")


def kind(scheme, value):
    return Box("kind", version=0, flags=0x818283, scheme_uri=list(scheme), value=list(value))


VALUE = kind(b"\x84\x85\x86", b"\x87\x88")


def two_strings():
    yield from declared_as(KIND, VALUE)
    yield from declared_as(box(b"kind", KIND[8:12], b"\0\0"), kind(b"", b""))
    yield from declared_as(box(b"kind", KIND[8:12], b"urn:a\0\0"), kind(b"urn:a", b""))
    yield from declared_as(box(b"kind", KIND[8:12], b"\0main\0"), kind(b"", b"main"))


def bytes_after_the_strings_are_left_out():
    yield declared(resized(KIND + b"\x8a\0", 21), VALUE, KIND)


def strings_without_an_end():
    for length, size, expected in [
        (19, 12, NO_END),
        (19, 15, NO_END),
        (19, 16, NO_END),
        (19, 18, NO_END),
        (15, 15, NO_END),
        (15, 16, END),
        (18, 18, NO_END),
        (18, 19, END),
    ]:
        yield declared(resized(KIND[:length], size), expected)
    yield declared(changed(KIND, {18: 0x89}), NO_END)
    yield declared(changed(KIND, {15: 0x89, 18: 0x8A}), NO_END)


def version_1():
    yield declared(changed(KIND, {8: 1}), NO_VERSION_1)


def fields_of_kinds():
    """ISO/IEC 14496-12, 8.10.4: texts that are UTF-8, and others."""
    role = {"schemeURI": "urn:mpeg:dash:role:2011", "value": "main"}
    others = {"schemeURI": "u\ufffd", "schemeURI_hex": "75c3", "value": "\ufffdv", "value_hex": "fe76"}
    for texts, shown in [(b"urn:mpeg:dash:role:2011\0main\0", role), (b"u\xc3\0\xfev\0", others)]:
        yield fields(full(b"kind", texts, flags=0x01_0203), version=0, flags=66051, **shown)
