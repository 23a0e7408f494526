"""`urn `, a reference to media data by a name, and a location if there is one. The bytes of the fields count up from
0x81, after the version, except those of 0 that end a string."""

from tests.rows.making import (
    END, NO_END, NO_VERSION_1, Box, box, changed, counting, declared, declared_as, fields, full, resized,
)

NAME, LOCATION = counting(0x84, 0x86), counting(0x87, 0x89) + b"\0"
URN = box(b"urn ", b"\0", counting(0x81, 0x83), NAME, b"\0", LOCATION)


def urn(name, location):
    return Box("urn", version=0, flags=0x818283, name=list(name), location=list(location))


def with_and_without_a_location():
    yield from declared_as(URN, urn(NAME, LOCATION))
    yield from declared_as(box(b"urn ", URN[8:16]), urn(NAME, b""))
    yield from declared_as(box(b"urn ", URN[8:12], b"\0"), urn(b"", b""))


def a_location_without_an_end():
    yield from declared_as(box(b"urn ", URN[8:19]), urn(NAME, counting(0x87, 0x89)))


def a_name_without_an_end():
    yield declared(resized(URN, 15), NO_END)
    yield declared(resized(URN, 12), NO_END)
    yield declared(box(b"urn ", URN[8:15]), NO_END)
    yield declared(resized(URN[:15], 16), END)


def other_sizes():
    yield declared(resized(URN, 19), urn(NAME, LOCATION[:-1]), resized(URN[:-1], 19))
    yield declared(resized(URN, 21), END)


def version_1():
    yield declared(changed(URN, {8: 1}), NO_VERSION_1)


def fields_of_names():
    """ISO/IEC 14496-12, 8.7.2."""
    for flags in (0, 1, 0x01_0203):
        yield fields(full(b"urn ", b"urn:a\0", flags=flags), version=0, flags=flags, name="urn:a")
    yield fields(
        full(b"urn ", b"urn:b\0http://c\0", flags=2), version=0, flags=2, name="urn:b", location="http://c")


def fields_of_other_bytes():
    """ISO/IEC 14496-12, 8.7.2: texts that aren't UTF-8, and a location without an end."""
    yield fields(
        full(b"urn ", b"\xffa\0b\xfe\0"), version=0, flags=0, name="\ufffda", name_hex="ff61", location="b\ufffd",
        location_hex="62fe00",
    )
    yield fields(full(b"urn ", b"\0d"), version=0, flags=0, name="", location="d", location_hex="64")
    yield fields(full(b"urn ", b"e\0\0"), version=0, flags=0, name="e", location="")


def fields_in_a_data_reference():
    """ISO/IEC 14496-12, 8.7.2: the last of two references."""
    references = full(b"dref", b"\0\0\0\2", full(b"url ", flags=1), full(b"urn ", b"f\0", flags=2))
    yield fields(box(b"dinf", references), version=0, flags=2, name="f")
