"""`stpp`, the sample entry of subtitles in XML: reserved bytes, a number, three strings, each of which a byte of 0
ends, and boxes, which are kept as bytes. The bytes of the fields count up from 0x81."""

from tests.rows.making import (
    END, NO_END, Box, box, changed, counting, declared, declared_as, fields, resized, u16, u32,
)

# A string of three bytes, one of two and one of one, and three bytes after them.
FRONT = bytes(6) + counting(0x81, 0x82)
STRINGS = counting(0x83, 0x85) + b"\0" + counting(0x86, 0x87) + b"\0\x88\0"
STPP = box(b"stpp", FRONT, STRINGS, counting(0x89, 0x8B))


def stpp(namespace, schema_location, auxiliary_mime_types, boxes):
    return Box(
        "stpp", data_reference_index=0x8182, namespace=list(namespace), schema_location=list(schema_location),
        auxiliary_mime_types=list(auxiliary_mime_types), boxes=list(boxes))


VALUE = stpp(b"\x83\x84\x85", b"\x86\x87", b"\x88", b"\x89\x8a\x8b")


def a_number_three_strings_and_bytes():
    yield from declared_as(STPP, VALUE)
    yield from declared_as(box(b"stpp", FRONT, STRINGS), stpp(b"\x83\x84\x85", b"\x86\x87", b"\x88", b""))
    yield from declared_as(box(b"stpp", FRONT, b"\0\0\0"), stpp(b"", b"", b"", b""))


def a_box_after_the_strings():
    rates = box(b"btrt", u32(0x898A8B8C, 0x8D8E8F90, 0x91929394))
    namespace = b"http://www.w3.org/ns/ttml"
    yield from declared_as(box(b"stpp", FRONT, namespace, b"\0\0\0", rates), stpp(namespace, b"", b"", rates))


def reserved_bytes_are_left_out():
    yield declared(changed(STPP, {place: 0xE9 + place for place in range(8, 14)}), VALUE, STPP)


def strings_without_an_end():
    for length, size, expected in [
        (28, 8, NO_END),
        (28, 16, NO_END),
        (28, 19, NO_END),
        (28, 20, NO_END),
        (28, 22, NO_END),
        (28, 23, NO_END),
        (28, 24, NO_END),
        (19, 19, NO_END),
        (19, 20, END),
        (22, 22, NO_END),
        (22, 23, END),
        (24, 24, NO_END),
        (24, 25, END),
    ]:
        yield declared(resized(STPP[:length], size), expected)
    for places in ({19: 0xF1, 22: 0xF2, 24: 0xF3}, {22: 0xF2, 24: 0xF3}, {24: 0xF3}):
        yield declared(changed(STPP, places), NO_END)


def bytes_after_the_box_are_left_out():
    yield declared(resized(STPP, 25), stpp(b"\x83\x84\x85", b"\x86\x87", b"\x88", b""), resized(STPP[:25], 25))
    yield declared(resized(STPP, 27), stpp(b"\x83\x84\x85", b"\x86\x87", b"\x88", b"\x89\x8a"), resized(STPP[:27], 27))


def fields_of_strings():
    """ISO/IEC 14496-12, 12.6.3: a text that is UTF-8, and one that isn't."""
    # Leaves the second string empty. The two bytes after `urn:` are U+00E9.
    rest = b"\0\0image/png\0"
    yield fields(
        box(b"stpp", bytes(6), u16(1), b"urn:\xc3\xa9", rest), data_reference_index=1, namespace="urn:\u00e9",
        schema_location="", auxiliary_mime_types="image/png",
    )
    yield fields(
        box(b"stpp", bytes(6), u16(1), b"a\xff", rest), data_reference_index=1, namespace="a\ufffd",
        namespace_hex="61ff", schema_location="", auxiliary_mime_types="image/png",
    )
