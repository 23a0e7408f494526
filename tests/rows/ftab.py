"""`ftab`, the fonts of a timed text: three, with names of five bytes, none and one. The bytes of numbers and names
count up from 0x81."""

from tests.rows.making import (
    END, TOO_MANY_BYTES, Box, box, changed, counting, declared, declared_as, fields, resized, u8, u16,
)

# The fonts begin at 10, 18 and 21, and the box ends at 25.
NAMED = counting(0x81, 0x82) + u8(5) + counting(0x83, 0x87)
NAMELESS = counting(0x88, 0x89) + u8(0)
OTHER = counting(0x8A, 0x8B) + u8(1) + b"\x8c"
THREE = box(b"ftab", u16(3), NAMED, NAMELESS, OTHER)
FONTS = [
    {"font_id": 0x8182, "font": [0x83, 0x84, 0x85, 0x86, 0x87]}, {"font_id": 0x8889, "font": []},
    {"font_id": 0x8A8B, "font": [0x8C]},
]


def ftab(*fonts):
    return Box("ftab", entries=list(fonts))


def three_fonts():
    yield from declared_as(THREE, ftab(*FONTS))


def no_font():
    yield from declared_as(box(b"ftab", u16(0)), ftab())


def a_name_of_255_bytes():
    font = {"font_id": 0x8182, "font": [0] * 255}
    yield from declared_as(box(b"ftab", u16(1), u16(0x8182), u8(255), bytes(255)), ftab(font))


def as_many_fonts_as_16_bits_count():
    """The count is big-endian: 258 fonts."""
    buffer = box(b"ftab", u16(258), NAMELESS * 258)
    yield declared(buffer, ftab(*FONTS[1:2] * 258), buffer)


def counts_that_are_too_small():
    """Bytes after the counted fonts and after a name are left out."""
    for count, after in ((0, 10), (1, 18), (2, 21)):
        fewer = changed(THREE, {9: count})
        yield declared(fewer, ftab(*FONTS[:count]), resized(fewer[:after], after))
    shorter = changed(box(b"ftab", u16(1), NAMED), {12: 4})
    yield declared(shorter, ftab({"font_id": 0x8182, "font": [0x83, 0x84, 0x85, 0x86]}), resized(shorter[:-1], 17))


def counts_that_are_too_large():
    for count in (4, 255):
        yield declared(changed(THREE, {9: count}), END)
    yield declared(changed(THREE, {8: 255}), END)
    # A font after the end of the box has a name there.
    yield declared(changed(THREE, {9: 4}) + OTHER, TOO_MANY_BYTES)
    # The last name has a byte more than the box.
    yield declared(changed(THREE, {23: 2}), TOO_MANY_BYTES)
    yield declared(changed(THREE, {23: 2}) + b"\x8d", TOO_MANY_BYTES)


def sizes_of_the_box():
    yield declared(resized(THREE, 24), TOO_MANY_BYTES)
    yield declared(resized(THREE, 26), ftab(*FONTS), THREE)
    yield declared(resized(THREE, 60), ftab(*FONTS), THREE)


def fields_of_fonts():
    """3GPP TS 26.245, 5.16. The name of the second font isn't UTF-8."""
    yield fields(
        box(b"ftab", u16(2), u16(1), u8(5), b"Serif", u16(770), u8(4), b"Caf\xe9"),
        **{
            "entry-count": 2,
            "font-entry": [
                {"font-ID": 1, "font": "Serif"}, {"font-ID": 770, "font": "Caf\ufffd", "font_hex": "436166e9"},
            ],
        },
    )
