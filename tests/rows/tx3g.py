"""`tx3g`, the sample entry of timed text. The codec's own box leaves out the boxes inside it, and has the style as
bytes; the declared one has all. The bytes of the fields count up from 0x81."""

from tests.rows.entry_sizes import value_from
from tests.rows.entry_values import TX3G, TX3G_VALUE
from tests.rows.making import (
    Box, box, changed, counting, cuts, declared, declared_as, fields, filled, resized, round_trip, u8, u16, u32,
    written_as,
)

COUNTED = box(b"tx3g", bytes(6), counting(0x81, 0xA0))


def counted(horizontal, vertical, box_record):
    """Returns the value of `COUNTED`, with the arguments in the fields that have a sign."""
    return Box(
        "tx3g", data_reference_index=0x8182, display_flags=0x83848586, horizontal_justification=horizontal,
        vertical_justification=vertical, bg_color_rgba={"red": 0x89, "green": 0x8A, "blue": 0x8B, "alpha": 0x8C},
        box_record=box_record, style_record=list(range(0x95, 0xA1)),
    )


COUNTED_VALUE = counted(-121, -120, [-29298, -28784, -28270, -27756])


def every_field():
    yield round_trip(COUNTED, COUNTED_VALUE)


def signed_numbers():
    others = {**dict(enumerate(b"\x7f\x80", 20)), **dict(enumerate(b"\x7f\xff\x80\0\0\x01\xff\xfe", 26))}
    yield round_trip(changed(COUNTED, others), counted(127, -128, [32767, -32768, 1, -2]))


def reserved_bytes_are_ignored():
    yield written_as(filled(COUNTED, 0xC3, range(8, 14)), COUNTED_VALUE, COUNTED)


def cut_anywhere():
    yield from cuts(TX3G)


def any_size_is_its_own():
    yield from value_from(TX3G_VALUE, TX3G, 0)


# The boxes inside: fonts, and rates.
BOXES = box(b"ftab", u16(1), u16(0xA1A2), u8(3), counting(0xA3, 0xA5)) + box(b"btrt", counting(0xA6, 0xB1))
WHOLE = box(b"tx3g", bytes(6), counting(0x81, 0xA0), BOXES)
STYLE = {
    "start_char": 0x9596, "end_char": 0x9798, "font_id": 0x999A, "face_style_flags": 0x9B, "font_size": 0x9C,
    "text_color_rgba": {"red": 0x9D, "green": 0x9E, "blue": 0x9F, "alpha": 0xA0},
}


def whole(boxes, horizontal=-121, vertical=-120, edges=(-29298, -28784, -28270, -27756), **others):
    """Returns the declared value of `WHOLE`, with the arguments in its fields."""
    values = {
        "data_reference_index": 0x8182, "display_flags": 0x83848586, "horizontal_justification": horizontal,
        "vertical_justification": vertical,
        "background_color_rgba": {"red": 0x89, "green": 0x8A, "blue": 0x8B, "alpha": 0x8C},
        "default_text_box": dict(zip(("top", "left", "bottom", "right"), edges)), "default_style": STYLE,
    }
    return Box("tx3g", **{**values, **others}, boxes=list(boxes))


def declared_with_boxes():
    yield from declared_as(WHOLE, whole(BOXES))


def declared_without_boxes():
    yield from declared_as(COUNTED, whole(b""))


def declared_with_bytes_that_are_no_boxes():
    """QuickTime may end an entry with four bytes of 0."""
    for inside in (bytes(4), counting(0xA1, 0xA3)):
        yield from declared_as(box(b"tx3g", bytes(6), counting(0x81, 0xA0), inside), whole(inside))


def declared_signed_numbers():
    others = {**dict(enumerate(b"\x7f\x80", 20)), **dict(enumerate(b"\x7f\xff\x80\0\0\x01\xff\xfe", 26))}
    buffer = changed(WHOLE, others)
    yield declared(buffer, whole(BOXES, 127, -128, (32767, -32768, 1, -2)), buffer)


def declared_with_one_flag():
    for flag in range(32):
        buffer = changed(WHOLE, dict(enumerate(u32(1 << flag), 16)))
        yield declared(buffer, whole(BOXES, display_flags=1 << flag), buffer)
    for flag in range(8):
        buffer = changed(WHOLE, {40: 1 << flag})
        yield declared(buffer, whole(BOXES, default_style={**STYLE, "face_style_flags": 1 << flag}), buffer)


def declared_reserved_bytes_are_left_out():
    yield declared(filled(WHOLE, 0xC3, range(8, 14)), whole(BOXES), WHOLE)


def declared_sizes_of_the_box():
    """Bytes after the box are left out."""
    for size in (8, 45, 46):
        yield declared(resized(WHOLE, size), whole(b""), COUNTED)
    yield declared(resized(WHOLE, 59), whole(BOXES[:13]), resized(WHOLE[:59], 59))


def fields_of_entry():
    """3GPP TS 26.245, 5.16."""
    colour = u8(10, 11, 12, 13)
    # Has the signed numbers -2 and 3, and then -6, 7, 8 and -9.
    front = bytes(6) + u16(1) + u32(0x2_0000) + u8(0xFE, 3) + colour + u16(0xFFFA, 7, 8, 0xFFF7)
    style = u16(14, 15, 16) + u8(6, 18, 19, 20, 21, 22)
    yield fields(
        box(b"tx3g", front, style), data_reference_index=1, displayFlags=131072,
        **{
            "horizontal-justification": -2, "vertical-justification": 3,
            "background-color-rgba": {"red": 10, "green": 11, "blue": 12, "alpha": 13},
            "default-text-box": {"top": -6, "left": 7, "bottom": 8, "right": -9},
            "default-style": {
                "startChar": 14, "endChar": 15, "font-ID": 16, "face-style-flags": 6, "font-size": 18,
                "text-color-rgba": {"red": 19, "green": 20, "blue": 21, "alpha": 22},
            },
        },
    )
