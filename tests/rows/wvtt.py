"""`wvtt`, the sample entry of WebVTT: reserved bytes, a number, and boxes, which are kept as bytes. The bytes of the
fields count up from 0x81."""

from tests.rows.making import Box, box, changed, counting, declared, declared_as, fields, resized, u16

FRONT = bytes(6) + counting(0x81, 0x82)
BOXES = box(b"vttC", b"WEBVTT") + box(b"vlab", counting(0x83, 0x85))
WVTT = box(b"wvtt", FRONT, BOXES)


def wvtt(boxes):
    return Box("wvtt", data_reference_index=0x8182, boxes=list(boxes))


def a_number_and_boxes():
    yield from declared_as(WVTT, wvtt(BOXES))
    yield from declared_as(box(b"wvtt", FRONT, counting(0x83, 0x85)), wvtt(b"\x83\x84\x85"))
    yield from declared_as(box(b"wvtt", FRONT), wvtt(b""))


def reserved_bytes_are_left_out():
    yield declared(changed(WVTT, {place: 0xE9 + place for place in range(8, 14)}), wvtt(BOXES), WVTT)


def bytes_after_the_box_are_left_out():
    for size in (8, 15, 16):
        yield declared(resized(WVTT, size), wvtt(b""), box(b"wvtt", FRONT))
    yield declared(resized(WVTT, 29), wvtt(BOXES[:13]), resized(WVTT[:29], 29))


def fields_of_a_number_and_boxes():
    """ISO/IEC 14496-30, 7.5."""
    yield fields(
        box(b"wvtt", bytes(6), u16(2), box(b"free")), data_reference_index=2, data_bytes="0000000866726565")
