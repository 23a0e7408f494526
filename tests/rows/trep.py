"""`trep`, the track to which track extensions belong: its fields are declared, and boxes follow them, which are
kept."""

from tests.rows.making import (
    END, LARGEST, NO_VERSION_1, TOO_SMALL, Box, box, changed, counting, declared, declared_as, large, outcome, resized,
)
from tests.rows.values import HDLR, hdlr, other

FIELDS = b"\0" + counting(0x81, 0x87)
FREE = box(b"free", counting(0x88, 0x8C))
WHOLE = box(b"trep", FIELDS, HDLR, FREE)
HANDLER = hdlr(b"vide", "VideoHandler")
BYTES = other(b"free", counting(0x88, 0x8C))


def trep(*boxes):
    return Box("trep", version=0, flags=0x818283, track_id=0x84858687, boxes=outcome(list(boxes)))


def boxes_after_the_fields():
    yield from declared_as(WHOLE, trep(HANDLER, BYTES))
    yield from declared_as(box(b"trep", FIELDS, FREE, FREE), trep(BYTES, BYTES))
    yield from declared_as(box(b"trep", FIELDS), trep())
    yield declared(WHOLE + FREE, trep(HANDLER, BYTES), WHOLE)


def many_boxes():
    yield declared(box(b"trep", FIELDS, FREE * 1500), trep(*[BYTES] * 1500), box(b"trep", FIELDS, FREE * 1500))


def version_1():
    second = changed(WHOLE, {8: 1})
    yield declared(second[:-1], END)
    yield declared(second, NO_VERSION_1)


def nothing_is_read_past_the_box():
    # The fields are cut, though their bytes are there.
    for size in (8, 11, 12, 15):
        yield declared(resized(WHOLE, size), END)
    yield declared(resized(WHOLE, 16), trep(), box(b"trep", FIELDS))
    # A box is cut.
    for size in (17, 23, 24, 16 + len(HDLR) - 1, 16 + len(HDLR) + 1, len(WHOLE) - 1):
        yield declared(resized(WHOLE, size), END)
    first = resized(WHOLE, 16 + len(HDLR))
    yield declared(first, trep(HANDLER), box(b"trep", FIELDS, HDLR))


def sizes_without_a_box():
    for size in (0, 2, 7):
        yield declared(resized(WHOLE, size), TOO_SMALL)
    for size in (len(WHOLE) + 1, 2**32 - 1, LARGEST):
        yield declared(resized(WHOLE, size), END)


def header_of_16_bytes():
    yield declared(large(b"trep", FIELDS, HDLR, FREE), trep(HANDLER, BYTES), WHOLE)


def boxes_with_other_headers():
    """The last box may go to the end. A box is written with a header of 8 bytes."""
    rest = box(b"free", counting(0x88, 0x8C), size=0)
    yield declared(box(b"trep", FIELDS, HDLR, rest), trep(HANDLER, BYTES), WHOLE)
    yield declared(box(b"trep", FIELDS, HDLR, large(b"free", counting(0x88, 0x8C))), trep(HANDLER, BYTES), WHOLE)
    # No box has 7 bytes.
    yield declared(box(b"trep", FIELDS, box(b"free", size=7)), TOO_SMALL)
    # The fields are read first.
    yield declared(changed(box(b"trep", FIELDS, box(b"free", size=7)), {8: 1}), NO_VERSION_1)
