"""Boxes of other types, which are kept as their code and their bytes: their sizes, their cursors and their lists."""

from tests.rows.making import (
    END, LARGE_TOO_SMALL, LARGEST, PAST_64_BITS, TOO_SMALL, box, full, kept, kept_list, large, one, u32,
)
from tests.rows.values import HDLR, ftyp, full_box, hdlr, other

MANY = 3000
HANDLER = hdlr(b"vide", "VideoHandler")
# A `ftyp`, a `free` and a `stco`.
THREE = box(b"ftyp", b"isom", u32(512), b"isommp41") + box(b"free") + full(b"stco", u32(1, 267))


def content_goes_to_the_end_of_the_box():
    for length in (0, 1, 2, 9, 255, 256):
        content = bytes(number % 256 for number in range(length))
        for after in (b"", b"\xff" * 9):
            yield kept(box(b"free", content) + after, other(b"free", content))
            yield kept(large(b"free", content) + after, other(b"free", content))
        yield kept(b"\xff" * 5 + box(b"free", content), other(b"free", content), at=5)
    yield kept(box(b"free", b"\1\2\3") + box(b"wide"), other(b"free", b"\1\2\3"))


def size_of_a_kept_box_is_8_at_least():
    """A size of 0 is not allowed for a box that is read by itself."""
    for size in (0, 2, 3, 6, 7):
        yield kept(box(b"free", b"content", size=size), TOO_SMALL)
        yield kept(box(b"free", size=size), TOO_SMALL)
    yield kept(large(b"free", b"content", number=0), TOO_SMALL)
    yield one(large(b"free", b"content", number=15), LARGE_TOO_SMALL)
    # A code that no name has.
    yield kept(box(b"\0\0\0\0", size=0), TOO_SMALL)


def content_that_is_cut():
    for length in range(9):
        yield kept(box(b"free", b"123456789"[:length], size=17), END)
        yield kept(large(b"free", b"123456789"[:length], number=25), END)
    for size in (9, 100, 2**32 - 1, LARGEST):
        yield kept(box(b"free", size=size), END)
    yield kept(b"\0" + large(b"free", number=2**64 - 1), PAST_64_BITS, at=1)
    for length in range(8):
        yield one(box(b"free")[:length], END)


def every_code_without_a_type():
    for code in (b"moov", b"free", b"mdat", b"uuid", b"url_", b"DATA", b"\xff\xff\xff\xff", b"\0\0\0\0", b"\xa9nam"):
        yield kept(box(code, b"\1\2\3"), other(code, b"\1\2\3"))
        whole = box(code, HDLR) + HDLR
        yield kept_list(whole, [other(code, HDLR), HANDLER], whole)


def boxes_of_each_kind_are_kept():
    free, stco = other(b"free"), full_box("stco", entries=[267])
    yield kept_list(THREE, [ftyp(b"isom", 512, [b"isom", b"mp41"]), free, stco], THREE)


def large_headers_are_written_with_8_bytes():
    for content in (b"", b"\1\2\3"):
        yield kept_list(large(b"mdat", content), [other(b"mdat", content)], box(b"mdat", content))


def last_box_of_a_list_has_a_size_of_0():
    """The box then goes to the end, and it is written with its size."""
    for content in (b"", b"\1", b"\1\2\3", b"content"):
        value, written = other(b"mdat", content), box(b"mdat", content)
        yield kept_list(box(b"mdat", content, size=0), [value], written)
        yield kept_list(large(b"mdat", content, number=0), [value], written)
        yield kept_list(HDLR + box(b"mdat", content, size=0), [HANDLER, value], HDLR + written)


def faults_of_a_kept_list():
    yield kept_list(HDLR + box(b"free", size=7), TOO_SMALL)
    yield kept_list(HDLR + box(b"free", b"\1", size=10), END)
    yield kept_list(HDLR + box(b"free")[:7], END)
    yield kept_list(b"\0\0\0\x08free" + large(b"free", number=2**64 - 1), PAST_64_BITS)


def thousands_of_boxes_are_kept():
    boxes = [box(b"free", b"%d" % number) for number in range(MANY)]
    values = [other(b"free", b"%d" % number) for number in range(MANY)]
    yield kept_list(b"".join(boxes), values, b"".join(boxes))
    content = bytes(number * number % 256 for number in range(MANY))
    yield kept_list(box(b"mdat", content), [other(b"mdat", content)], box(b"mdat", content))
