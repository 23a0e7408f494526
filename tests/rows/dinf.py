"""`dinf`, which holds a `dref`. Its children are too small or too large, end past the box or past the buffer, and end
before or after the bytes that are read of them."""

from tests.rows.making import (
    CHILD_TOO_SMALL, END, LARGEST, LARGE_TOO_SMALL, NO_DREF, PAST_64_BITS, box, changed, counting, fields, full, large,
    larger_child, listed, one, resized, round_trip, u32,
)
from tests.rows.values import DINF_URL, dinf, dref, full_box, url

TOO_LARGE = larger_child("dinf")


def dinf_bytes(children, size):
    """Returns a `dinf` with `children` and the size `size`."""
    return box(b"dinf", children, size=size)


def every_field():
    """Version and flags of the child count up from 0x81, and those of its child from 0x85."""
    child = box(b"url ", counting(0x85, 0x88), b"\xc3\xa9/a\0")
    given = box(b"dinf", box(b"dref", counting(0x81, 0x84), u32(1), child))
    child = full_box("url ", 0x85, 0x868788, location="\u00e9/a")
    yield round_trip(given, dinf(full_box("dref", 0x81, 0x828384, url=child)))


def one_url():
    yield round_trip(DINF_URL, dinf(dref(url(location="a"))))


def no_dref():
    yield one(dinf_bytes(b"", 8), NO_DREF)
    yield one(dinf_bytes(box(b"free", size=0), 16), CHILD_TOO_SMALL)
    yield one(dinf_bytes(b"", 9), END)
    yield one(dinf_bytes(large(b"free", number=2**64 - 1), LARGEST), PAST_64_BITS)


def child_of_less_than_8_bytes():
    for size in (0, 2, 3, 4, 5, 6, 7, 8):
        yield one(dinf_bytes(box(b"free", size=size), 16), CHILD_TOO_SMALL if size < 8 else NO_DREF)
    yield listed(box(b"dinf", box(b"dref", size=7)), CHILD_TOO_SMALL)


def child_with_a_size_of_64_bits():
    for number, expected in [
        (0, CHILD_TOO_SMALL),
        (1, LARGE_TOO_SMALL),
        (8, LARGE_TOO_SMALL),
        (15, LARGE_TOO_SMALL),
        (16, NO_DREF),
        (20, NO_DREF),
        (44, TOO_LARGE),
        (45, TOO_LARGE),
    ]:
        yield one(dinf_bytes(large(b"free", number=number), 24), expected)
    yield listed(box(b"dinf", large(b"dref", number=15)), LARGE_TOO_SMALL)


def child_up_to_the_end_of_64_bits():
    """The box has the largest size, and ends at 2^64 - 1. A child that ends before the end of the box is followed by
    another. The content of the child begins at 32."""
    for low, expected in [
        (0xE7, END),
        (0xE8, END),
        (0xEF, NO_DREF),
        (0xF0, PAST_64_BITS),
        (0xFF, PAST_64_BITS),
    ]:
        yield one(dinf_bytes(large(b"free", number=0xFFFFFFFF_FFFFFF00 + low), LARGEST), expected)
    yield one(box(b"dinf", large(b"dref", number=2**64 - 1), size=LARGEST), PAST_64_BITS)


def child_larger_than_its_parent_or_ending_past_it():
    child = full(b"dref", u32(0), flags=5)
    for size, expected in [
        (8, NO_DREF),
        (9, TOO_LARGE),
        (15, TOO_LARGE),
        (16, dinf(dref(None, flags=5))),
        (24, dinf(dref(None, flags=5))),
    ]:
        yield one(dinf_bytes(child, size), expected)
    yield listed(box(b"dinf", box(b"dref", size=17)), TOO_LARGE)


def child_of_a_child():
    for size, size_of_url, expected in [
        (30, 14, dinf(dref(url(location="a")))),
        (29, 14, TOO_LARGE),
        (38, 15, dinf(dref(url(location="a\0")))),
        (38, 30, END),
        (38, 31, TOO_LARGE),
    ]:
        yield one(resized(changed(DINF_URL, {27: size_of_url}), size), expected)


def child_ending_before_what_is_read_of_it():
    """The second child begins at the version and flags of the first."""
    drefs = box(b"dref") + full(b"dref", u32(0), flags=5)
    for size, flags in [(16, 16), (17, 5), (32, 5)]:
        yield one(dinf_bytes(drefs, size), dinf(dref(None, flags=flags)))
    skipped = box(b"dref") + box(b"free", size=24)
    yield one(dinf_bytes(skipped, 40), dinf(dref(None, flags=24)))


def child_ending_after_what_is_read_of_it():
    """Bytes after the entries of a `dref` are skipped."""
    drefs = full(b"dref", u32(0), b"\xff\xff\xff\xff", flags=3) + full(b"dref", u32(0), flags=5)
    for size, flags in [(28, 3), (29, 5), (44, 5)]:
        yield one(dinf_bytes(drefs, size), dinf(dref(None, flags=flags)))


def references_past_the_buffer():
    child = full(b"dref", u32(0), flags=5)
    free = box(b"free", size=16)
    for children, size, expected in [
        (child, 24, dinf(dref(None, flags=5))),
        (child, 25, END),
        (child[:15], 24, END),
        (child[:7], 24, END),
        (free, 24, NO_DREF),
        (free, 25, END),
    ]:
        yield one(dinf_bytes(children, size), expected)


LAST = full(b"dref", u32(0), flags=2)


def last_of_twenty_boxes_is_kept():
    for child in (box(b"free"), full(b"url ", flags=1), full(b"dref", u32(0), flags=1)):
        yield one(box(b"dinf", *[child] * 19, LAST), dinf(dref(None, flags=2)))


def references_among_thousands_of_boxes():
    many = [box(b"free")] * 3000
    yield one(box(b"dinf", *many, LAST), dinf(dref(None, flags=2)))
    yield one(box(b"dinf", LAST, *many), dinf(dref(None, flags=2)))
    yield one(box(b"dinf", *many), NO_DREF)


def fields_of_the_reference_inside():
    """ISO/IEC 14496-12, 8.7.1 and 8.7.2. The fields are those of the `url `."""
    child = full(b"url ", b"file:a\0", version=3, flags=4)
    given = box(b"dinf", full(b"dref", u32(1), child, version=1, flags=2))
    yield fields(given, version=3, flags=4, location="file:a")
