"""`dref`, data references, of which the last `url ` counts. Its children are too small or too large, end past the box
or past the buffer, and end before or after the bytes that are read of them."""

from tests.rows.making import (
    CHILD_TOO_SMALL, END, LARGEST, LARGE_TOO_SMALL, PAST_64_BITS, box, changed, counting, fields, full, large,
    larger_child, list_written_as, listed, one, round_trip, u32,
)
from tests.rows.values import DREF_URL, dref, full_box, url

# The text of `dinf`.
TOO_LARGE = larger_child("dinf")


def dref_bytes(count, children, size):
    """Returns a `dref` with the count `count`, `children`, and the size `size`."""
    return full(b"dref", u32(count), children, size=size)


def every_field():
    """Version and flags count up from 0x81, and those of the child from 0x85."""
    given = box(b"dref", counting(0x81, 0x84), u32(1), box(b"url ", counting(0x85, 0x88), b"\xc3\xa9/a\0"))
    child = full_box("url ", 0x85, 0x868788, location="\u00e9/a")
    yield round_trip(given, full_box("dref", 0x81, 0x828384, url=child))


def one_url_and_none():
    yield round_trip(DREF_URL, dref(url(location="a")))
    yield round_trip(full(b"dref", u32(0)), dref(None))


def child_of_less_than_8_bytes():
    for size in (0, 2, 3, 4, 5, 6, 7, 8):
        child = full(b"url ", flags=5, size=size)
        yield one(dref_bytes(1, child, 28), CHILD_TOO_SMALL if size < 8 else dref(url(flags=5)))


def child_with_a_size_of_64_bits():
    for number, expected in [
        (0, CHILD_TOO_SMALL),
        (1, LARGE_TOO_SMALL),
        (8, LARGE_TOO_SMALL),
        (15, LARGE_TOO_SMALL),
        (16, dref(url(flags=5))),
        (20, dref(url(flags=5))),
        (44, END),
        (45, TOO_LARGE),
    ]:
        yield one(dref_bytes(1, large(b"url ", u32(5), number=number), 36), expected)
    yield one(dref_bytes(1, large(b"url ", number=45)[:15], 36), END)


def child_up_to_the_end_of_64_bits():
    """The box has the largest size, and ends at 2^64 - 1. A child that ends before the end of the box is followed by
    another. The content of the child begins at 40."""
    for low, expected in [
        (0xE7, dref(None)),
        (0xE8, PAST_64_BITS),
        (0xEF, PAST_64_BITS),
        (0xF0, PAST_64_BITS),
        (0xFF, PAST_64_BITS),
    ]:
        yield one(dref_bytes(1, large(b"free", number=0xFFFFFFFF_FFFFFF00 + low), LARGEST), expected)


def child_larger_than_its_parent_or_ending_past_it():
    child = full(b"url ", b"eleven long\0", flags=5)
    for size, expected in [
        (16, dref(None)),
        (17, TOO_LARGE),
        (23, TOO_LARGE),
        (24, dref(url(flags=5, location="eleven long"))),
        (40, dref(url(flags=5, location="eleven long"))),
    ]:
        yield one(dref_bytes(1, child, size), expected)
    yield listed(full(b"dref", u32(1), box(b"url ", size=25)), TOO_LARGE)


def child_ending_past_its_parent_is_read():
    child = full(b"url ", b"abc\0")
    yield one(dref_bytes(1, child, 24), dref(url(location="abc")), after=24)


def child_ending_past_its_parent_is_written_whole():
    """In a list the last 8 bytes of the child are the header of a box of size 0, which goes to the end and is
    skipped."""
    child, value = full(b"url ", b"abc\0"), dref(url(location="abc"))
    yield list_written_as(dref_bytes(1, child, 24), [value], dref_bytes(1, child, 32))
    yield round_trip(dref_bytes(1, child, 32), value)


def child_ending_before_what_is_read_of_it():
    """The second child begins at the version and flags of the first."""
    urls = box(b"url ") + full(b"url ", flags=5)
    for count, flags in [(1, 12), (2, 5), (3, 5)]:
        yield one(dref_bytes(count, urls, 36), dref(url(flags=flags)))


def child_ending_after_what_is_read_of_it():
    """Zero bytes can be part of a location."""
    urls = full(b"url ", b"a\0b\0c\0d\0", flags=3) + full(b"url ", flags=5)
    yield one(dref_bytes(1, urls, 48), dref(url(flags=3, location="a\0b\0c\0d")))
    yield one(dref_bytes(2, urls, 48), dref(url(flags=5)))


def entries_past_the_buffer():
    child = full(b"url ", flags=5)
    long = box(b"free", size=40)
    second_is_small = child + box(b"url ", size=7)
    found = dref(url(flags=5))
    for count, children, size, expected in [
        (1, child, 100, found),
        (2, child, 28, found),
        (2, child, 29, END),
        (1, child[:11], 100, END),
        (1, child[:7], 100, END),
        (0, b"", 100, dref(None)),
        (1, b"", 100, END),
        (2, long, 56, dref(None)),
        (2, long, 57, END),
        (1, second_is_small, 100, found),
        (2, second_is_small, 100, CHILD_TOO_SMALL),
    ]:
        yield one(dref_bytes(count, children, size), expected)


def no_entries_are_no_children():
    yield one(dref_bytes(0, full(b"url ", flags=1), 16), dref(None))


# One `urn ` and two `url ` boxes. The second `url ` has a 64-bit size.
ENTRIES = full(b"dref", u32(3), box(b"urn "), full(b"url ", b"a\0"), large(b"url ", u32(0), b"bcd\0"))


def counts_of_entries():
    first, last = url(location="a"), url(location="bcd")
    for count, expected in [(0, None), (1, None), (2, first), (3, last), (4, last)]:
        yield one(changed(ENTRIES, {15: count}), dref(expected))


def wrong_sizes_of_entries():
    for at, byte, expected in [
        (19, 7, CHILD_TOO_SMALL),
        (19, 63, TOO_LARGE),
        (19, 0, CHILD_TOO_SMALL),
        # The code of the last child, and a byte that ends a location.
        (45, 8, dref(url(location="a"))),
        (53, 15, LARGE_TOO_SMALL),
        (53, 64, END),
        (37, 255, dref(url(location="bcd"))),
    ]:
        yield one(changed(ENTRIES, {at: byte}), expected)


MANY = 3000


def references(count, *children):
    """Returns a `dref` with the count `count` and `children`."""
    return full(b"dref", u32(count), *children)


def last_of_twenty_entries_is_kept():
    last = full(b"url ", b"last\0", flags=2)
    for child in (box(b"urn "), full(b"url ", flags=1), full(b"url ", b"other\0")):
        yield one(references(20, *[child] * 19, last), dref(url(flags=2, location="last")))


def last_of_thousands_of_entries_is_kept():
    """Each of them has a location."""
    urls = [full(b"url ", b"%d\0" % number) for number in range(MANY)]
    yield one(references(MANY, *urls), dref(url(location=str(MANY - 1))))
    yield one(references(MANY - 1, *urls), dref(url(location=str(MANY - 2))))
    yield one(references(MANY, *[box(b"urn ")] * (MANY - 1), full(b"url ", flags=7)), dref(url(flags=7)))


def entry_count_has_32_bits():
    """A count with only one of its bits set, except the lowest, counts at least the two entries that are present."""
    children = [full(b"url ", flags=1), full(b"url ", flags=2)]
    for bit in range(1, 32):
        yield one(references(1 << bit, *children), dref(url(flags=2)))
    yield one(references(1, *children), dref(url(flags=1)))


def fields_of_no_references():
    """ISO/IEC 14496-12, 8.7.2."""
    yield fields(full(b"dref", u32(0), version=1, flags=2), version=1, flags=2, entry_count=0)
