"""`url `, the location of media data. Version and flags count up from 0x81."""

from tests.rows.making import box, changed, counting, full, one, round_trip, written_as
from tests.rows.utf8 import CHARACTERS, OTHER_BYTES
from tests.rows.values import URL, full_box, url

COUNTED = box(b"url ", counting(0x81, 0x84), b"\xc3\xa9/a\0")
COUNTED_VALUE = full_box("url ", 0x81, 0x828384, location="\u00e9/a")


def every_field():
    yield round_trip(COUNTED, COUNTED_VALUE)


def no_location():
    yield round_trip(box(b"url ", counting(0x81, 0x84)), full_box("url ", 0x81, 0x828384, location=""))


def last_byte_is_ignored():
    yield written_as(changed(COUNTED, {16: 0xFF}), COUNTED_VALUE, COUNTED)


def one_letter():
    yield round_trip(URL, url(location="a"))


def empty_location_is_the_same_file():
    yield written_as(full(b"url ", b"\0", flags=1), url(flags=1), full(b"url ", flags=1))
    yield round_trip(full(b"url ", flags=1), url(flags=1))


def location_that_is_not_utf8():
    given = full(b"url ", b"\xff\0", flags=1)
    yield written_as(given, url(flags=1), full(b"url ", flags=1))


def url_bytes(location):
    """Returns a `url ` whose location is the bytes `location`. The byte after the location is not present."""
    return box(b"url ", URL[8:12], location, size=13 + len(location))


def characters_of_locations():
    for given, text in CHARACTERS:
        yield one(url_bytes(given), url(location=text))


def characters_are_written_as_they_are_read():
    given, text = CHARACTERS[-1]
    yield round_trip(full(b"url ", given, b"\0"), url(location=text))


def other_bytes_of_locations():
    for given in OTHER_BYTES:
        yield one(url_bytes(given), url())
