"""`mdhd`, the header of a media. After the version the bytes of the fields count up from 0x81. The language is
Swedish."""

from tests.rows.making import (
    box, changed, counting, fields, filled, full, one, round_trip, u8, u16, u32, u64, versions_above_1, written_as,
)
from tests.rows.values import full_box

# s is 19, w is 23, and e is 5: 19 * 1024 + 23 * 32 + 5 is 0x4EE5.
SHORT = box(b"mdhd", u8(0), counting(0x81, 0x93), u16(0x4EE5, 0))
SHORT_FIELDS = {
    "creation_time": 0x84858687, "modification_time": 0x88898A8B, "timescale": 0x8C8D8E8F, "duration": 0x90919293,
}
SHORT_VALUE = full_box("mdhd", 0, 0x818283, language="swe", **SHORT_FIELDS)

LONG = box(b"mdhd", u8(1), counting(0x81, 0x9F), u16(0x4EE5, 0))
LONG_VALUE = full_box(
    "mdhd", 1, 0x818283, creation_time=0x84858687_88898A8B, modification_time=0x8C8D8E8F_90919293,
    timescale=0x94959697, duration=0x98999A9B_9C9D9E9F, language="swe",
)


def every_field():
    yield round_trip(SHORT, SHORT_VALUE)
    yield round_trip(LONG, LONG_VALUE)


def reserved_bits_and_bytes_are_ignored():
    yield written_as(filled(changed(SHORT, {28: 0xCE}), 0xFF, range(30, 32)), SHORT_VALUE, SHORT)
    yield written_as(filled(changed(LONG, {40: 0xCE}), 0xFF, range(42, 44)), LONG_VALUE, LONG)


def other_versions():
    yield from versions_above_1(LONG)


def letters_of_languages_have_five_bits_each():
    """a is 1, b is 2, and so on. A code is the first letter times 1024, plus the second times 32, plus the third. The
    highest bit is not part of a letter."""
    for language, code in [("swe", 0x4EE5), ("deu", 0x10B5), ("zul", 0x6AAC), ("abc", 0x0443)]:
        value = full_box("mdhd", 0, 0x818283, language=language, **SHORT_FIELDS)
        given = SHORT[:28] + u16(code, 0)
        yield round_trip(given, value)
        yield written_as(SHORT[:28] + u16(0x8000 + code, 0), value, given)


def times_of_64_bits():
    # English: the letters 5, 14 and 7.
    given = full(b"mdhd", u64(100, 200), u32(48000), u64(30439936), u16(5 << 10 | 14 << 5 | 7, 0), version=1)
    times = {"creation_time": 100, "modification_time": 200, "timescale": 48000, "duration": 30439936}
    yield round_trip(given, full_box("mdhd", 1, language="eng", **times))


TIMES = {"creation_time": 1, "modification_time": 2, "timescale": 3, "duration": 4}


def media_header(code):
    """Returns an `mdhd` with the code `code` as its language."""
    return full(b"mdhd", u32(*TIMES.values()), u16(code, 0))


def every_letter_in_each_place():
    """A letter is 0x60 plus its five bits, even where that is not a letter. The highest bit is read, and not
    written."""
    for first in range(32):
        letters = [first, (first + 11) % 32, (first + 22) % 32]
        code = letters[0] << 10 | letters[1] << 5 | letters[2]
        value = full_box("mdhd", language="".join(chr(0x60 + letter) for letter in letters), **TIMES)
        yield one(media_header(code), value)
        yield written_as(media_header(0x8000 | code), value, media_header(code))


def fields_of_languages():
    """ISO/IEC 14496-12, 8.4.2. Of QuickTime's languages the code is shown: 5 is one of the Macintosh, 0x7FFF none."""
    # d is 4, e is 5, and u is 21: 4 * 1024 + 5 * 32 + 21 is 0x10B5.
    for code, language in [
        (0x10B5, {"language": "deu"}),
        (5, {"language": 5, "language_name": "Macintosh"}),
        (0x7FFF, {"language": 32767, "language_name": "unspecified"}),
    ]:
        yield fields(
            full(b"mdhd", u64(3, 4), u32(5), u64(6), u16(code, 0), version=1, flags=2),
            version=1, flags=2, creation_time=3, modification_time=4, timescale=5, duration=6, **language,
        )
