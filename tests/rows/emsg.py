"""`emsg`, an event. The bytes of the fields count up from 0x81, after the version except the strings."""

from tests.rows.making import (
    END, NOT_UTF8, TOO_SMALL, WRONG_VERSION, box, counting, fields, full, listed, one, resized, round_trip, u8, u32,
    u64, versions_above_1,
)
from tests.rows.utf8 import CHARACTERS, OTHER_BYTES
from tests.rows.values import EMSG, EMSG_LONG, emsg

# The scheme and the value.
STRINGS = b"urn:\xc3\xa9\0v\xe2\x82\xac\0"
STRING_FIELDS = {"scheme_id_uri": "urn:\u00e9", "value": "v\u20ac"}

SHORT = box(b"emsg", u8(0), counting(0x81, 0x83), STRINGS, counting(0x84, 0x96))
SHORT_VALUE = emsg(
    flags=0x818283, timescale=0x84858687, presentation_time_delta=0x88898A8B, event_duration=0x8C8D8E8F, id=0x90919293,
    message_data=counting(0x94, 0x96), **STRING_FIELDS,
)

LONG = box(b"emsg", u8(1), counting(0x81, 0x97), STRINGS, counting(0x98, 0x9A))
LONG_VALUE = emsg(
    version=1, flags=0x818283, timescale=0x84858687, presentation_time=0x88898A8B_8C8D8E8F,
    presentation_time_delta=None, event_duration=0x90919293, id=0x94959697, message_data=counting(0x98, 0x9A),
    **STRING_FIELDS,
)


def every_field():
    yield round_trip(SHORT, SHORT_VALUE)
    yield round_trip(LONG, LONG_VALUE)


def other_versions():
    yield from versions_above_1(LONG)


def few_bytes():
    no_text = full(b"emsg", b"\xff\0")
    unknown = full(b"emsg", EMSG[12:], version=2)
    long = emsg(version=1, presentation_time=50000, presentation_time_delta=None)
    for buffer, size, expected in [
        (full(b"emsg", bytes(18)), 12, TOO_SMALL),
        (no_text[:13], 32, END),
        (no_text, 32, NOT_UTF8),
        (unknown, 39, WRONG_VERSION),
        (unknown[:11], 39, END),
        (EMSG[:35], 39, END),
        (EMSG[:38], 39, END),
        (EMSG, 35, TOO_SMALL),
        (EMSG, 36, emsg()),
        (EMSG_LONG, 39, TOO_SMALL),
        (EMSG_LONG, 40, long),
        (full(b"emsg", b"f\0"), 32, END),
    ]:
        yield one(resized(buffer, size), expected)


def texts_of_invalid_data():
    yield listed(full(b"emsg", version=2), WRONG_VERSION)
    yield listed(full(b"emsg", b"\xff\0"), NOT_UTF8)


def emsg_bytes(scheme, value):
    """Returns an `emsg` with the strings `scheme` and `value`, and with zeros."""
    return box(b"emsg", EMSG[8:12], scheme, b"\0", value, b"\0", bytes(16))


def message(scheme, value):
    return emsg(scheme, value, timescale=0, presentation_time_delta=0, event_duration=0, id=0)


def characters_of_strings():
    for given, text in CHARACTERS:
        yield one(emsg_bytes(given, b"b"), message(text, "b"))
        yield one(emsg_bytes(b"", given), message("", text))


def other_bytes_of_strings():
    for given in OTHER_BYTES:
        yield one(emsg_bytes(given, b"b"), NOT_UTF8)
        yield one(emsg_bytes(b"b", given), NOT_UTF8)


def fields_of_both_versions():
    """ISO/IEC 23009-1, 5.10.3.3."""
    strings, texts = b"urn:a\0b\0", {"scheme_id_uri": "urn:a", "value": "b"}
    yield fields(
        full(b"emsg", u32(3), u64(0x1_0000_0004), u32(5, 8), strings, u8(6, 7), version=1, flags=2), version=1,
        flags=2, **texts, timescale=3, presentation_time=4294967300, event_duration=5, id=8, message_data="0607",
    )
    yield fields(
        full(b"emsg", strings, u32(3, 4, 5, 8), u8(6, 7), version=0, flags=2), version=0, flags=2, **texts,
        timescale=3, presentation_time_delta=4, event_duration=5, id=8, message_data="0607",
    )
