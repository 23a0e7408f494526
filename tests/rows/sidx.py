"""`sidx`, the index of a segment. The bytes of the fields count up from 0x81, after the version, except those whose
high bits are flags. The first reference is to another index, the second to media that begin with an access point, the
third to neither."""

from tests.rows.making import (
    END, TOO_MANY_ENTRIES, WRONG_VERSION, Box, box, changed, counting, declared, declared_as, fields, full,
    one_row_short, resized, u16, u32, u64,
)

NAMES = "reference_type referenced_size subsegment_duration starts_with_sap sap_type sap_delta_time".split()


def sidx(version, time, first_offset, references, flags=0x818283, reference_id=0x84858687, timescale=0x88898A8B):
    times = {"timescale": timescale, "earliest_presentation_time": time, "first_offset": first_offset}
    entries = [dict(zip(NAMES, reference)) for reference in references]
    return Box("sidx", version=version, flags=flags, reference_id=reference_id, **times, entries=entries)


SHORT = box(
    b"sidx", b"\0", counting(0x81, 0x93), b"\0\0\0\3",
    counting(0x94, 0x9B), b"\x6c\x9d\x9e\x9f",
    b"\x20\xa1\xa2\xa3", counting(0xA4, 0xAB),
    b"\x2c\xad\xae\xaf", counting(0xB0, 0xB3), b"\x34\xb5\xb6\xb7",
)
REFERENCES = [
    (True, 0x14959697, 0x98999A9B, False, 6, 0xC9D9E9F),
    (False, 0x20A1A2A3, 0xA4A5A6A7, True, 2, 0x8A9AAAB),
    (False, 0x2CADAEAF, 0xB0B1B2B3, False, 3, 0x4B5B6B7),
]
SHORT_VALUE = sidx(0, 0x8C8D8E8F, 0x90919293, REFERENCES)
LONG = box(
    b"sidx", b"\1", counting(0x81, 0x9B), b"\0\0\0\3",
    counting(0x9C, 0xA3), b"\x54\xa5\xa6\xa7",
    b"\x28\xa9\xaa\xab", counting(0xAC, 0xB3),
    b"\x34\xb5\xb6\xb7", counting(0xB8, 0xBB), b"\x7c\xbd\xbe\xbf",
)
LONG_REFERENCES = [
    (True, 0x1C9D9E9F, 0xA0A1A2A3, False, 5, 0x4A5A6A7),
    (False, 0x28A9AAAB, 0xACADAEAF, True, 3, 0xB1B2B3),
    (False, 0x34B5B6B7, 0xB8B9BABB, False, 7, 0xCBDBEBF),
]
LONG_VALUE = sidx(1, 0x8C8D8E8F_90919293, 0x94959697_98999A9B, LONG_REFERENCES)
# Version 1, with the references of version 0.
HIGH = box(
    b"sidx", b"\1", counting(0x81, 0x8B), counting(0xC1, 0xC4), counting(0x8C, 0x8F), counting(0xD1, 0xD4), SHORT[24:],
)
# Version 0, without references, and with one that is to fill in.
ZEROS = bytes(20)


def each_version():
    yield from declared_as(SHORT, SHORT_VALUE)
    yield from declared_as(LONG, LONG_VALUE)
    yield from declared_as(HIGH, sidx(1, 0xC1C2C3C4_8C8D8E8F, 0xD1D2D3D4_90919293, REFERENCES))


def no_reference():
    yield from declared_as(box(b"sidx", ZEROS, bytes(4)), sidx(0, 0, 0, [], 0, 0, 0))


def largest_numbers():
    largest = box(b"sidx", ZEROS, u16(0, 1), b"\x7f\xff\xff\xff\xff\xff\xff\xff\x7f\xff\xff\xff")
    reference = (False, 0x7FFFFFFF, 0xFFFFFFFF, False, 7, 0xFFFFFFF)
    yield from declared_as(largest, sidx(0, 0, 0, [reference], 0, 0, 0))
    for version, width in [(0, 4), (1, 8)]:
        head = bytes([version]) + b"\xff" * (11 + 2 * width)
        most, all_ones = 2 ** (8 * width) - 1, 2**32 - 1
        yield from declared_as(
            box(b"sidx", head, bytes(4)), sidx(version, most, most, [], 0xFFFFFF, all_ones, all_ones))


def many_references():
    for count in (1000, 65535):
        zeros = box(b"sidx", ZEROS, u16(0, count), bytes(12 * count))
        yield declared(zeros, sidx(0, 0, 0, [(False, 0, 0, False, 0, 0)] * count, 0, 0, 0), zeros)


def reserved_bytes_and_bytes_after_the_references_are_left_out():
    yield declared(changed(SHORT, {28: 0xE1, 29: 0xE2}), SHORT_VALUE, SHORT)
    yield declared(resized(SHORT + b"\xf1\xf2", 70), SHORT_VALUE, SHORT)


def one_reference_short():
    yield from one_row_short(SHORT, SHORT_VALUE, 12, TOO_MANY_ENTRIES, declared)
    yield from one_row_short(LONG, LONG_VALUE, 12, TOO_MANY_ENTRIES, declared)
    yield declared(resized(HIGH, 75), TOO_MANY_ENTRIES)


def a_version_is_judged_once_its_flags_are_there():
    short = changed(SHORT, {8: 2})
    for size in (68, 8):
        for length in (8, 9, 11):
            yield declared(resized(short[:length], size), END)
        yield declared(resized(short[:12], size), WRONG_VERSION)
    yield declared(changed(LONG, {8: 2}), WRONG_VERSION)


def a_size_that_is_smaller_than_the_fields():
    none = changed(SHORT, {31: 0})
    for size in (0, 8, 12, 31, 32):
        yield declared(resized(none[:32], size), sidx(0, 0x8C8D8E8F, 0x90919293, []))
        yield declared(resized(none[:31], size), END)


def a_count_of_more():
    for count, size, expected in [(4, 68, TOO_MANY_ENTRIES), (4, 80, END), (0xFF04, 80, TOO_MANY_ENTRIES)]:
        yield declared(resized(SHORT[:30] + u16(count) + SHORT[32:], size), expected)


def fields_of_indexes_of_segments():
    """ISO/IEC 14496-12, 8.16.3."""
    # The highest bit of the first and of the third number is a flag. The three bits after that of the third are a type.
    rows = u32(
        0x80000000 + 21, 22, 0x30000000 + 24,
        0x7FFFFFFF, 32, 0xCFFFFFFF,
        41, 0xFFFFFFFF, 0xD0000000 + 44,
    )
    references = [
        {"reference_type": 1, "referenced_size": 21, "subsegment_duration": 22,
         "starts_with_SAP": 0, "SAP_type": 3, "SAP_delta_time": 24},
        {"reference_type": 0, "referenced_size": 2147483647, "subsegment_duration": 32,
         "starts_with_SAP": 1, "SAP_type": 4, "SAP_delta_time": 268435455},
        {"reference_type": 0, "referenced_size": 41, "subsegment_duration": 4294967295,
         "starts_with_SAP": 1, "SAP_type": 5, "SAP_delta_time": 44},
    ]
    yield fields(
        full(b"sidx", u32(11, 12), u32(13, 14), u16(0, 3), rows, version=0, flags=0x010203),
        version=0, flags=66051, reference_ID=11, timescale=12, earliest_presentation_time=13, first_offset=14,
        references=references,
    )
    yield fields(
        full(b"sidx", u32(11, 12), u64(0x1_0000000D, 2**64 - 1), u16(0, 3), rows, version=1, flags=0x010203),
        version=1, flags=66051, reference_ID=11, timescale=12, earliest_presentation_time=4294967309,
        first_offset=18446744073709551615, references=references,
    )
