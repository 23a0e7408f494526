"""`subs`, the parts of samples, with sizes of 2 bytes in version 0 and of 4 in version 1. The bytes of the fields count
up from 0x81, except the version and the counts."""

from tests.rows.making import (
    END, TOO_MANY_ENTRIES, WRONG_VERSION, Box, box, changed, counting, declared, declared_as, fields, full, resized, u8,
    u16, u32,
)

FLAGS = b"\x81\x82\x83"
# Three samples: of three parts, of none, and of one.
SHORT = box(
    b"subs", b"\0", FLAGS, u32(3),
    counting(0x84, 0x87), u16(3), counting(0x88, 0x8F), counting(0x90, 0x97), counting(0x98, 0x9F),
    counting(0xA0, 0xA3), u16(0),
    counting(0xA4, 0xA7), u16(1), counting(0xA8, 0xAF),
)
LONG = box(
    b"subs", b"\1", FLAGS, u32(3),
    counting(0x84, 0x87), u16(3), counting(0x88, 0x91), counting(0x92, 0x9B), counting(0x9C, 0xA5),
    counting(0xA6, 0xA9), u16(0),
    counting(0xAA, 0xAD), u16(1), counting(0xAE, 0xB7),
)


def sample(delta, *parts):
    names = ["subsample_size", "subsample_priority", "discardable", "codec_specific_parameters"]
    return {"sample_delta": delta, "subsamples": [dict(zip(names, part)) for part in parts]}


def subs(version, samples):
    return Box("subs", version=version, flags=0x818283, entries=samples)


SHORT_SAMPLES = [
    sample(0x84858687, (0x8889, 0x8A, 0x8B, 0x8C8D8E8F), (0x9091, 0x92, 0x93, 0x94959697),
           (0x9899, 0x9A, 0x9B, 0x9C9D9E9F)),
    sample(0xA0A1A2A3), sample(0xA4A5A6A7, (0xA8A9, 0xAA, 0xAB, 0xACADAEAF)),
]
LONG_SAMPLES = [
    sample(0x84858687, (0x88898A8B, 0x8C, 0x8D, 0x8E8F9091), (0x92939495, 0x96, 0x97, 0x98999A9B),
           (0x9C9D9E9F, 0xA0, 0xA1, 0xA2A3A4A5)),
    sample(0xA6A7A8A9), sample(0xAAABACAD, (0xAEAFB0B1, 0xB2, 0xB3, 0xB4B5B6B7)),
]


def each_version():
    for version, whole, samples in [(0, SHORT, SHORT_SAMPLES), (1, LONG, LONG_SAMPLES)]:
        yield from declared_as(whole, subs(version, samples))
        yield from declared_as(box(b"subs", whole[8:12], u32(0)), subs(version, []))


def another_version():
    yield declared(changed(SHORT, {8: 2}), WRONG_VERSION)
    # The last part has 8 bytes of 10, and what was a part is a count.
    yield declared(changed(SHORT, {8: 1}), TOO_MANY_ENTRIES)
    yield declared(changed(LONG, {8: 0}), TOO_MANY_ENTRIES)


def counts_of_one_more():
    for whole, first, second, third in [(SHORT, 21, 51, 57), (LONG, 21, 57, 63)]:
        yield declared(changed(whole, {15: 4}), END)
        # The bytes after it are read as parts, and a count.
        yield declared(changed(whole, {first: 4}), TOO_MANY_ENTRIES)
        yield declared(changed(whole, {second: 1}), TOO_MANY_ENTRIES)
        yield declared(changed(whole, {third: 2}), TOO_MANY_ENTRIES)
        yield declared(changed(whole, {third - 1: 1}), TOO_MANY_ENTRIES)


def counts_of_fewer():
    """Bytes that are left aren't written."""
    for version, whole, samples, third in [(0, SHORT, SHORT_SAMPLES, 57), (1, LONG, LONG_SAMPLES, 63)]:
        two = box(b"subs", whole[8:12], u32(2), whole[16:third - 5])
        yield declared(changed(whole, {15: 2}), subs(version, samples[:2]), two)
        yield declared(changed(whole, {15: 0}), subs(version, []), box(b"subs", whole[8:12], u32(0)))
        # The third part is read as a sample with a large count.
        yield declared(changed(whole, {21: 2}), TOO_MANY_ENTRIES)
        none = changed(whole, {third: 0})
        left = [*samples[:2], sample(samples[2]["sample_delta"])]
        yield declared(none, subs(version, left), box(b"subs", none[8:third + 1]))


def counts_that_no_bytes_are_there_for():
    """Samples are read one after the other, however many are counted. The parts of a sample have to be in the box."""
    yield declared(changed(SHORT, {12: 0xFF, 13: 0xFF, 14: 0xFF, 15: 0xFF}), END)
    for version, least in ((b"\0", 16 + 6 + 65535 * 8), (b"\1", 16 + 6 + 65535 * 10)):
        yield declared(box(b"subs", version, FLAGS, u32(2**32 - 1)), END)
        for size, expected in ((least, END), (least - 1, TOO_MANY_ENTRIES)):
            yield declared(box(b"subs", version, FLAGS, u32(1, 9), u16(65535), b"\x84" * 40, size=size), expected)


def sizes():
    """The parts have to be in the box. Other fields are read even past its end."""
    for version, whole, samples, third in [(0, SHORT, SHORT_SAMPLES, 57), (1, LONG, LONG_SAMPLES, 63)]:
        for size in (8, 16, 21, third - 11, third, len(whole) - 1):
            yield declared(resized(whole, size), TOO_MANY_ENTRIES)
        yield declared(resized(whole, len(whole) + 1), subs(version, samples), whole)
        # The last part of the first sample ends 6 bytes before the third sample.
        two = box(b"subs", whole[8:12], u32(2), whole[16:third - 5])
        yield declared(resized(two, third - 11), subs(version, samples[:2]), two)
        yield declared(resized(two, third - 12), TOO_MANY_ENTRIES)
    yield declared(resized(box(b"subs", SHORT[8:12], u32(0)), 8), subs(0, []), box(b"subs", SHORT[8:12], u32(0)))


def largest_numbers():
    for version, width in ((0, 2), (1, 4)):
        whole = box(b"subs", bytes([version]), FLAGS, u32(1, 2**32 - 1), u16(1), b"\xff" * (width + 6))
        part = 256**width - 1, 255, 255, 2**32 - 1
        yield declared(whole, subs(version, [sample(2**32 - 1, part)]), whole)


def many_entries():
    """One row has a thousand samples, and another has a sample of a thousand parts."""
    samples = b"".join(u32(number * 65537) + u16(0) for number in range(1000))
    whole = box(b"subs", b"\0", FLAGS, u32(1000), samples)
    yield declared(whole, subs(0, [sample(number * 65537) for number in range(1000)]), whole)
    parts = [(number, number % 256, number % 3, number * 65537) for number in range(1000)]
    rows = b"".join(u16(part[0]) + bytes(part[1:3]) + u32(part[3]) for part in parts)
    whole = box(b"subs", b"\0", FLAGS, u32(1, 9), u16(1000), rows)
    yield declared(whole, subs(0, [sample(9, *parts)]), whole)


def fields_of_parts_of_samples():
    """ISO/IEC 14496-12, 8.7.7. The sizes of parts have 16 bits in version 0, and 32 in version 1."""
    for version, number, first in [(0, u16, 20), (1, u32, 0x10000)]:
        yield fields(
            full(
                b"subs", u32(3),
                u32(11), u16(3),
                number(first), u8(21, 22), u32(23), number(24), u8(25, 26), u32(27), number(28), u8(29, 30), u32(31),
                u32(12), u16(0),
                u32(13), u16(1), number(32), u8(33, 34), u32(35),
                version=version, flags=0x010203,
            ),
            version=version, flags=66051, entry_count=3,
            entries=[
                sample(11, (first, 21, 22, 23), (24, 25, 26, 27), (28, 29, 30, 31)), sample(12),
                sample(13, (32, 33, 34, 35)),
            ],
        )
