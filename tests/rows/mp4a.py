"""`mp4a`, the sample entry of MPEG-4 audio: its sizes, and children. The bytes of the fields count up from 0x81."""

from tests.rows.entry_values import (
    AUDIO_CONFIGURATIONS, ESDS, ESDS_VALUE, MP4A, MP4A_OF_TEST, MP4A_OF_TEST_VALUE, MP4A_VALUE, MP4A_WITHOUT_ESDS,
    MP4A_WITHOUT_ESDS_VALUE, TEST_FIELDS, esds_bytes_of, esds_of, mp4a, mp4a_bytes, specific,
)
from tests.rows.esds import COUNTED as COUNTED_ESDS, COUNTED_VALUE as COUNTED_ESDS_VALUE, NOT_FOUND
from tests.rows.making import (
    END, LARGEST, LARGE_TOO_SMALL, PAST_64_BITS, box, changed, counting, cuts, fields, full, large, larger_child,
    listed, one, resized, round_trip, u8, u16, u24, u32, written_as,
)
from tests.rows.values import other

COUNTED = box(
    b"mp4a", bytes(6), counting(0x81, 0x82), bytes(8), counting(0x83, 0x86), bytes(4), counting(0x87, 0x8A),
)
COUNTED_FIELDS = (0x8182, 0x8384, 0x8586, 0x8788898A)


def every_field():
    yield round_trip(COUNTED, mp4a(*COUNTED_FIELDS))
    given = resized(COUNTED + COUNTED_ESDS, 75)
    yield round_trip(given, mp4a(*COUNTED_FIELDS, COUNTED_ESDS_VALUE))


def entries_of_the_rust_crate():
    yield round_trip(MP4A_OF_TEST, MP4A_OF_TEST_VALUE)
    yield round_trip(MP4A_WITHOUT_ESDS, MP4A_WITHOUT_ESDS_VALUE)


def reserved_bytes_are_ignored():
    others = [(8, b"\x91\x92\x93\x94\x95\x96"), (16, b"\x97\x98\x99\x9a\x9b\x9c\x9d\x9e"), (28, b"\xa1\xa2\xa3\xa4")]
    given = COUNTED
    for place, content in others:
        given = changed(given, dict(enumerate(content, place)))
    yield written_as(given, mp4a(*COUNTED_FIELDS), COUNTED)


def audio_configurations():
    for *audio, content in AUDIO_CONFIGURATIONS:
        value = esds_of(1, 128000, specific(*audio))
        yield round_trip(mp4a_bytes(*TEST_FIELDS, esds_bytes_of(1, 128000, content)), mp4a(*TEST_FIELDS, value))


def cut_anywhere():
    yield from cuts(MP4A)


def mp4a_of(child, size, expected):
    """Expects the outcome `expected` for an `mp4a` with the size `size` and the bytes `child` after its fields. The
    cursor is after the fields if the size is below 36."""
    after = 36 if size < 36 else None
    return one(mp4a_bytes(*TEST_FIELDS, child, size=size), expected, after)


NO_ESDS = mp4a(*TEST_FIELDS)
WITH_ESDS = mp4a(*TEST_FIELDS, ESDS_VALUE)
TOO_LARGE = larger_child("mp4a")


def sizes():
    for child, size, expected in [
        (b"", 0, NO_ESDS),
        (b"", 7, NO_ESDS),
        (b"", 20, NO_ESDS),
        (b"", 36, NO_ESDS),
        (b"", 37, END),
        (b"", LARGEST, END),
        (ESDS, 0, NO_ESDS),
        (ESDS, 7, NO_ESDS),
        (ESDS, 15, NO_ESDS),
        (ESDS, 16, NO_ESDS),
        (ESDS, 36, NO_ESDS),
        (ESDS, 37, TOO_LARGE),
        (ESDS, 42, TOO_LARGE),
        (ESDS, 43, WITH_ESDS),
        (ESDS, 79, WITH_ESDS),
        (ESDS, 80, WITH_ESDS),
        (ESDS, LARGEST, WITH_ESDS),
    ]:
        yield mp4a_of(child, size, expected)


def child_larger_than_its_entry():
    yield one(MP4A, MP4A_VALUE, after=79)
    yield one(resized(MP4A, LARGEST), MP4A_VALUE, after=2**64 - 1)
    yield one(resized(MP4A, 42), TOO_LARGE, after=8)


def sizes_of_the_child():
    for size, expected in [
        (0, NOT_FOUND),
        # The first bytes of the content are read as a size of 64 bits.
        (1, TOO_LARGE),
        (7, NOT_FOUND),
        (12, NOT_FOUND),
        (13, WITH_ESDS),
        (15, WITH_ESDS),
        (16, WITH_ESDS),
        (43, WITH_ESDS),
        (44, END),
        (79, END),
        (80, TOO_LARGE),
    ]:
        yield mp4a_of(changed(ESDS, {3: size}), 79, expected)


def child_with_a_size_of_64_bits():
    """In a box of the largest size the content of the child begins at 60."""
    for number, size, expected in [
        (0, 87, NOT_FOUND),
        (1, 87, LARGE_TOO_SMALL),
        (15, 87, LARGE_TOO_SMALL),
        (16, 87, NOT_FOUND),
        (21, 87, WITH_ESDS),
        (51, 87, WITH_ESDS),
        (52, 87, END),
        (95, 87, END),
        (96, 87, TOO_LARGE),
        # The largest child that ends below 2^64, the next, and the largest.
        (2**64 - 45, LARGEST, END),
        (2**64 - 44, LARGEST, PAST_64_BITS),
        (2**64 - 1, LARGEST, PAST_64_BITS),
    ]:
        yield mp4a_of(large(b"esds", ESDS[8:], number=number), size, expected)


def child_of_another_name():
    largest = large(b"free", number=2**64 - 1)
    for child, size, expected in [
        (box(b"free", size=0), 44, NO_ESDS),
        (box(b"free", size=7), 44, NO_ESDS),
        (box(b"free", size=44), 44, NO_ESDS),
        (box(b"free", size=45), 44, TOO_LARGE),
        (box(b"free")[:7], 44, END),
        # If its content isn't read, it may end past 2^64 - 1.
        (largest, LARGEST, NO_ESDS),
        (largest, LARGEST - 1, TOO_LARGE),
        (largest[:15], LARGEST, END),
    ]:
        yield mp4a_of(child, size, expected)


# An `mp4a` without descriptors, whose size says 20 bytes. In a list the next box begins at 20. It has 17 bytes.
SHORT_MP4A = changed(MP4A_WITHOUT_ESDS, {3: 20, 23: 17}) + b"\0"


def entry_that_ends_after_its_size():
    yield one(SHORT_MP4A[:36], NO_ESDS, after=36)


def list_of_an_entry_that_ends_after_its_size():
    yield listed(SHORT_MP4A[:36], END)
    next_box = other(b"\0\2\0\x10", bytes(4) + u32(48000 << 16) + b"\0")
    yield listed(SHORT_MP4A, [NO_ESDS], kept_as=[NO_ESDS, next_box])


def quicktime(version, *after):
    """Returns an `mp4a` with the version `version`, and the bytes `after` at offset 36."""
    index, channels, sample_size, rate = TEST_FIELDS
    head = bytes(6) + u16(index, version, 0) + bytes(4)
    return box(b"mp4a", head, u16(channels, sample_size, 0, 0), u32(rate), *after)


def version_is_ignored():
    for version in (1, 2, 0xFFFF):
        yield one(quicktime(version, ESDS), WITH_ESDS)
        yield one(quicktime(version), NO_ESDS)


def fields_of_version_1_are_read_as_a_child():
    """The fields are samples per packet, and bytes per packet, per frame and per sample. They are read as the size, the
    code and 8 more bytes of the child."""
    for version in (0, 1):
        for fields, expected in [
            ((1024, 1024, 2048, 2), larger_child("mp4a")),
            ((16, 0, 0, 2), NO_ESDS),
            ((0, 0, 0, 2), NO_ESDS),
            # The two last fields are a size of 64 bits.
            ((1, 1, 0, 2), LARGE_TOO_SMALL),
            ((1, 1, 2, 2), larger_child("mp4a")),
            ((1, 1, 0, 16), NO_ESDS),
        ]:
            yield one(quicktime(version, u32(*fields), ESDS), expected)
        yield one(quicktime(version, u32(1, 1, 0)), END)


def fields_of_entry_and_descriptors():
    """ISO/IEC 14496-12, 12.2.3."""
    entry = bytes(6) + u16(21) + bytes(8) + u16(22, 23) + bytes(4) + u32(0xAC44_8000)
    of_entry = {"data_reference_index": 21, "channelcount": 22, "samplesize": 23, "samplerate": 44100.5}
    yield fields(box(b"mp4a", entry), **of_entry)
    # Has the bits 000101 1 1 of the stream, and 01010 1011 1100 000 of the audio configuration.
    decoder = u8(4, 17, 4, 0x17) + u24(7) + u32(8, 9) + u8(5, 2, 0x55, 0xE0)
    descriptors = full(b"esds", u8(3, 25), u16(3), u8(0), decoder, u8(6, 1, 2), version=1, flags=2)
    yield fields(box(b"mp4a", entry, descriptors), **of_entry, esds={
        "version": 1, "flags": 2, "ES": {"ES_ID": 3, "decConfigDescr": {
            "objectTypeIndication": 4, "streamType": 5, "upStream": 2, "bufferSizeDB": 7, "maxBitrate": 8,
            "avgBitrate": 9,
            "decSpecificInfo": {"audioObjectType": 10, "samplingFrequencyIndex": 11, "channelConfiguration": 12},
        }},
    })
