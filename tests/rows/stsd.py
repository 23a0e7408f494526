"""`stsd`, the sample descriptions: the entry that is read, with counts, sizes and cuts."""

from tests.rows.entry_values import (
    AVC1, AVC1_OF_TEST, AVC1_OF_TEST_VALUE, AVC1_VALUE, ESDS, HEV1, HEV1_VALUE, MP4A, MP4A_OF_TEST, MP4A_OF_TEST_VALUE,
    MP4A_VALUE, MP4A_WITHOUT_ESDS, MP4A_WITHOUT_ESDS_VALUE, TX3G, TX3G_VALUE, VP09, VP09_VALUE, mp4a, stsd, stsd_bytes,
)
from tests.rows.making import (
    END, LARGEST, PAST_64_BITS, box, changed, counting, cuts, fields, full, large, larger_child, one, round_trip, u16,
    u32, written_as,
)
from tests.rows.mp4a import COUNTED as COUNTED_ENTRY, COUNTED_FIELDS as COUNTED_ENTRY_FIELDS

TOO_LARGE = larger_child("stsd")


def every_field():
    """Version and flags count up from 0xB1, since the bytes of the entry begin at 0x81."""
    given = box(b"stsd", counting(0xB1, 0xB4), u32(1), COUNTED_ENTRY)
    yield round_trip(given, stsd(0xB1, 0xB2B3B4, mp4a=mp4a(*COUNTED_ENTRY_FIELDS)))


def no_entry_and_any_count():
    """The count is ignored."""
    given = box(b"stsd", counting(0xB1, 0xB4), u32(0))
    yield round_trip(given, stsd(0xB1, 0xB2B3B4))
    yield written_as(box(b"stsd", counting(0xB1, 0xB8)), stsd(0xB1, 0xB2B3B4), given)


def entries_are_written_alone():
    yield round_trip(stsd_bytes(AVC1), stsd(avc1=AVC1_VALUE))
    yield round_trip(stsd_bytes(HEV1), stsd(hev1=HEV1_VALUE))
    yield round_trip(stsd_bytes(VP09), stsd(vp09=VP09_VALUE))
    yield round_trip(stsd_bytes(MP4A), stsd(mp4a=MP4A_VALUE))
    yield round_trip(stsd_bytes(AVC1_OF_TEST), stsd(avc1=AVC1_OF_TEST_VALUE))


def tx3g_is_written_alone():
    yield round_trip(stsd_bytes(TX3G), stsd(tx3g=TX3G_VALUE))


def no_entry():
    """The bytes after the count are not read, whatever the count is."""
    yield round_trip(full(b"stsd", u32(0)), stsd())
    yield one(stsd_bytes(MP4A, size=16), stsd())


def count_of_entries_is_not_used():
    for count in (0, 1, 2, 255):
        yield one(stsd_bytes(MP4A_OF_TEST, count=count), stsd(mp4a=MP4A_OF_TEST_VALUE))


def cut_anywhere():
    yield from cuts(stsd_bytes(MP4A))


def sizes():
    for size, expected in [
        (0, stsd()),
        (7, stsd()),
        (15, stsd()),
        (16, stsd()),
        (17, TOO_LARGE),
        (78, TOO_LARGE),
        (79, stsd(mp4a=MP4A_VALUE)),
        (95, stsd(mp4a=MP4A_VALUE)),
        (LARGEST, stsd(mp4a=MP4A_VALUE)),
    ]:
        yield one(stsd_bytes(MP4A, size=size), expected)


def entry_larger_than_its_stsd():
    yield one(stsd_bytes(MP4A, size=78), TOO_LARGE)


def children():
    for child, size, expected in [
        (b"", 17, END),
        (MP4A[:7], 95, END),
        (ESDS, 59, stsd()),
        (box(b"free", size=0), 24, stsd()),
        (box(b"free", size=7), 24, stsd()),
        (box(b"free", size=24), 24, stsd()),
        (box(b"free", size=25), 24, TOO_LARGE),
    ]:
        yield one(stsd_bytes(child, size=size), expected)


def children_up_to_the_end_of_64_bits():
    """A child whose content isn't read may end past 2^64 - 1. The content of an entry begins at 40, and it ends at
    2^64 - 1 or past it."""
    for code, number, expected in [
        (b"free", 2**64 - 1, stsd()),
        (b"mp4a", 2**64 - 1, PAST_64_BITS),
        (b"mp4a", 2**64 - 25, END),
        (b"mp4a", 2**64 - 24, PAST_64_BITS),
    ]:
        yield one(stsd_bytes(large(code, number=number), size=LARGEST), expected)


def entries_of_less_than_36_bytes():
    """An entry of less than 36 bytes still has its fields."""
    for size in (0, 7, 15, 16, 36):
        yield one(stsd_bytes(changed(MP4A_WITHOUT_ESDS, {3: size})), stsd(mp4a=MP4A_WITHOUT_ESDS_VALUE))


ENTRIES = {
    "avc1": (AVC1, AVC1_VALUE), "hev1": (HEV1, HEV1_VALUE), "vp09": (VP09, VP09_VALUE), "mp4a": (MP4A, MP4A_VALUE),
    "tx3g": (TX3G, TX3G_VALUE),
}


def descriptions(*entries):
    """Returns a `stsd` with `entries`, and with their number as its count."""
    return full(b"stsd", u32(len(entries)), *entries)


def first_of_two_entries_is_read():
    for name, (first, value) in ENTRIES.items():
        for second, _ in ENTRIES.values():
            yield one(descriptions(first, second), stsd(**{name: value}))
            yield one(descriptions(first, *[second] * 20), stsd(**{name: value}))


def entry_after_one_of_another_type_is_not_read():
    others = [box(b"encv", AVC1[8:]), box(b"enca", MP4A[8:]), box(b"free"), large(b"free", b"12345678")]
    for known, _ in ENTRIES.values():
        for other in others:
            yield one(descriptions(other, known), stsd())
            yield one(descriptions(other, other, known), stsd())


def entry_before_one_of_another_type_is_read():
    for name, (known, value) in ENTRIES.items():
        yield one(descriptions(known, box(b"encv", AVC1[8:])), stsd(**{name: value}))
        # The next entry isn't read, whatever its size is.
        yield one(descriptions(known, box(b"free", size=2**31)), stsd(**{name: value}))


def entry_may_end_past_its_box():
    """An entry is no larger than its box, and may end 16 bytes after it."""
    for name, (entry, value) in ENTRIES.items():
        for size in (len(entry), len(entry) + 1, len(entry) + 15, len(entry) + 16):
            yield one(stsd_bytes(entry, size=size), stsd(**{name: value}))


def entry_may_end_before_its_box():
    for name, (entry, value) in ENTRIES.items():
        for rest in (b"\0", bytes(7), bytes(100), b"\0\0\0\2free"):
            yield one(full(b"stsd", u32(1), entry, rest), stsd(**{name: value}))


def fields_of_descriptions():
    """ISO/IEC 14496-12, 8.5.2."""
    yield fields(full(b"stsd", u32(0), version=31, flags=32), version=31, flags=32, entry_count=0)
    entry = box(b"mp4a", bytes(6), u16(21), bytes(8), u16(22, 23), bytes(4), u32(0xAC44_8000))
    # Compares the fields of the entry, since it is inside.
    yield fields(
        full(b"stsd", u32(1), entry, version=31, flags=32), data_reference_index=21, channelcount=22, samplesize=23,
        samplerate=44100.5,
    )
