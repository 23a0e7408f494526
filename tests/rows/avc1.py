"""`avc1`, the sample entry of AVC video. The bytes of the fields count up from 0x81, except the counts and lengths of
parameter sets."""

from tests.rows.entry_sizes import sizes_of_child, value_from
from tests.rows.entry_values import AVC1, AVC1_OF_TEST, AVC1_OF_TEST_VALUE, AVC1_VALUE, avcc, visual
from tests.rows.making import (
    LARGEST, PAST_64_BITS, box, changed, counting, cuts, fields, filled, invalid, large, one, round_trip, u8, u16, u32,
    written_as,
)

CHILD = box(
    b"avcC", counting(0x93, 0x96), u8(0xFD),
    u8(0xE1), u16(2), counting(0x97, 0x98),
    u8(2), u16(1), counting(0x99, 0x99), u16(3), counting(0x9A, 0x9C),
)
COUNTED = box(
    b"avc1", bytes(6), counting(0x81, 0x82), bytes(16), counting(0x83, 0x8E), bytes(4), counting(0x8F, 0x90),
    bytes(32), counting(0x91, 0x92), u16(0xFFFF), CHILD,
)
COUNTED_VALUE = visual(
    "avc1", index=0x8182, width=0x8384, height=0x8586, horizontal=0x8788898A, vertical=0x8B8C8D8E, frame_count=0x8F90,
    depth=0x9192,
    avcc=avcc(0x93, 0x94, 0x95, 0x96, 1, [counting(0x97, 0x98)], [counting(0x99, 0x99), counting(0x9A, 0x9C)]),
)


def every_field():
    yield round_trip(COUNTED, COUNTED_VALUE)


def reserved_bytes_are_ignored():
    places = [range(8, 14), range(16, 32), range(44, 48), range(50, 82), range(84, 86)]
    yield written_as(filled(COUNTED, 0xC3, *places), COUNTED_VALUE, COUNTED)


def two_sets():
    yield round_trip(AVC1_OF_TEST, AVC1_OF_TEST_VALUE)


def child_of_another_name():
    """The name is checked before the content."""
    other = changed(AVC1, dict(enumerate(b"free", 90)))
    yield one(other, invalid("avcc not found"))
    yield one(other[:94], invalid("avcc not found"))


def cut_anywhere():
    yield from cuts(AVC1)


def child_larger_than_its_entry():
    yield from value_from(AVC1_VALUE, AVC1, 36)


def child_by_its_size():
    yield from sizes_of_child(AVC1_VALUE, AVC1)


def child_that_ends_past_64_bits():
    yield one(box(b"avc1", AVC1[8:86], large(b"avcC", number=2**64 - 1), size=LARGEST), PAST_64_BITS)


def fields_of_entry_and_configuration():
    """ISO/IEC 14496-12, 12.1.3, and ISO/IEC 14496-15, 5.4.2.1."""
    sets = u16(2) + u8(0x67, 6) + u8(1) + u16(3) + u8(0x68, 7, 8)
    configuration = box(b"avcC", u8(1, 2, 3, 4, 0xFD, 0xE1), sets)
    sizes = u16(2, 3) + u32(0x48_8000, 0x49_4000, 0)
    yield fields(
        box(b"avc1", bytes(6), u16(1), bytes(16), sizes, u16(4), bytes(32), u16(5, 0xFFFF), configuration),
        data_reference_index=1, width=2, height=3, horizresolution=72.5, vertresolution=73.25, frame_count=4, depth=5,
        avcC={
            "configurationVersion": 1, "AVCProfileIndication": 2, "profile_compatibility": 3, "AVCLevelIndication": 4,
            "lengthSizeMinusOne": 1, "sequenceParameterSetNALUnit": ["6706"], "pictureParameterSetNALUnit": ["680708"],
        },
    )
