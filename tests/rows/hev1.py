"""`hev1`, the sample entry of HEVC video. The bytes of the fields count up from 0x81."""

from tests.rows.entry_sizes import sizes_of_child, value_from, with_child
from tests.rows.entry_values import HEV1, HEV1_VALUE, visual
from tests.rows.making import (
    END, Box, box, changed, counting, cuts, fields, filled, invalid, one, round_trip, u8, u16, u32, written_as,
)

COUNTED = box(
    b"hev1", bytes(6), counting(0x81, 0x82), bytes(16), counting(0x83, 0x8E), bytes(4), counting(0x8F, 0x90),
    bytes(32), counting(0x91, 0x92), u16(0xFFFF), box(b"hvcC", counting(0x93, 0x93)),
)
COUNTED_VALUE = visual(
    "hev1", index=0x8182, width=0x8384, height=0x8586, horizontal=0x8788898A, vertical=0x8B8C8D8E, frame_count=0x8F90,
    depth=0x9192, hvcc=Box("hvcC", configuration_version=0x93),
)


def every_field():
    yield round_trip(COUNTED, COUNTED_VALUE)


def reserved_bytes_are_ignored():
    places = [range(8, 14), range(16, 32), range(44, 48), range(50, 82), range(84, 86)]
    yield written_as(filled(COUNTED, 0xC3, *places), COUNTED_VALUE, COUNTED)


def child_of_another_name():
    yield one(changed(HEV1, dict(enumerate(b"avcC", 90))), invalid("hvcc not found"))


def cut_anywhere():
    yield from cuts(HEV1)


def child_larger_than_its_entry():
    yield from value_from(HEV1_VALUE, HEV1, 9)


def child_by_its_size():
    yield from sizes_of_child(HEV1_VALUE, HEV1)


def child_of_a_size_of_1_without_its_large_size():
    yield one(with_child(HEV1, 1), END)


def fields_of_entry_and_configuration():
    """ISO/IEC 14496-15, 8.4.1.1."""
    configuration = box(b"hvcC", u8(6))
    sizes = u16(2, 3) + u32(0x48_8000, 0x49_4000, 0)
    yield fields(
        box(b"hev1", bytes(6), u16(1), bytes(16), sizes, u16(4), bytes(32), u16(5, 0xFFFF), configuration),
        data_reference_index=1, width=2, height=3, horizresolution=72.5, vertresolution=73.25, frame_count=4, depth=5,
        hvcC={"configurationVersion": 6},
    )
