"""`hvcC`, the configuration of an HEVC decoder. The codec's own box has one byte of it; the declared one has all: bits,
and arrays of NAL units.

The bits after the first byte are 10 1 00011, those of five and six bytes, 10001100, 1001 101010111100, 101101 10,
110010 01, 10011 101, 01011 110, those of two bytes, and 01 101 0 11."""

from tests.rows.entry_sizes import value_from
from tests.rows.entry_values import HVCC, HVCC_VALUE
from tests.rows.making import (
    END, TOO_MANY_BYTES, Box, box, changed, counting, cuts, declared, declared_as, fields, resized, round_trip, u8,
    u16, u32,
)

FRONT = b"\x81\xa3" + counting(0x82, 0x8C) + b"\x9a\xbc\xb6\xc9\x9d\x5e\x8d\x8e\x6b"
PROFILE = {
    "general_profile_space": 2, "general_tier_flag": True, "general_profile_idc": 3,
    "general_profile_compatibility_flags": 0x82838485, "general_constraint_indicator_flags": 0x868788898A8B,
    "general_level_idc": 0x8C,
}
FORMAT = {
    "reserved_before_segmentation": 9, "min_spatial_segmentation_idc": 0xABC, "reserved_before_parallelism": 0x2D,
    "parallelism_type": 2, "reserved_before_chroma_format": 0x32, "chroma_format_idc": 1, "reserved_before_luma": 0x13,
    "bit_depth_luma_minus8": 5, "reserved_before_chroma": 0x0B, "bit_depth_chroma_minus8": 6,
}
RATE = {"constant_frame_rate": 1, "num_temporal_layers": 5, "temporal_id_nested": False, "length_size_minus_one": 3}
# Arrays of three NAL units, of none and of one: with the first bit set, with none and with the second.
UNITS = b"\xa0" + u16(3, 1) + b"\x91" + u16(3) + b"\x92\x93\x94" + u16(2) + b"\x95\x96"
NO_UNITS = b"\x27" + u16(0)
ONE_UNIT = b"\x61" + u16(1, 4) + b"\x97\x98\x99\x9a"
THREE = box(b"hvcC", FRONT, b"\3", UNITS, NO_UNITS, ONE_UNIT)


def array(complete, reserved, kind, *units):
    bits = {"array_completeness": complete, "reserved": reserved, "nal_unit_type": kind}
    return {"kind": bits, "nal_units": [{"bytes": list(unit)} for unit in units]}


ARRAYS = [
    array(True, False, 32, b"\x91", b"\x92\x93\x94", b"\x95\x96"), array(False, False, 39),
    array(False, True, 33, b"\x97\x98\x99\x9a"),
]


def hvcc(arrays, profile=PROFILE, rate=RATE):
    fields = {"profile": profile, "format": FORMAT, "avg_frame_rate": 0x8D8E, "rate": rate}
    return Box("hvcc", configuration_version=0x81, **fields, arrays=arrays)


def every_field():
    yield round_trip(box(b"hvcC", counting(0x81, 0x81)), Box("hvcC", configuration_version=0x81))


def cut_anywhere():
    yield from cuts(HVCC)


def any_size_is_its_own():
    yield from value_from(HVCC_VALUE, HVCC, 0)


def declared_with_three_arrays():
    yield from declared_as(THREE, hvcc(ARRAYS))


def declared_with_no_arrays():
    yield from declared_as(box(b"hvcC", FRONT, b"\0"), hvcc([]))


def declared_with_other_flags():
    other = changed(THREE, {9: 0x83, 29: 0x6F})
    profile, rate = dict(PROFILE, general_tier_flag=False), dict(RATE, temporal_id_nested=True)
    yield declared(other, hvcc(ARRAYS, profile, rate), other)


def counts_that_are_too_small():
    """Bytes after the counted arrays, NAL units and bytes are left out."""
    two = box(b"hvcC", FRONT, b"\2", UNITS, NO_UNITS)
    yield declared(changed(THREE, {30: 2}), hvcc(ARRAYS[:2]), two)
    units = changed(box(b"hvcC", FRONT, b"\1", UNITS), {33: 2})
    yield declared(units, hvcc([array(True, False, 32, b"\x91", b"\x92\x93\x94")]), resized(units[:-4], 42))
    unit = changed(box(b"hvcC", FRONT, b"\1", ONE_UNIT), {35: 3})
    yield declared(unit, hvcc([array(False, True, 33, b"\x97\x98\x99")]), resized(unit[:-1], 39))


def counts_that_are_too_large():
    yield declared(changed(THREE, {30: 4}), END)
    # The second array is taken for a NAL unit of 0x2700 bytes.
    yield declared(changed(THREE, {33: 4}), TOO_MANY_BYTES)
    # The last NAL unit has a byte more than the box.
    yield declared(changed(THREE, {len(THREE) - 5: 5}), TOO_MANY_BYTES)


def sizes_that_are_too_small():
    yield declared(resized(THREE, len(THREE) - 1), TOO_MANY_BYTES)
    yield declared(resized(THREE, len(THREE) + 1), hvcc(ARRAYS), THREE)


def fields_of_bits_and_arrays():
    """ISO/IEC 14496-15, 8.3.3.1: one group of reserved bits isn't all set."""
    # Writes the bits 00 1 00010 at the front of the profile, 1111 000000000101, 111111 11, 111111 01, 11111 010 and
    # 11110 010 as format, 01 011 1 11 as rate, and 1 0 100001 and 1 0 101001 at the fronts of the arrays.
    profile = u8(0x22) + u32(0x20000000) + b"\x90\0\0\0\0\1" + u8(93)
    formats = b"\xf0\x05\xff\xfd\xfa\xf2"
    arrays = u8(0xA1) + u16(1, 2) + b"\x42\x01" + u8(0xA9) + u16(1, 0)
    yield fields(
        box(b"hvcC", u8(1), profile, formats, u16(6400), u8(0x5F, 2), arrays), configurationVersion=1,
        general_profile_space=0, general_tier_flag=1, general_profile_idc=2,
        general_profile_compatibility_flags=536870912, general_constraint_indicator_flags="900000000001",
        general_level_idc=93, min_spatial_segmentation_idc=5, parallelismType=3, chroma_format_idc=1,
        bit_depth_luma_minus8=2, reserved_before_chroma=30, bit_depth_chroma_minus8=2, avgFrameRate=6400,
        constantFrameRate=1, numTemporalLayers=3, temporalIdNested=1, lengthSizeMinusOne=3,
        arrays=[
            {"array_completeness": 1, "NAL_unit_type": 33, "NAL_unit_type_name": "SPS", "nalUnit": ["4201"]},
            {"array_completeness": 1, "NAL_unit_type": 41, "nalUnit": [""]},
        ],
    )
