"""`vpcC`, the configuration of a VP codec. The bytes of the fields count up from 0x81. The codec's own box has no bytes
for the decoder, and reads every version alike. The declared one has them, and other fields in version 0.

The bits of 0x87 are 1000 011 1, or 1000 and 0111 in version 0, where those of 0x88 are 1000 100 0."""

from tests.rows.entry_sizes import value_from
from tests.rows.entry_values import VPCC, VPCC_VALUE
from tests.rows.making import (
    END, TOO_MANY_BYTES, WRONG_VERSION, Box, box, changed, counting, cuts, declared, declared_as, fields, full, resized,
    round_trip, u8, u16,
)
from tests.rows.values import full_box

COUNTED = box(b"vpcC", counting(0x81, 0x8C))


def counted(bit_depth, chroma_subsampling, video_full_range_flag):
    """Returns the value of `COUNTED`, with the arguments in the three fields of one byte."""
    return full_box(
        "vpcC", 0x81, 0x828384, profile=0x85, level=0x86, bit_depth=bit_depth, chroma_subsampling=chroma_subsampling,
        video_full_range_flag=video_full_range_flag, color_primaries=0x88, transfer_characteristics=0x89,
        matrix_coefficients=0x8A, codec_initialization_data_size=0x8B8C,
    )


def every_field():
    yield round_trip(COUNTED, counted(8, 3, True))


def each_bit_of_three_fields():
    for byte, value in [
        (0x80, counted(8, 0, False)),
        (0x40, counted(4, 0, False)),
        (0x20, counted(2, 0, False)),
        (0x10, counted(1, 0, False)),
        (0x08, counted(0, 4, False)),
        (0x04, counted(0, 2, False)),
        (0x02, counted(0, 1, False)),
        (0x01, counted(0, 0, True)),
        (0xF0, counted(15, 0, False)),
        (0x0E, counted(0, 7, False)),
        (0x00, counted(0, 0, False)),
    ]:
        yield round_trip(changed(COUNTED, {14: byte}), value)


def wide_colors():
    given = full(b"vpcC", u8(0, 0x1F, 0x80, 9, 16, 9), u16(0), version=1)
    yield round_trip(given, full_box(
        "vpcC", 1, profile=0, level=31, bit_depth=8, chroma_subsampling=0, video_full_range_flag=False,
        color_primaries=9, transfer_characteristics=16, matrix_coefficients=9, codec_initialization_data_size=0,
    ))


def cut_anywhere():
    yield from cuts(VPCC)


def any_size_is_its_own():
    yield from value_from(VPCC_VALUE, VPCC, 0)


WHOLE = box(b"vpcC", b"\1", counting(0x82, 0x8A), u16(3), counting(0x8B, 0x8D))
FORMAT = {
    "bit_depth": 8, "chroma_subsampling": 3, "video_full_range_flag": True, "colour_primaries": 0x88,
    "transfer_characteristics": 0x89, "matrix_coefficients": 0x8A,
}
DRAFT = box(b"vpcC", b"\0", counting(0x82, 0x88), u16(3), counting(0x8B, 0x8D))
DRAFT_FORMAT = {
    "bit_depth": 8, "color_space": 7, "chroma_subsampling": 8, "transfer_function": 4, "video_full_range_flag": False,
}
DATA = counting(0x8B, 0x8D)


def whole(data=DATA, bits=FORMAT):
    return Box(
        "vpcc", version=1, flags=0x828384, profile=0x85, level=0x86, draft_format=None, format=bits,
        codec_initialization_data=list(data),
    )


def draft(data=DATA, bits=DRAFT_FORMAT):
    return Box(
        "vpcc", version=0, flags=0x828384, profile=0x85, level=0x86, draft_format=bits, format=None,
        codec_initialization_data=list(data),
    )


def declared_in_each_version():
    yield from declared_as(WHOLE, whole())
    yield from declared_as(DRAFT, draft())
    for version in (2, 3, 255):
        yield declared(changed(WHOLE, {8: version}), WRONG_VERSION)


def declared_without_data():
    yield from declared_as(box(b"vpcC", WHOLE[8:18], u16(0)), whole(b""))
    yield from declared_as(box(b"vpcC", DRAFT[8:16], u16(0)), draft(b""))


def declared_with_each_bit():
    for bit in range(8):
        one = 1 << bit
        given = changed(WHOLE, {14: one})
        bits = {"bit_depth": one >> 4, "chroma_subsampling": one >> 1 & 7, "video_full_range_flag": one == 1}
        yield declared(given, whole(bits={**FORMAT, **bits}), given)
        given = changed(DRAFT, {14: one, 15: 0x80 >> bit})
        other = 0x80 >> bit
        bits = {
            "bit_depth": one >> 4, "color_space": one & 15, "chroma_subsampling": other >> 4,
            "transfer_function": other >> 1 & 7, "video_full_range_flag": other == 1,
        }
        yield declared(given, draft(bits=bits), given)


def declared_with_other_counts():
    """Bytes after the counted ones are left out."""
    short = changed(WHOLE, {19: 2})
    yield declared(short, whole(DATA[:2]), resized(short[:-1], 22))
    yield declared(changed(WHOLE, {19: 4}), TOO_MANY_BYTES)
    yield declared(changed(WHOLE, {18: 1}), TOO_MANY_BYTES)
    yield declared(changed(DRAFT, {17: 4}), TOO_MANY_BYTES)
    yield declared(resized(WHOLE, 22), TOO_MANY_BYTES)
    yield declared(resized(WHOLE[:-1], 23), END)
    yield declared(resized(WHOLE, 24), whole(), WHOLE)


def version_1_in_the_bytes_of_version_0():
    """It needs two bytes more."""
    yield declared(changed(box(b"vpcC", DRAFT[8:16], u16(0)), {8: 1}), END)


def fields_of_both_ranges():
    """VP Codec ISO Media File Format Binding, "VP Codec Configuration Box"."""
    # Has 5 in four bits, 6 in three bits, and the range in the last bit of the third byte.
    for video_full_range_flag, bits in [(1, 0x5D), (0, 0x5C)]:
        yield fields(
            full(b"vpcC", u8(3, 4, bits, 22, 23, 25), u16(0), version=1, flags=2), version=1, flags=2, profile=3,
            level=4, bitDepth=5, chromaSubsampling=6, videoFullRangeFlag=video_full_range_flag, colourPrimaries=22,
            colourPrimaries_name="EBU Tech. 3213-E", transferCharacteristics=23, matrixCoefficients=25,
        )


def fields_with_meanings():
    """VP Codec ISO Media File Format Binding, "VP Codec Configuration Box"."""
    names = ["4:2:0 vertical", "4:2:0 colocated", "4:2:2", "4:4:4"]
    for chroma_subsampling, name in enumerate(names):
        yield fields(
            full(b"vpcC", u8(2, 31, 0xA1 + 2 * chroma_subsampling, 9, 16, 10), u16(2), u8(0xAB, 0xCD), version=1),
            version=1, flags=0, profile=2, level=31, bitDepth=10, chromaSubsampling=chroma_subsampling,
            chromaSubsampling_name=name, videoFullRangeFlag=1, colourPrimaries=9, colourPrimaries_name="BT.2020",
            transferCharacteristics=16, transferCharacteristics_name="SMPTE ST 2084", matrixCoefficients=10,
            matrixCoefficients_name="BT.2020 constant luminance", codecInitializationData="abcd",
        )


def fields_of_version_0():
    """The drafts of the VP Codec ISO Media File Format Binding."""
    # Has the bits 1010 0101 and 0011 110 1.
    yield fields(
        full(b"vpcC", u8(1, 20, 0xA5, 0x3D), u16(1), u8(0xEE)), version=0, flags=0, profile=1, level=20, bitDepth=10,
        colorSpace=5, chromaSubsampling=3, chromaSubsampling_name="4:4:4", transferFunction=6, videoFullRangeFlag=1,
        codecInitializationData="ee",
    )
