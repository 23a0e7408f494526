"""`vp09`, the sample entry of VP9 video. The bytes of the fields count up from 0x81."""

from tests.rows.entry_sizes import sizes_of_child, value_from
from tests.rows.entry_values import VP09, VP09_VALUE
from tests.rows.making import box, changed, counting, cuts, fields, full, one, round_trip, u8, u16
from tests.rows.values import full_box

COUNTED = box(b"vp09", counting(0x81, 0xCE), box(b"vpcC", counting(0xCF, 0xDA)))
# The third byte of the child's fields is 0xD5: the bits 1101, 010 and 1.
COUNTED_VALUE = full_box(
    "vp09", 0x81, 0x828384, start_code=0x8586, data_reference_index=0x8788, reserved0=list(range(0x89, 0x99)),
    width=0x999A, height=0x9B9C, horizresolution=[0x9D9E, 0x9FA0], vertresolution=[0xA1A2, 0xA3A4],
    reserved1=list(range(0xA5, 0xA9)), frame_count=0xA9AA, compressorname=list(range(0xAB, 0xCB)), depth=0xCBCC,
    end_code=0xCDCE,
    vpcc=full_box(
        "vpcC", 0xCF, 0xD0D1D2, profile=0xD3, level=0xD4, bit_depth=13, chroma_subsampling=2,
        video_full_range_flag=True, color_primaries=0xD6, transfer_characteristics=0xD7, matrix_coefficients=0xD8,
        codec_initialization_data_size=0xD9DA,
    ),
)


def every_field():
    yield round_trip(COUNTED, COUNTED_VALUE)


def child_of_another_name_is_read():
    yield one(changed(VP09, dict(enumerate(b"free", 90))), VP09_VALUE)


def cut_anywhere():
    yield from cuts(VP09)


def child_larger_than_its_entry():
    yield from value_from(VP09_VALUE, VP09, 20)


def child_by_its_size():
    yield from sizes_of_child(VP09_VALUE, VP09)


def fields_of_entry_and_configuration():
    """VP Codec ISO Media File Format Binding, "VP9 Sample Entry"."""
    configuration = full(b"vpcC", u8(3, 4, 0x5D, 7, 8, 9), u16(10), version=1, flags=2)
    sizes = u16(5, 6, 72, 0x8000, 73, 0x4000) + 4 * b"\x20" + u16(7)
    front = u16(3, 4) + 16 * b"\x10" + sizes + 32 * b"\x30" + u16(8, 9)
    yield fields(
        full(b"vp09", front, configuration, version=1, flags=2), version=1, flags=2, start_code=3,
        data_reference_index=4, reserved0=16 * "10", width=5, height=6, horizresolution=72.5, vertresolution=73.25,
        reserved1=4 * "20", frame_count=7, compressorname=32 * "30", depth=8, end_code=9,
        vpcC={
            "version": 1, "flags": 2, "profile": 3, "level": 4, "bitDepth": 5, "chromaSubsampling": 6,
            "videoFullRangeFlag": 1, "colourPrimaries": 7, "transferCharacteristics": 8, "matrixCoefficients": 9,
            "codecInitializationDataSize": 10,
        },
    )
