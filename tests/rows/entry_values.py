"""Sample entries and their configurations that rows expect, whole. The bytes of some of them were worked out from the
layout table."""

from tests.rows.making import Box, box, full, u8, u16, u24, u32
from tests.rows.values import full_box


def set_bytes(content):
    return u16(len(content)) + content


def avcc_bytes(head, sequence, picture):
    """Returns an `avcC` with `head`, its first five bytes, and the sets `sequence` and `picture`."""
    sequence_sets = [u8(0xE0 + len(sequence)), *map(set_bytes, sequence)]
    return box(b"avcC", head, *sequence_sets, u8(len(picture)), *map(set_bytes, picture))


def avcc(version, profile, compatibility, level, length_size_minus_one, sequence, picture):
    return Box(
        "avcC", configuration_version=version, avc_profile_indication=profile, profile_compatibility=compatibility,
        avc_level_indication=level, length_size_minus_one=length_size_minus_one,
        sequence_parameter_sets=[{"bytes": list(it)} for it in sequence],
        picture_parameter_sets=[{"bytes": list(it)} for it in picture],
    )


def visual_bytes(code, index, width, height, horizontal, vertical, frame_count, depth, child):
    sizes = u16(width, height) + u32(horizontal, vertical, 0)
    return box(code, bytes(6), u16(index), bytes(16), sizes, u16(frame_count), bytes(32), u16(depth, 0xFFFF), child)


def visual(code, index, width, height, horizontal, vertical, frame_count, depth, **child):
    return Box(
        code, data_reference_index=index, width=width, height=height, horizresolution=horizontal,
        vertresolution=vertical, frame_count=frame_count, depth=depth, **child,
    )


# Boxes whose fields are all unlike.
SEQUENCE_SETS, PICTURE_SETS = [b"\x67\x91", b"\x68", b"\x69\x92\xa3"], [b"\x12", b"", b"\x34\x56"]
AVCC = avcc_bytes(u8(0x81, 0x42, 0xC3, 0x25, 0xFE), SEQUENCE_SETS, PICTURE_SETS)
AVCC_VALUE = avcc(0x81, 0x42, 0xC3, 0x25, 2, SEQUENCE_SETS, PICTURE_SETS)

AVC1_FIELDS = (0x8102, 0xF003, 0x9104, 0xA1B2C3D4, 0xB5A60718, 0xC205, 0xD306)
AVC1 = visual_bytes(b"avc1", *AVC1_FIELDS, AVCC)
AVC1_VALUE = visual("avc1", *AVC1_FIELDS, avcc=AVCC_VALUE)

# The entry and the sets of the Rust crate's test: 320 by 240 pixels.
SEQUENCE, PICTURE = bytes.fromhex("6764000dacd94141fa1000000300100000030320f1429960"), bytes.fromhex("68ebe3cb22c0")
TEST_VIDEO = (1, 320, 240, 72 << 16, 72 << 16, 1, 24)
AVC1_OF_TEST = visual_bytes(b"avc1", *TEST_VIDEO, avcc_bytes(u8(1, 0x64, 0, 0x0D, 0xFF), [SEQUENCE], [PICTURE]))
AVC1_OF_TEST_VALUE = visual("avc1", *TEST_VIDEO, avcc=avcc(1, 0x64, 0, 0x0D, 3, [SEQUENCE], [PICTURE]))

HVCC = box(b"hvcC", u8(0x8A))
HVCC_VALUE = Box("hvcC", configuration_version=0x8A)

HEV1_FIELDS = (0x8203, 0xE104, 0x9205, 0xA2B3C4D5, 0xB6A70819, 0xC306, 0xD407)
HEV1 = visual_bytes(b"hev1", *HEV1_FIELDS, HVCC)
HEV1_VALUE = visual("hev1", *HEV1_FIELDS, hvcc=HVCC_VALUE)

# The third byte has the bits 1010, 011 and 1.
VPCC = full(b"vpcC", u8(0xA5, 0xB6, 0xA7, 0xC8, 0xD9, 0xEA), u16(0xFB0C), version=0x81, flags=0x920304)
VPCC_VALUE = full_box(
    "vpcC", 0x81, 0x920304, profile=0xA5, level=0xB6, bit_depth=10, chroma_subsampling=3, video_full_range_flag=True,
    color_primaries=0xC8, transfer_characteristics=0xD9, matrix_coefficients=0xEA,
    codec_initialization_data_size=0xFB0C,
)

VP09 = box(
    b"vp09", u8(0x8B), u24(0x9C0D0E), u16(0xAD1F, 0xBE2A), bytes(range(0x11, 0x21)),
    u16(0xC301, 0xD402, 0xE503, 0xF604, 0x8705, 0x9806), bytes(range(0x21, 0x25)), u16(0xA907),
    bytes(range(0x31, 0x51)), u16(0xBA08, 0xCB09), VPCC,
)
VP09_VALUE = full_box(
    "vp09", 0x8B, 0x9C0D0E, start_code=0xAD1F, data_reference_index=0xBE2A, reserved0=list(range(0x11, 0x21)),
    width=0xC301, height=0xD402, horizresolution=[0xE503, 0xF604], vertresolution=[0x8705, 0x9806],
    reserved1=list(range(0x21, 0x25)), frame_count=0xA907, compressorname=list(range(0x31, 0x51)), depth=0xBA08,
    end_code=0xCB09, vpcc=VPCC_VALUE,
)

TX3G = box(
    b"tx3g", bytes(6), u16(0x8D01), u32(0x9E0213F4), u8(0x9C, 0xC8), u8(0xA1, 0xB2, 0xD3, 0xE4),
    u16(0x8AD0, 0x0102, 0xFFFE, 0x0304), bytes(range(0x51, 0x5D)),
)
TX3G_VALUE = Box(
    "tx3g", data_reference_index=0x8D01, display_flags=0x9E0213F4, horizontal_justification=-100,
    vertical_justification=-56, bg_color_rgba={"red": 0xA1, "green": 0xB2, "blue": 0xD3, "alpha": 0xE4},
    box_record=[-30000, 258, -2, 772], style_record=list(range(0x51, 0x5D)),
)


def specific(profile=0, freq_index=0, sample_rate=None, chan_conf=0):
    """Returns an audio configuration, by default the default one."""
    return {"profile": profile, "freq_index": freq_index, "sample_rate": sample_rate, "chan_conf": chan_conf}


def config(object_type=0, stream_type=0, up_stream=0, buffer_size=0, max_bitrate=0, avg_bitrate=0, dec_specific=None):
    """Returns a decoder configuration, by default the default one."""
    return {
        "object_type_indication": object_type, "stream_type": stream_type, "up_stream": up_stream,
        "buffer_size_db": buffer_size, "max_bitrate": max_bitrate, "avg_bitrate": avg_bitrate,
        "dec_specific": specific() if dec_specific is None else dec_specific,
    }


def esds(es_id, dec_config=None, version=0, flags=0):
    descriptor = {"es_id": es_id, "dec_config": config() if dec_config is None else dec_config, "sl_config": {}}
    return full_box("esds", version, flags, es_desc=descriptor)


def esds_bytes(*descriptors, size=None):
    return full(b"esds", *descriptors, size=size)


def esds_of(es_id, bitrate, dec_specific):
    """Returns the descriptors of a stream with the bit rate `bitrate` and the audio configuration `dec_specific`."""
    return esds(es_id, config(0x40, 5, 0, 0, bitrate, bitrate, dec_specific))


def esds_bytes_of(es_id, bitrate, content):
    """Returns the bytes of these descriptors, with the bytes `content` as the audio configuration."""
    n = len(content)
    stream = u8(3, 23 + n) + u16(es_id) + u8(0)
    decoder = u8(4, 15 + n, 0x40, 0x15) + u24(0) + u32(bitrate, bitrate)
    return esds_bytes(stream, decoder, u8(5, n), content, u8(6, 0, 0))


def mp4a_bytes(index, channels, sample_size, rate, child=b"", size=None):
    fields = u16(index) + bytes(8) + u16(channels, sample_size) + bytes(4) + u32(rate)
    return box(b"mp4a", bytes(6), fields, child, size=size)


def mp4a(index, channels, sample_size, rate, child=None):
    fields = {"channelcount": channels, "samplesize": sample_size, "samplerate": rate}
    return Box("mp4a", data_reference_index=index, esds=child, **fields)


# Boxes whose fields are all unlike. A sampling rate is written out.
ESDS = full(
    b"esds", u8(3, 29), u16(0xB516), u8(0), u8(4, 21, 0xC7, 0xB7), u24(0xD819EA), u32(0xFB0C2D8E, 0x9F10A1B2),
    u8(5, 6), b"\xfe\xbf\x86\x48\x6b\x60", u8(6, 0, 0), version=0x81, flags=0x9203A4,
)
ESDS_CONFIG = config(0xC7, 45, 2, 0xD819EA, 0xFB0C2D8E, 0x9F10A1B2, specific(85, 15, 0xC32435, 11))
ESDS_VALUE = esds(0xB516, ESDS_CONFIG, version=0x81, flags=0x9203A4)
MP4A_FIELDS = (0x8102, 0x9304, 0xA506, 0xB71829CA)
MP4A = mp4a_bytes(*MP4A_FIELDS, ESDS)
MP4A_VALUE = mp4a(*MP4A_FIELDS, ESDS_VALUE)

# The entry of the Rust crate's test: two channels of 16 bits, at 48000 hertz.
TEST_FIELDS = (1, 2, 16, 48000 << 16)
MP4A_OF_TEST = mp4a_bytes(*TEST_FIELDS, esds_bytes_of(2, 67695, b"\x11\x88"))
MP4A_OF_TEST_VALUE = mp4a(*TEST_FIELDS, esds_of(2, 67695, specific(2, 3, None, 1)))
MP4A_WITHOUT_ESDS = mp4a_bytes(*TEST_FIELDS)
MP4A_WITHOUT_ESDS_VALUE = mp4a(*TEST_FIELDS)


def stsd(version=0, flags=0, **entry):
    """Returns a sample description with `entry`, or without an entry."""
    none = dict.fromkeys(["avc1", "hev1", "vp09", "mp4a", "tx3g"])
    return full_box("stsd", version, flags, **{**none, **entry})


def stsd_bytes(child, size=None, count=1):
    return full(b"stsd", u32(count), child, size=size)

# Audio configurations of each form: profile, index of the frequency, sampling rate, channels, and the bytes.
AUDIO_CONFIGURATIONS = [
    (2, 3, None, 2, b"\x11\x90"),
    (30, 14, None, 15, b"\xf7\x78"),
    (34, 0, None, 2, b"\xf8\x40\x40"),
    (95, 0, None, 15, b"\xff\xe1\xe0"),
    (2, 15, 50000, 2, b"\x17\x80\x61\xa8\x10"),
    (2, 15, 16777215, 1, b"\x17\xff\xff\xff\x88"),
    (42, 15, 50000, 6, b"\xf9\x5e\x01\x86\xa0\xc0"),
]
