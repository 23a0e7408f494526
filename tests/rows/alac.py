"""`alac`, how to decode Apple Lossless sound: 24 bytes of numbers, and a layout of channels that may be absent. The
bytes of the fields count up from 0x81, after the version."""

from tests.rows.making import (
    NO_VERSION_1, Box, box, changed, counting, declared, declared_as, fields, full, u8, u16, u32,
)

ALAC = box(b"alac", b"\0", counting(0x81, 0x9E))
CONFIG = {
    "frame_length": 0x84858687, "compatible_version": 0x88, "bit_depth": 0x89, "pb": 0x8A, "mb": 0x8B, "kb": 0x8C,
    "num_channels": 0x8D, "max_run": 0x8E8F, "max_frame_bytes": 0x90919293, "avg_bit_rate": 0x94959697,
    "sample_rate": 0x98999A9B,
}


def alac(info):
    return Box("alac", version=0, flags=0x818283, config=CONFIG, channel_layout_info=list(info))


def numbers_and_a_layout():
    yield from declared_as(ALAC, alac(counting(0x9C, 0x9E)))


def numbers_without_a_layout():
    yield from declared_as(box(b"alac", ALAC[8:36]), alac(b""))


def version_1():
    yield declared(changed(ALAC, {8: 1}), NO_VERSION_1)


def fields_of_numbers_and_a_layout():
    """ALAC, "Magic cookie description"."""
    numbers = u32(4096) + u8(2, 24, 40, 10, 14, 6) + u16(255) + u32(7, 8, 44100)
    shown = {
        "version": 0, "flags": 66051, "frameLength": 4096, "compatibleVersion": 2, "bitDepth": 24, "pb": 40, "mb": 10,
        "kb": 14, "numChannels": 6, "maxRun": 255, "maxFrameBytes": 7, "avgBitRate": 8, "sampleRate": 44100,
    }
    yield fields(full(b"alac", numbers, flags=0x01_0203), **shown)
    yield fields(
        full(b"alac", numbers, b"\x00\x18chan", flags=0x01_0203), **shown, ALACChannelLayoutInfo="00186368616e",
    )
