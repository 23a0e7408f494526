"""`av1C`, how to decode AV1 video. The bits are 1 1000001 101 10011 1 0 1 0 1 0 10 101 1 1001."""

from tests.rows.making import Box, box, declared_as, fields

AV1C = box(b"av1C", b"\xc1\xb3\xaa\xb9\x81\x82\x83")
CONFIG = {
    "marker": True, "version": 0x41, "seq_profile": 5, "seq_level_idx_0": 0x13, "seq_tier_0": True,
    "high_bitdepth": False, "twelve_bit": True, "monochrome": False, "chroma_subsampling_x": True,
    "chroma_subsampling_y": False, "chroma_sample_position": 2, "reserved": 5,
    "initial_presentation_delay_present": True, "initial_presentation_delay_minus_one": 9,
}


def four_bytes_of_bits_and_units():
    yield from declared_as(AV1C, Box("av1c", config=CONFIG, config_obus=[0x81, 0x82, 0x83]))


def fields_of_bits_and_units():
    """AV1 Codec ISO Media File Format Binding, 2.3.3."""
    # Begins with the bits 1 0000101 010 01101 0 1 0 1 0 1 11.
    front = {
        "marker": 1, "version": 5, "seq_profile": 2, "seq_level_idx_0": 13, "seq_tier_0": 0, "high_bitdepth": 1,
        "twelve_bit": 0, "monochrome": 1, "chroma_subsampling_x": 0, "chroma_subsampling_y": 1,
        "chroma_sample_position": 3,
    }
    # Goes on with 110 1 1001, then 000 0 0000, then 000 0 1010.
    yield fields(box(b"av1C", b"\x85\x4d\x57\xd9\x0a\x0b"), **front, reserved=6, initial_presentation_delay_present=1,
                 initial_presentation_delay_minus_one=9, configOBUs="0a0b")
    yield fields(box(b"av1C", b"\x85\x4d\x57\x00\x0a\x0b"), **front, initial_presentation_delay_present=0,
                 configOBUs="0a0b")
    yield fields(box(b"av1C", b"\x85\x4d\x57\x0a\x0a\x0b"), **front, initial_presentation_delay_present=0,
                 reserved_without_delay=10, configOBUs="0a0b")
