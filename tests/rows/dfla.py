"""`dfLa`, how to decode FLAC sound: blocks of metadata. The bytes of the fields count up from 0x81, except the
version, lengths, and the front bytes of the blocks, which are 0 1000100, 0 0101011 and 1 0110100."""

from tests.rows.making import (
    END, NO_VERSION_1, NOT_FILLED, TOO_MANY_BYTES, Box, box, changed, counting, declared, declared_as, fields, full,
    resized, u8, u16, u24,
)

FRONT = b"\0\x81\x82\x83"
# Blocks of three bytes, of none and of five.
DFLA = box(
    b"dfLa", FRONT, b"\x44", u24(3), counting(0x84, 0x86), b"\x2b", u24(0), b"\xb4", u24(5), counting(0x87, 0x8B),
)


def block(is_last, block_type, data):
    kind = {"last_metadata_block_flag": is_last, "block_type": block_type}
    return {"kind": kind, "block_data": list(data)}


BLOCKS = [
    block(False, 0x44, b"\x84\x85\x86"), block(False, 0x2B, b""), block(True, 0x34, b"\x87\x88\x89\x8a\x8b"),
]


def dfla(blocks):
    return Box("dfla", version=0, flags=0x818283, metadata_blocks=blocks)


def version_flags_and_blocks():
    yield from declared_as(DFLA, dfla(BLOCKS))
    yield from declared_as(box(b"dfLa", FRONT), dfla([]))


def another_version():
    yield declared(changed(DFLA, {8: 1}), NO_VERSION_1)


def sizes_that_end_after_a_block():
    """The rest is not part of the box. A box that ends before its blocks has none."""
    for size, count, written in [(8, 0, 12), (11, 0, 12), (12, 0, 12), (19, 1, 19), (23, 2, 23), (32, 3, 32)]:
        yield declared(resized(DFLA, size), dfla(BLOCKS[:count]), box(b"dfLa", DFLA[8:written]))


def sizes_that_end_inside_a_block():
    for size in range(13, 33):
        if size not in (19, 23, 32):
            yield declared(resized(DFLA, size), NOT_FILLED if 19 < size < 23 else TOO_MANY_BYTES)
    yield declared(resized(DFLA, 33), END)
    # If bytes before a block's data are missing too, that is the fault.
    yield declared(resized(DFLA[:15], 15), END)


def bytes_after_the_blocks():
    """The bytes after the blocks are read as a block."""
    yield declared(box(b"dfLa", DFLA[8:], b"\x0c"), END)
    yield declared(box(b"dfLa", DFLA[8:], b"\x0c", u24(1)), TOO_MANY_BYTES)
    yield declared(resized(DFLA + b"\x0c" + u24(0), 35), NOT_FILLED)
    four = box(b"dfLa", DFLA[8:], b"\x0c", u24(0))
    yield declared(four, dfla([*BLOCKS, block(False, 12, b"")]), four)


def lengths():
    """The lengths are one more or one fewer than the number of bytes, and one in each byte of a length."""
    for places, expected in [
        ({15: 2}, TOO_MANY_BYTES),  # The next block has 0x2b0000 bytes.
        ({15: 4}, TOO_MANY_BYTES),  # The next block has 0xb4 bytes.
        ({26: 4}, END),
        ({26: 6}, TOO_MANY_BYTES),
        ({24: 1}, TOO_MANY_BYTES),
        ({25: 1}, TOO_MANY_BYTES),
    ]:
        yield declared(changed(DFLA, places), expected)
    long = bytes(number % 251 for number in range(0x010203))
    whole = box(b"dfLa", FRONT, b"\x84", u24(0x010203), long)
    yield declared(whole, dfla([block(True, 4, long)]), whole)
    yield declared(whole[:-1], END)
    yield declared(resized(whole, len(whole) - 1), TOO_MANY_BYTES)


def many_blocks():
    blocks = [(number % 128, u24(number)) for number in range(1000)]
    whole = box(b"dfLa", FRONT, b"".join(bytes([kind]) + u24(3) + data for kind, data in blocks))
    yield declared(whole, dfla([block(False, kind, data) for kind, data in blocks]), whole)


def fields_of_blocks():
    """Encapsulation of FLAC in ISO Base Media File Format, 3.3.2, and RFC 9639, 8.2."""
    # Has, after the sizes, 20 bits of the rate, 010 10111 for 3 channels of 24 bits, and 36 bits of the samples.
    stream_info = u16(4096, 4608) + u24(14) + u24(9029) + b"\x0a\xc4\x45\x78\x12\x34\x56\x78" + counting(0x81, 0x90)
    blocks = u8(0) + u24(34) + stream_info, u8(0) + u24(2) + b"\x0c\x0d", u8(0x89) + u24(1) + b"\x0e"
    yield fields(full(b"dfLa", *blocks, flags=11), version=0, flags=11, metadata_blocks=[
        {
            "LastMetadataBlockFlag": 0, "BlockType": 0, "BlockType_name": "STREAMINFO", "Length": 34,
            "minimum_block_size": 4096, "maximum_block_size": 4608, "minimum_frame_size": 14,
            "maximum_frame_size": 9029, "sample_rate": 44100, "channels": 3, "bits_per_sample": 24,
            "total_samples": 34665158264, "MD5": "8182838485868788898a8b8c8d8e8f90",
        },
        {
            "LastMetadataBlockFlag": 0, "BlockType": 0, "BlockType_name": "STREAMINFO", "Length": 2,
            "BlockData": "0c0d",
        },
        {"LastMetadataBlockFlag": 1, "BlockType": 9, "Length": 1, "BlockData": "0e"},
    ])
