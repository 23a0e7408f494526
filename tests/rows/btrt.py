"""`btrt`, the bit rates of media. The bytes of the fields count up from 0x81."""

from tests.rows.making import Box, box, counting, declared_as, fields, u32

BTRT = box(b"btrt", counting(0x81, 0x8C))


def three_numbers():
    value = Box("btrt", buffer_size_db=0x81828384, max_bitrate=0x85868788, avg_bitrate=0x898A8B8C)
    yield from declared_as(BTRT, value)


def fields_of_bit_rates():
    """ISO/IEC 14496-12, 8.5.2.2."""
    yield fields(box(b"btrt", u32(1, 2, 3)), bufferSizeDB=1, maxBitrate=2, avgBitrate=3)
