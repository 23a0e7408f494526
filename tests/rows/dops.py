"""`dOps`, how to decode Opus sound. The bytes of the fields count up from 0x81, so that the gain is negative:
2^16 - 0x7676 is 0x898a."""

from tests.rows.making import Box, box, counting, declared_as, fields, u8, u16, u32

DOPS = box(b"dOps", counting(0x81, 0x8F))


def six_numbers_and_a_mapping():
    value = Box(
        "dops", version=0x81, output_channel_count=0x82, pre_skip=0x8384, input_sample_rate=0x85868788,
        output_gain=-0x7676, channel_mapping_family=0x8B, channel_mapping=[0x8C, 0x8D, 0x8E, 0x8F],
    )
    yield from declared_as(DOPS, value)


def fields_of_numbers_and_a_mapping():
    """Encapsulation of Opus in ISO Base Media File Format, 4.3.2."""
    # Gives the gain as -3.5 * 256, in two's complement.
    front = u8(1, 6) + u16(312) + u32(44100) + u16(2**16 - 896) + u8(5)
    shown = {
        "Version": 1, "OutputChannelCount": 6, "PreSkip": 312, "InputSampleRate": 44100, "OutputGain": -3.5,
        "ChannelMappingFamily": 5,
    }
    yield fields(box(b"dOps", front, u8(4, 2), u8(0, 4, 1, 2, 3, 5)), **shown, StreamCount=4, CoupledCount=2,
                 ChannelMapping="000401020305")
    yield fields(box(b"dOps", front), **shown)
    yield fields(box(b"dOps", front, u8(7)), **shown, data_bytes="07")
