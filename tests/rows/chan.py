"""`chan`, the channels of a sound: a layout, and a description of 20 bytes for each channel. The bytes of the fields
count up from 0x81, after the version and around the count."""

from tests.rows.making import (
    NO_VERSION_1, TOO_MANY_ENTRIES, Box, box, changed, counting, declared, declared_as, fields, full, one_row_short,
    u32,
)

TWO = box(b"chan", b"\0", counting(0x81, 0x8B), u32(2), counting(0x8C, 0xB3))
NONE = box(b"chan", b"\0", counting(0x81, 0x8B), u32(0))


def channel(*numbers):
    names = ["channel_label", "channel_flags", "coordinates_0", "coordinates_1", "coordinates_2"]
    return dict(zip(names, numbers))


def chan(*channels):
    fields = {"channel_layout_tag": 0x84858687, "channel_bitmap": 0x88898A8B}
    return Box("chan", version=0, flags=0x818283, **fields, channel_descriptions=list(channels))


VALUE = chan(
    channel(0x8C8D8E8F, 0x90919293, 0x94959697, 0x98999A9B, 0x9C9D9E9F),
    channel(0xA0A1A2A3, 0xA4A5A6A7, 0xA8A9AAAB, 0xACADAEAF, 0xB0B1B2B3),
)


def two_channels_and_none():
    yield from declared_as(TWO, VALUE)
    yield from declared_as(NONE, chan())


def one_channel_short():
    yield from one_row_short(TWO, VALUE, 20, TOO_MANY_ENTRIES, declared)


def version_1():
    yield declared(changed(TWO, {8: 1}), NO_VERSION_1)


def fields_of_layouts():
    """QuickTime File Format, "Audio channel layout atom"."""
    yield fields(
        full(b"chan", u32(0x65_0002, 0, 0), flags=0x01_0203),
        version=0, flags=66051, mChannelLayoutTag=6619138, mChannelLayoutTag_name="stereo", mChannelBitmap=0,
        mNumberChannelDescriptions=0, mChannelDescriptions=[],
    )
    yield fields(
        full(b"chan", u32(0x1_0000, 0x2_0009, 0), flags=0x01_0203),
        version=0, flags=66051, mChannelLayoutTag=65536, mChannelLayoutTag_name="channel bitmap",
        mChannelBitmap=131081, mNumberChannelDescriptions=0, mChannelDescriptions=[],
    )
    # Gives the coordinates of the first channel as floats of 4 bytes: 1, -2 and 0.5.
    first = u32(2, 5, 0x3F800000, 0xC0000000, 0x3F000000)
    second = u32(61, 8, 0, 1, 2)
    yield fields(
        full(b"chan", u32(0xFFFF0003, 7, 2), first, second, flags=0x01_0203),
        version=0, flags=66051, mChannelLayoutTag=4294901763, mChannelBitmap=7, mNumberChannelDescriptions=2,
        mChannelDescriptions=[
            {
                "mChannelLabel": 2, "mChannelLabel_name": "right", "mChannelFlags": 5, "mCoordinates_0": "3f800000",
                "mCoordinates_1": "c0000000", "mCoordinates_2": "3f000000",
            },
            {
                "mChannelLabel": 61, "mChannelFlags": 8, "mCoordinates_0": "00000000", "mCoordinates_1": "00000001",
                "mCoordinates_2": "00000002",
            },
        ],
    )
