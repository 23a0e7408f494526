"""`chnl`, the layout of the channels of a sound: a byte in version 0, two in version 1, and bytes up to its end. The
bytes of the fields count up from 0x81, after the version."""

from tests.rows.making import WRONG_VERSION, Box, box, changed, counting, declared, declared_as, fields, full, u8

CHNL = box(b"chnl", b"\0", counting(0x81, 0x8D))
LATER = changed(CHNL, {8: 1})
# The bits of 0x84 are 1000 and 0100.
STRUCTURE = {"stream_structure": 8, "format_ordering": 4, "base_channel_count": 0x85}


def chnl(version, **fields):
    return Box("chnl", version=version, flags=0x818283, **fields)


def each_version():
    yield from declared_as(CHNL, chnl(0, stream_structure=0x84, structure=None, layout=[*counting(0x85, 0x8D)]))
    yield from declared_as(LATER, chnl(1, stream_structure=None, structure=STRUCTURE, layout=[*counting(0x86, 0x8D)]))


def no_layout():
    yield from declared_as(box(b"chnl", CHNL[8:13]), chnl(0, stream_structure=0x84, structure=None, layout=[]))
    yield from declared_as(box(b"chnl", LATER[8:14]), chnl(1, stream_structure=None, structure=STRUCTURE, layout=[]))


def version_2():
    yield declared(changed(CHNL, {8: 2}), WRONG_VERSION)


def fields_of_channels():
    """ISO/IEC 14496-12, 12.2.4."""
    yield fields(
        full(b"chnl", u8(3), b"\x06\x01\x02", version=0, flags=0x01_0203),
        version=0, flags=66051, stream_structure=3, stream_structure_name="channels and objects", data_bytes="060102",
    )
    # Writes the bits 0010 0011 before the count.
    yield fields(
        full(b"chnl", b"\x23", u8(4), version=1, flags=0x01_0203),
        version=1, flags=66051, stream_structure=2, stream_structure_name="objects", format_ordering=3,
        baseChannelCount=4,
    )
