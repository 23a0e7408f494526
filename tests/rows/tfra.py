"""`tfra`, the places from where a track can be played: the lengths of numbers, a count, and bytes. The bytes of the
fields count up from 0x81, after the version. The bits of the lengths are 10001000 10001001 10001010 10 00 10 11."""

from tests.rows.making import (
    WRONG_VERSION, Box, box, changed, counting, declared, declared_as, fields, full, u8, u16, u24, u32, u64,
)

FRONT = counting(0x81, 0x8F)
SHORT = box(b"tfra", b"\0", FRONT, counting(0x90, 0x9C))
LENGTHS = {
    "reserved": 0x222262A, "length_size_of_traf_num": 0, "length_size_of_trun_num": 2, "length_size_of_sample_num": 3,
}


def tfra(version, entries):
    fields = {"flags": 0x818283, "track_id": 0x84858687, "lengths": LENGTHS, "number_of_entry": 0x8C8D8E8F}
    return Box("tfra", version=version, **fields, entries=entries)


def each_version():
    for version in (0, 1):
        buffer = changed(SHORT, {8: version})
        yield from declared_as(buffer, tfra(version, list(counting(0x90, 0x9C))))
        yield from declared_as(box(b"tfra", bytes([version]), FRONT), tfra(version, []))


def another_version():
    yield declared(changed(SHORT, {8: 2}), WRONG_VERSION)


def fields_of_entries():
    """ISO/IEC 14496-12, 8.8.10."""
    # Has 26 reserved bits before the lengths, which are 01 00 10 for numbers of 2, 1 and 3 bytes.
    front = u32(32, 33 << 6 | 0b010010, 2)
    numbers = u16(258) + u8(4) + u24(65541), u16(515) + u8(7) + u24(131078)
    shown = {
        "flags": 31, "track_ID": 32, "reserved": 33, "length_size_of_traf_num": 1, "length_size_of_trun_num": 0,
        "length_size_of_sample_num": 2, "number_of_entry": 2,
    }
    short = u32(9000, 800) + numbers[0], u32(18000, 1600) + numbers[1]
    yield fields(full(b"tfra", front, *short, flags=31), version=0, **shown, entries=[
        {"time": 9000, "moof_offset": 800, "traf_number": 258, "trun_number": 4, "sample_number": 65541},
        {"time": 18000, "moof_offset": 1600, "traf_number": 515, "trun_number": 7, "sample_number": 131078},
    ])
    long = u64(0x200000000, 0x400000001) + numbers[0], u64(0x200000003, 0x400000005) + numbers[1]
    yield fields(full(b"tfra", front, *long, b"\x99", version=1, flags=31), version=1, **shown, entries=[
        {
            "time": 8589934592, "moof_offset": 17179869185, "traf_number": 258, "trun_number": 4,
            "sample_number": 65541,
        },
        {
            "time": 8589934595, "moof_offset": 17179869189, "traf_number": 515, "trun_number": 7,
            "sample_number": 131078,
        },
    ], data_bytes="99")
    yield fields(full(b"tfra", front, short[0], flags=31), version=0, **shown,
                 data_bytes="0000232800000320010204010005")
