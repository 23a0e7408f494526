"""`hmhd`, the header of hints: four numbers, and four reserved bytes. The bytes of the fields count up from 0x81, after
the version."""

from tests.rows.making import NO_VERSION_1, Box, box, changed, counting, declared, declared_as, fields, full, u16, u32

HMHD = box(b"hmhd", b"\0", counting(0x81, 0x8F), bytes(4))


def hmhd():
    sizes = {"max_pdu_size": 0x8485, "avg_pdu_size": 0x8687}
    return Box("hmhd", version=0, flags=0x818283, **sizes, max_bitrate=0x88898A8B, avg_bitrate=0x8C8D8E8F)


def four_numbers():
    yield from declared_as(HMHD, hmhd())


def reserved_bytes_are_left_out():
    yield declared(changed(HMHD, {24: 0xF1, 25: 0xF2, 26: 0xF3, 27: 0xF4}), hmhd(), HMHD)


def version_1():
    yield declared(changed(HMHD, {8: 1}), NO_VERSION_1)


def fields_of_sizes_and_rates():
    """ISO/IEC 14496-12, 12.4.2."""
    yield fields(
        full(b"hmhd", u16(4, 5), u32(6, 7, 0), flags=3),
        version=0, flags=3, maxPDUsize=4, avgPDUsize=5, maxbitrate=6, avgbitrate=7,
    )
