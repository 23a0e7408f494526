"""`gmin`, the information of media that are neither video nor sound: numbers, of which the balance is signed, and two
reserved bytes. The bytes of the fields count up from 0x81, after the version. 2^16 - 0x7373 is
0x8c8d."""

from tests.rows.making import NO_VERSION_1, Box, box, changed, counting, declared, declared_as, fields, full, u16

GMIN = box(b"gmin", b"\0", counting(0x81, 0x8D), b"\0\0")


def gmin():
    graphics = {"graphics_mode": 0x8485, "opcolor_red": 0x8687, "opcolor_green": 0x8889, "opcolor_blue": 0x8A8B}
    return Box("gmin", version=0, flags=0x818283, graphics=graphics, balance=-0x7373)


def five_numbers():
    yield from declared_as(GMIN, gmin())


def reserved_bytes_are_left_out():
    yield declared(changed(GMIN, {22: 0xF1, 23: 0xF2}), gmin(), GMIN)


def version_1():
    yield declared(changed(GMIN, {8: 1}), NO_VERSION_1)


def fields_of_graphics_and_balance():
    """QuickTime File Format, "Base media info atom". The balance is -384 / 256, and 2^16 - 384 is 0xfe80."""
    yield fields(
        full(b"gmin", u16(64, 5, 6, 0x8000, 0xFE80, 0), flags=0x01_0203),
        version=0, flags=66051, graphicsmode=64, opcolor_red=5, opcolor_green=6, opcolor_blue=32768, balance=-1.5,
    )
