"""`enda`, the order of the bytes of a sample, a box without version: a number."""

from tests.rows.making import Box, box, declared_as, fields, u16


def a_number():
    yield from declared_as(box(b"enda", b"\x81\x82"), Box("enda", little_endian=0x8182))


def fields_of_orders():
    """QuickTime File Format, "Endian atom"."""
    yield fields(box(b"enda", u16(1)), littleEndian=1, littleEndian_name="little-endian")
    yield fields(box(b"enda", u16(0)), littleEndian=0, littleEndian_name="big-endian")
    yield fields(box(b"enda", u16(256)), littleEndian=256)
