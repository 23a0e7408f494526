"""`imir`, the mirroring of an image, a box without version: seven reserved bits, and one for the axis. The bits of 0x83
are 1000001 1."""

from tests.rows.making import Box, box, declared_as, fields


def reserved_bits_and_an_axis():
    yield from declared_as(box(b"imir", b"\x83"), Box("imir", mirror={"reserved": 0x41, "axis": True}))
    yield from declared_as(box(b"imir", b"\x82"), Box("imir", mirror={"reserved": 0x41, "axis": False}))


def fields_of_an_axis():
    """ISO/IEC 23008-12, 6.5.12."""
    # Writes the bits 0000110 1.
    yield fields(box(b"imir", b"\x0d"), reserved=6, axis=1)
