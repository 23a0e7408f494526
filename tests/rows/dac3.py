"""`dac3`, how to decode AC-3 sound. The bits are 10 01001 011 101 1 10110 10101."""

from tests.rows.making import Box, box, declared_as, fields

DAC3 = box(b"dac3", b"\x92\xee\xd5")
CONFIG = {"fscod": 2, "bsid": 9, "bsmod": 3, "acmod": 5, "lfeon": True, "bit_rate_code": 0x16, "reserved": 0x15}


def three_bytes_of_bits():
    yield from declared_as(DAC3, Box("dac3", config=CONFIG))


def fields_of_bits():
    """ETSI TS 102 366, F.4: the reserved bits are shown unless they are 0."""
    # Writes the bits 01 01000 010 111 1 01110, and five reserved ones, 00000 and then 01001.
    shown = {"fscod": 1, "bsid": 8, "bsmod": 2, "acmod": 7, "lfeon": 1, "bit_rate_code": 14}
    yield fields(box(b"dac3", b"\x50\xbd\xc0"), **shown)
    yield fields(box(b"dac3", b"\x50\xbd\xc9"), **shown, reserved=9)
