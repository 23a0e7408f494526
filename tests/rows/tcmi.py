"""`tcmi`, the look of a time code: three numbers, and bytes up to its end. The bytes of the fields count up from 0x81,
after the version."""

from tests.rows.making import NO_VERSION_1, Box, box, changed, counting, declared, declared_as, fields, full, u16

TCMI = box(b"tcmi", b"\0", counting(0x81, 0x8C))


def tcmi(rest):
    fields = {"text_font": 0x8485, "text_face": 0x8687, "text_size": 0x8889}
    return Box("tcmi", version=0, flags=0x818283, **fields, rest=list(rest))


def numbers_and_bytes():
    yield from declared_as(TCMI, tcmi(b"\x8a\x8b\x8c"))
    yield from declared_as(box(b"tcmi", TCMI[8:18]), tcmi(b""))


def version_1():
    yield declared(changed(TCMI, {8: 1}), NO_VERSION_1)


def fields_of_looks():
    """QuickTime File Format, "Timecode media information atom"."""
    yield fields(
        full(b"tcmi", u16(4, 5, 6), b"\7\x08", flags=0x01_0203),
        version=0, flags=66051, text_font=4, text_face=5, text_size=6, data_bytes="0708",
    )
    yield fields(
        full(b"tcmi", u16(4, 0x80, 6), flags=0x01_0203),
        version=0, flags=66051, text_font=4, text_face=128, text_size=6,
    )
