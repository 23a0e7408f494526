"""`colr`, colours: numbers if its type is `nclx`, and bytes otherwise. The last bits of the numbers are 1 1010101."""

from tests.rows.making import Box, box, declared_as, fields, u8, u16

NUMBERS = box(b"colr", b"nclx\x81\x82\x83\x84\x85\x86\xd5")
NCLX = {
    "colour_primaries": 0x8182, "transfer_characteristics": 0x8384, "matrix_coefficients": 0x8586,
    "full_range_flag": True, "reserved": 0x55,
}
PROFILE = box(b"colr", b"prof\x81\x82\x83")


def numbers():
    yield from declared_as(NUMBERS, Box("colr", colour=("Own", NCLX)))


def a_profile_of_three_bytes():
    yield from declared_as(PROFILE, Box("colr", colour=("Other", 0x70726F66, [0x81, 0x82, 0x83])))


def fields_of_colours():
    """ISO/IEC 14496-12, 12.1.5. QuickTime File Format: `nclc`, with a number of bytes that it doesn't have too."""
    numbers_of_nclx = {
        "colour_type": "nclx", "colour_primaries": 12, "colour_primaries_name": "SMPTE EG 432-1",
        "transfer_characteristics": 18, "transfer_characteristics_name": "ARIB STD-B67", "matrix_coefficients": 3,
    }
    # Ends the numbers with the bits 1 0000000, and then with 0 0101001.
    yield fields(box(b"colr", b"nclx", u16(12, 18, 3), u8(0x80)), **numbers_of_nclx, full_range_flag=1)
    yield fields(box(b"colr", b"nclx", u16(12, 18, 3), u8(0x29)), **numbers_of_nclx, full_range_flag=0, reserved=41)
    yield fields(
        box(b"colr", b"nclc", u16(6, 1, 7)), colour_type="nclc", colour_primaries=6, colour_primaries_name="BT.601",
        transfer_characteristics=1, transfer_characteristics_name="BT.709", matrix_coefficients=7,
        matrix_coefficients_name="SMPTE ST 240",
    )
    yield fields(box(b"colr", b"nclc", b"\0\6\0\1\0"), colour_type="nclc", data_bytes="0006000100")
    yield fields(box(b"colr", b"rICC", b"\x81\x82"), colour_type="rICC", ICC_profile="8182")
    yield fields(box(b"colr", b"prof", b"\x83"), colour_type="prof", ICC_profile="83")
    yield fields(box(b"colr", b"abcd"), colour_type="abcd", data_bytes="")
